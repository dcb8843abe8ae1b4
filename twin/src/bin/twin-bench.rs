//! How long a call of the twin takes, the test of all tables included.
//! `twin-bench [MILLISECONDS]` spends that long on each line, 300 by default.

use std::time::{Duration, Instant};

use twin::sizes::{ITEMS, PLACES, QUOTA, SLOTS};
use twin::{code, Answer, Call, Keeper};

fn main() {
    let spend = match std::env::args().nth(1).map(|word| word.parse()) {
        None => Duration::from_millis(300),
        Some(Ok(milliseconds)) => Duration::from_millis(milliseconds),
        Some(Err(_)) => {
            eprintln!("usage: twin-bench [MILLISECONDS]");
            std::process::exit(2);
        }
    };
    println!(
        "{:<38} {:>9} {:>9} {:>12}",
        "nanoseconds a call", "mean", "best", "calls/s"
    );
    println!("fresh tables");
    measure(&fresh(), spend);
    println!(
        "full rows ({} of {} versions), {} queries",
        ITEMS,
        PLACES,
        SLOTS - 1
    );
    measure(&full(), spend);
    println!("rows rewritten");
    rows(spend);
    settles(spend);
}

/// One query is live, and nothing was ever written.
fn fresh() -> Keeper {
    let mut keeper = Keeper::fresh();
    granted(&mut keeper, Call::Query);
    keeper
}

/// A query in every slot but one, and commits of every item after each, by two
/// updates: one may not write so many.
fn full() -> Keeper {
    let mut keeper = Keeper::fresh();
    let items: Vec<u64> = (0..ITEMS as u64).collect();
    for round in 1..SLOTS as u64 {
        granted(&mut keeper, Call::Query);
        for items in items.chunks(QUOTA) {
            let number = granted(&mut keeper, Call::Update).number;
            for &item in items {
                write(&mut keeper, number, item, round);
            }
            granted(&mut keeper, Call::Commit { number });
        }
    }
    keeper
}

fn measure(start: &Keeper, spend: Duration) {
    let item = |turn: u64| turn % ITEMS as u64;

    let mut keeper = start.clone();
    line("test of all tables alone", spend, 1, |_| {
        keeper.txns[0] += 1; // so that each turn has to look again
        assert!(keeper.is_good());
    });

    let mut keeper = start.clone();
    line("query: read", spend, 1, |turn| {
        let (number, item) = (1, item(turn));
        granted(&mut keeper, Call::Read { number, item });
    });

    let mut keeper = start.clone();
    line("update: begin, read, write, commit", spend, 4, |turn| {
        let item = item(turn);
        let number = granted(&mut keeper, Call::Update).number;
        granted(&mut keeper, Call::Read { number, item });
        write(&mut keeper, number, item, turn);
        granted(&mut keeper, Call::Commit { number });
    });

    let mut keeper = start.clone();
    line("query: begin, read, commit", spend, 3, |turn| {
        let item = item(turn);
        let number = granted(&mut keeper, Call::Query).number;
        granted(&mut keeper, Call::Read { number, item });
        granted(&mut keeper, Call::Commit { number });
    });
}

/// Ends of queries and commits of full jobs, which rewrite rows.
fn rows(spend: Duration) {
    // in each round of `full` a query takes a number, and so do the updates
    let round = 1 + (ITEMS / QUOTA) as u64;
    let mut keeper = Keeper::fresh();
    let number = full_job(&mut keeper);
    commit("commit of a full job, one version", spend, &keeper, number);
    let mut keeper = full();
    let number = granted(&mut keeper, Call::Query).number;
    commit("query's end, no version goes", spend, &keeper, number);
    granted(&mut keeper, Call::Commit { number });
    let middle = 1 + round * (SLOTS as u64 / 2);
    commit("query's end, one of each row goes", spend, &keeper, middle);
    let number = full_job(&mut keeper);
    commit("commit of a full job, full rows", spend, &keeper, number);
    // a version of each row goes, and the newest is read: the rows have room
    // for one more, and get it
    let mut keeper = full();
    granted(&mut keeper, Call::Commit { number: 1 });
    granted(&mut keeper, Call::Query);
    let number = full_job(&mut keeper);
    commit(
        "commit of a full job, rows get full",
        spend,
        &keeper,
        number,
    );
}

/// An update that has written as many items as one may.
fn full_job(keeper: &mut Keeper) -> u64 {
    let number = granted(keeper, Call::Update).number;
    for item in 0..QUOTA as u64 {
        write(keeper, number, item, 1 + item);
    }
    number
}

/// A commit, a settle, and the commit past the writing, of the same update on
/// the same tables.
fn settles(spend: Duration) {
    let settle = |on: &str, mut keeper: Keeper, number: u64| {
        println!("settle beside commit: {}", on);
        commit("commit", spend, &keeper, number);
        once("settle", spend, &keeper, Call::Settle { number });
        granted(&mut keeper, Call::Settle { number });
        commit("commit past its writing", spend, &keeper, number);
    };
    let mut keeper = Keeper::fresh();
    let number = small_job(&mut keeper, 0);
    settle("one write, fresh tables", keeper, number);
    let mut keeper = Keeper::fresh();
    let number = small_job(&mut keeper, ITEMS as u64 - 1);
    settle("one write and all other items shared", keeper, number);
    let mut keeper = Keeper::fresh();
    let number = full_job(&mut keeper);
    settle("a full job, one version", keeper, number);
    let mut keeper = full();
    let number = small_job(&mut keeper, 0);
    settle("one write, full tables", keeper, number);
    let mut keeper = full();
    let number = full_job(&mut keeper);
    settle("a full job, full rows", keeper, number);
}

/// An update with one write, and so many items more that it shares.
fn small_job(keeper: &mut Keeper, shares: u64) -> u64 {
    let number = granted(keeper, Call::Update).number;
    write(keeper, number, 0, 1);
    for item in 1..=shares {
        granted(keeper, Call::Read { number, item });
    }
    number
}

fn commit(name: &str, spend: Duration, start: &Keeper, number: u64) {
    once(name, spend, start, Call::Commit { number });
}

/// A call each time on the same tables: only the call is timed, the mean and the
/// best of short runs.
fn once(name: &str, spend: Duration, start: &Keeper, the_call: Call) {
    const CALLS: u64 = 200;
    let mut keeper = start.clone();
    let begin = Instant::now();
    let (mut sum, mut calls, mut best) = (Duration::ZERO, 0, f64::INFINITY);
    while begin.elapsed() < spend {
        let mut run = Duration::ZERO;
        for _ in 0..CALLS {
            let call = Instant::now();
            let answer = keeper.call(the_call);
            run += call.elapsed();
            assert_eq!(answer.code, code::GRANTED);
            keeper.clone_from(start);
        }
        best = best.min(per_call(run, CALLS));
        sum += run;
        calls += CALLS;
    }
    report(name, per_call(sum, calls), best);
}

/// The mean over all turns, and the best of the batches of 1,000 turns: on a
/// busy machine only the best says what a call costs.
fn line(name: &str, spend: Duration, calls: u64, mut turn: impl FnMut(u64)) {
    const BATCH: u64 = 1000;
    let begin = Instant::now();
    let mut turns = 0;
    let mut best = f64::INFINITY;
    while begin.elapsed() < spend {
        let batch = Instant::now();
        for _ in 0..BATCH {
            turn(turns);
            turns += 1;
        }
        best = best.min(per_call(batch.elapsed(), BATCH * calls));
    }
    report(name, per_call(begin.elapsed(), turns * calls), best);
}

fn report(name: &str, mean: f64, best: f64) {
    println!(
        "  {:<36} {:>9.0} {:>9.0} {:>12.0}",
        name,
        mean,
        best,
        1e9 / best
    );
}

fn per_call(time: Duration, calls: u64) -> f64 {
    time.as_nanos() as f64 / calls as f64
}

fn granted(keeper: &mut Keeper, call: Call) -> Answer {
    let answer = keeper.call(call);
    assert_eq!(answer.code, code::GRANTED, "{:?}", call);
    answer
}

fn write(keeper: &mut Keeper, number: u64, item: u64, value: u64) {
    let call = Call::Write {
        number,
        item,
        value,
    };
    granted(keeper, call);
}
