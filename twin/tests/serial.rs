//! Demand 3 with those past their writing (request E6) and commits of nothing (E7):
//! updates in the order of their stamps, each query behind the stamps up to its
//! start, each commit of nothing behind the stamps up to its number; and what others
//! do does not alter what a query is granted. And of relaxed queries (request E11): the
//! updates outside the set of each, run alone, give what it read.

use std::collections::{BTreeMap, BTreeSet};

use twin::fuzz::director::Director;
use twin::rng::Rng;
use twin::sizes::*;
use twin::{code, Call, Keeper};

/// A granted read with what it gave, or a granted write.
#[derive(Clone, Copy)]
enum Deed {
    Read(usize, u64),
    Write(usize, u64),
}

type Log = Vec<Deed>;

/// What was granted to whom, and where each one stands.
#[derive(Default)]
struct Run {
    logs: BTreeMap<u64, Log>,
    /// By stamp, what a committed update did.
    updates: BTreeMap<u64, Log>,
    /// The start of each query.
    queries: BTreeMap<u64, u64>,
    /// What was answered to each commit of nothing.
    empty: BTreeMap<u64, u64>,
    settled: BTreeSet<u64>,
    relaxed: BTreeSet<u64>,
    out_of_order: u64,
    behind_empty: u64,
}

impl Run {
    fn see(&mut self, call: Call, keeper: &mut Keeper) {
        let clock = keeper.txns[CLOCK];
        let answer = keeper.call(call);
        if answer.code != code::GRANTED {
            return;
        }
        let mut add = |number: u64, deed: Deed| self.logs.entry(number).or_default().push(deed);
        match call {
            Call::Query => drop(self.queries.insert(answer.number, clock)),
            Call::Relaxed => drop(self.relaxed.insert(answer.number)),
            // What these read the other test tells.
            Call::Read { number, .. } | Call::Commit { number } | Call::Abort { number }
                if self.relaxed.contains(&number) => {}
            Call::Settle { number } => drop(self.settled.insert(number)),
            Call::Read { number, item } => add(number, Deed::Read(item as usize, answer.value)),
            Call::Write {
                number,
                item,
                value,
            } => add(number, Deed::Write(item as usize, value)),
            Call::Commit { number } if self.is_empty(number) => {
                assert_eq!((answer.number, keeper.txns[CLOCK]), (clock, clock));
                self.empty.insert(number, clock);
            }
            Call::Commit { number } if !self.queries.contains_key(&number) => {
                let log = self.logs.remove(&number).unwrap_or_default();
                let later = self.updates.range(answer.number..).next();
                self.out_of_order += u64::from(later.is_some());
                let is_behind = self.empty.values().any(|stamp| *stamp >= answer.number);
                self.behind_empty += u64::from(is_behind);
                let twice = self.updates.insert(answer.number, log);
                assert!(twice.is_none(), "stamp {} twice", answer.number);
            }
            Call::Abort { number } if !self.queries.contains_key(&number) => {
                self.logs.remove(&number);
            }
            _ => {}
        }
    }

    /// Whether this is an update that was granted no write and did not settle.
    fn is_empty(&self, number: u64) -> bool {
        let log = self.logs.get(&number).map_or(&[][..], |log| log);
        let wrote = log.iter().any(|deed| matches!(deed, Deed::Write(..)));
        !wrote && !self.queries.contains_key(&number) && !self.settled.contains(&number)
    }

    /// Everything once more, one after another, on an array, with each commit of
    /// nothing right behind this stamp. Tells who read something else.
    fn again(&self, place: fn(u64) -> u64) -> (Vec<u64>, [u64; ITEMS]) {
        let (mut wrong, mut array) = (Vec::new(), [0; ITEMS]);
        // Those that write nothing stand behind a stamp, whenever they came.
        let queries = self.queries.iter().map(|(number, start)| (*start, *number));
        let empty = self
            .empty
            .iter()
            .map(|(number, clock)| (place(*clock), *number));
        let mut readers: Vec<(u64, u64)> = queries.chain(empty).collect();
        readers.sort_unstable();
        let mut readers = readers.into_iter().peekable();
        let ends = [(u64::MAX, Log::new())];
        let all = self.updates.iter().map(|(stamp, log)| (*stamp, log));
        for (stamp, log) in all.chain(ends.iter().map(|(stamp, log)| (*stamp, log))) {
            while let Some((_, number)) = readers.next_if(|(start, _)| *start < stamp) {
                let log = self.logs.get(&number).map_or(&[][..], |log| log);
                wrong.extend(Some(number).filter(|_| !fits(log, &mut array)));
            }
            wrong.extend(Some(stamp).filter(|_| !fits(log, &mut array)));
        }
        (wrong, array)
    }

    fn check(&self, keeper: &Keeper) {
        let (wrong, array) = self.again(|clock| clock);
        assert_eq!(wrong, [], "who read something else");
        for (item, row) in keeper.versions.chunks(VERSION_ROW).enumerate() {
            assert_eq!(row[2], array[item], "newest value of {}", item);
        }
    }
}

/// Does it all, and tells whether every read gave what it gives now.
fn fits(log: &[Deed], array: &mut [u64; ITEMS]) -> bool {
    let mut fits = true;
    for deed in log {
        match *deed {
            Deed::Read(item, value) => fits &= array[item] == value,
            Deed::Write(item, value) => array[item] = value,
        }
    }
    fits
}

#[test]
fn by_stamp_every_granted_read_is_right() {
    let (mut out_of_order, mut empty, mut behind_empty) = (0, 0, 0);
    let mut elsewhere = [0; 2];
    for seed in 0..60 {
        let mut rng = Rng::new(seed);
        let mut director = Director::new();
        let (mut keeper, mut run) = (Keeper::fresh(), Run::default());
        for _ in 0..4_000 {
            let call = director.next(&mut rng, &keeper);
            run.see(call, &mut keeper);
        }
        run.check(&keeper);
        out_of_order += run.out_of_order;
        behind_empty += run.behind_empty;
        let reads = |number: &&u64| run.logs.contains_key(number);
        empty += run.empty.keys().filter(reads).count();
        elsewhere[0] += run.again(|clock| clock.saturating_sub(1)).0.len();
        elsewhere[1] += run.again(|clock| clock + 1).0.len();
    }
    // In the order of the commits it would be wrong.
    assert!(out_of_order > 200, "{}", out_of_order);
    // Some read, and stand behind who commits later.
    let both = empty > 1_000 && behind_empty > 200;
    assert!(both, "{} {}", empty, behind_empty);
    // One place earlier or later would be wrong too.
    assert!(elsewhere.iter().all(|&wrong| wrong > 50), "{:?}", elsewhere);
}

/// The numbers of those past their writing.
fn settled(keeper: &Keeper) -> Vec<u64> {
    let rows = keeper.txns[TXN_HEAD..].chunks(TXN_ROW);
    let settled = rows.filter(|row| row[NUMBER] != 0 && row[KIND] == SETTLED);
    settled.map(|row| row[NUMBER]).collect()
}

/// What a query is granted of each item while others go on. Those past their
/// writing when it began may read and commit, and do nothing else.
fn granted(mut keeper: Keeper, number: u64, seed: u64) -> [Option<u64>; ITEMS] {
    let (mut rng, mut director) = (Rng::new(seed), Director::new());
    let past = settled(&keeper);
    let mut found = [None; ITEMS];
    for _ in 0..1_500 {
        let item = rng.below(ITEMS as u64);
        let answer = keeper.call(Call::Read { number, item });
        if answer.code == code::GRANTED {
            let before = found[item as usize].replace(answer.value);
            assert!(before.is_none() || before == Some(answer.value));
        } else {
            assert_eq!(answer.words(), [1, 0, 0, 0]);
        }
        let call = director.next(&mut rng, &keeper);
        let is_past = call.number().map_or(false, |number| past.contains(&number));
        let alters = matches!(call, Call::Write { .. } | Call::Abort { .. });
        if call.number() != Some(number) && !(is_past && alters) {
            let _ = keeper.call(call);
        }
    }
    found
}

#[test]
fn others_do_not_alter_what_a_query_is_granted() {
    let (mut both, mut waited) = (0, 0);
    for seed in 0..60 {
        let mut rng = Rng::new(1000 + seed);
        let (mut keeper, mut director) = (Keeper::fresh(), Director::new());
        for _ in 0..rng.within(100, 3_000) {
            let _ = keeper.call(director.next(&mut rng, &keeper));
        }
        let number = match keeper.call(Call::Query) {
            answer if answer.code == code::GRANTED => answer.number,
            _ => continue,
        };
        waited += settled(&keeper).len();
        let one = granted(keeper.clone(), number, 2 * seed);
        let other = granted(keeper, number, 2 * seed + 1);
        for (one, other) in one.into_iter().zip(other) {
            if let (Some(one), Some(other)) = (one, other) {
                assert_eq!(one, other, "seed {}", seed);
                both += 1;
            }
        }
    }
    assert!(both > 1_000 && waited > 20, "{} {}", both, waited);
}
