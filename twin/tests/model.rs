//! The twin against a model that forgets nothing, answer by answer and word by word.

mod forgets_nothing;

use forgets_nothing::{Model, Txn};
use twin::rng::Rng;
use twin::sizes::*;
use twin::{Call, Keeper};

/// A greedy run has few transactions that do little but write.
fn random_call(rng: &mut Rng, model: &Model, items: u64, greedy: bool) -> Call {
    let live: Vec<u64> = model.live.keys().copied().collect();
    let number = match rng.below(30) {
        0 => rng.below(model.last + 2),
        _ => rng.pick(&live).unwrap_or(0),
    };
    let waiting = model.live.get(&number).and_then(|txn| txn.awaits);
    let value = rng.next_word();
    if let (Some((is_write, item)), true) = (waiting, rng.percent(60)) {
        return match is_write {
            true => Call::Write {
                number,
                item,
                value,
            },
            false => Call::Read { number, item },
        };
    }
    let item = match rng.below(40) {
        0 => 64,
        _ => rng.below(items),
    };
    if greedy && live.len() >= 2 && rng.percent(92) {
        return match rng.percent(85) {
            true => Call::Write {
                number,
                item,
                value,
            },
            false => Call::Read { number, item },
        };
    }
    match rng.below(21) {
        20 => Call::Relaxed,
        0..=2 => Call::Update,
        3..=4 => Call::Query,
        5..=9 => Call::Read { number, item },
        10..=15 => Call::Write {
            number,
            item,
            value,
        },
        16..=17 => Call::Commit { number },
        18 => Call::Settle { number },
        _ => Call::Abort { number },
    }
}

#[test]
fn every_answer_and_every_word() {
    let mut codes = [0; 14];
    let (mut silent, mut empty, mut empty_spent, mut hidden) = (0, 0, 0, 0);
    for seed in 0..76 {
        let mut rng = Rng::new(seed);
        let items = rng.one_of(&[1, 2, 4, 12, 64]);
        let greedy = items == 64 && rng.percent(70);
        let mut model = Model::default();
        let mut keeper = Keeper::fresh();
        if seed >= 50 {
            // The clock will soon be spent.
            model.clock = LAST - rng.below(30);
            keeper.txns[CLOCK] = model.clock;
        }
        for _ in 0..2_000 {
            let call = random_call(&mut rng, &model, items, greedy);
            let is_empty = match call {
                Call::Commit { number } => model.live.get(&number).map_or(false, Txn::is_empty),
                _ => false,
            };
            let expected = model.call(call);
            let answer = keeper.call(call);
            assert_eq!(answer.words(), expected, "seed {}, {:?}", seed, call);
            assert!(keeper == model.tables(), "seed {}, {:?}", seed, call);
            codes[answer.code as usize] += 1;
            empty += u64::from(is_empty);
            empty_spent += u64::from(is_empty && model.clock == LAST);

            // Looked is at most 2 plus the other live readers that are relaxed or start
            // later; of a relaxed reader 2 plus all of them.
            let txn = call.number().and_then(|number| model.live.get(&number));
            if let (Call::Read { .. }, Some(txn)) = (call, txn) {
                let is_later = |other: &&Txn| match (txn.start, other.start) {
                    _ if txn.slot == other.slot => false,
                    (Some(start), Some(other)) => other > start,
                    (_, other_start) => other_start.is_some() || other.relaxed.is_some(),
                };
                let is_reader = txn.start.is_some() || txn.relaxed.is_some();
                let later = model.live.values().filter(is_later).count() as u64;
                assert!(!is_reader || answer.looked <= 2 + later);
                silent += u64::from(is_reader && answer.code == 1);
                hidden += u64::from(txn.relaxed.is_some() && answer.looked > 1);
            }
        }
    }
    assert!(codes[..8].iter().all(|&count| count > 50), "{:?}", codes);
    assert_eq!((codes[8], codes[10]), (0, 0));
    assert!(codes[9] > 50, "{:?}", codes);
    assert!(codes[11..].iter().all(|&count| count > 50), "{:?}", codes);
    assert!(hidden > 50, "{}", hidden);
    assert!(silent > 50, "{}", silent);
    assert!(empty > 500 && empty_spent > 50, "{} {}", empty, empty_spent);
}
