//! Good tables that are full, made on purpose, each with a call that shows it:
//! one line of nearly all slots, a chain of waits of many slots, or full rows.

use super::line::{row_of, step_in};
use super::made::shuffled;
use crate::keeper::{Call, Keeper};
use crate::rng::Rng;
use crate::sizes::*;

/// Full tables and a call on them.
pub fn full(rng: &mut Rng) -> (Keeper, Call) {
    let mut keeper = Keeper::fresh();
    keeper.txns[LAST_NUMBER] = rng.within(SLOTS as u64, LAST);
    keeper.txns[CLOCK] = rng.one_of(&[200, 1000, LAST - 1]);
    let slots = shuffled(rng, (0..SLOTS).collect());
    // Which slot has which number says nothing.
    for (number, &slot) in (1..).zip(&shuffled(rng, slots.clone())) {
        row_of(&mut keeper.txns, slot)[NUMBER] = number;
    }
    let call = match rng.below(3) {
        0 => line(rng, &mut keeper, &slots),
        1 => chain(rng, &mut keeper, &slots),
        _ => rows(rng, &mut keeper, &slots),
    };
    (keeper, call)
}

fn number(keeper: &Keeper, slot: usize) -> u64 {
    keeper.txns[TXN_HEAD + slot * TXN_ROW + NUMBER]
}

/// A call that asks for a lock.
fn asks(rng: &mut Rng, keeper: &Keeper, slot: usize, lock: u64, item: u64) -> Call {
    let (number, value) = (number(keeper, slot), rng.odd_word());
    match lock {
        AWAITS_SHARED => Call::Read { number, item },
        _ => Call::Write {
            number,
            item,
            value,
        },
    }
}

fn some_lock(rng: &mut Rng) -> u64 {
    rng.one_of(&[AWAITS_SHARED, AWAITS_EXCLUSIVE])
}

/// All slots, or all but one or two, await an item. One of the others asks for it
/// too, or one of them asks again, ends, or is asked to.
fn line(rng: &mut Rng, keeper: &mut Keeper, slots: &[usize]) -> Call {
    let item = rng.index(ITEMS);
    let (idle, waiting) = slots.split_at(rng.index(3));
    let Keeper { txns, locks, .. } = keeper;
    if let (Some(&holder), true) = (idle.first(), rng.percent(50)) {
        locks[item * LOCK_ROW + EXCLUSIVE] = holder as u64 + 1;
    }
    for &slot in waiting {
        step_in(txns, locks, slot, some_lock(rng), item);
    }
    match (idle.last(), rng.below(4)) {
        (Some(&slot), 0..=2) => {
            let lock = some_lock(rng);
            asks(rng, keeper, slot, lock, item as u64)
        }
        _ => {
            let slot = rng.one_of(waiting);
            let lock = row_of(&mut keeper.txns, slot)[AWAITED_LOCK];
            match rng.percent(50) {
                true => asks(rng, keeper, slot, lock, item as u64),
                false => Call::Abort {
                    number: number(keeper, slot),
                },
            }
        }
    }
}

/// Each of many slots awaits what the next one holds. The last one asks for what
/// one of them holds, mostly the first.
fn chain(rng: &mut Rng, keeper: &mut Keeper, slots: &[usize]) -> Call {
    let count = match rng.percent(40) {
        true => SLOTS,
        false => rng.within(2, SLOTS as u64) as usize,
    };
    let chain = &slots[..count];
    let first = rng.index(ITEMS);
    let item = |place: usize| (first + place) % ITEMS;
    let Keeper { txns, locks, .. } = keeper;
    for (place, &slot) in chain.iter().enumerate() {
        let row = &mut locks[item(place) * LOCK_ROW..][..LOCK_ROW];
        match rng.percent(30) {
            true => row[SHARED] = 1 << slot,
            false => row[EXCLUSIVE] = slot as u64 + 1,
        }
    }
    for (place, &slot) in chain[..count - 1].iter().enumerate() {
        step_in(txns, locks, slot, AWAITS_EXCLUSIVE, item(place + 1));
    }
    let asked = match rng.percent(70) {
        true => 0,
        false => rng.index(count - 1),
    };
    let lock = match locks[item(asked) * LOCK_ROW + SHARED] {
        0 => some_lock(rng),
        _ => AWAITS_EXCLUSIVE,
    };
    asks(rng, keeper, chain[count - 1], lock, item(asked) as u64)
}

/// Readers in all slots, or in all but that of an update, each with a version of
/// its own in most rows. Some of them, or all, are past their writing, and so may
/// the update be. The update commits, or a reader reads or ends.
fn rows(rng: &mut Rng, keeper: &mut Keeper, slots: &[usize]) -> Call {
    let clock = keeper.txns[CLOCK];
    let (updates, queries) = slots.split_at(rng.index(2));
    // Two stamps for each query: its start, and one that is between two starts.
    let start = |place: usize| clock - 3 * place as u64 - 1;
    let settled = rng.one_of(&[0, 0, 50, 100]);
    for (place, &slot) in queries.iter().enumerate() {
        let row = row_of(&mut keeper.txns, slot);
        row[KIND] = match rng.percent(settled) {
            true => SETTLED,
            false => QUERY,
        };
        row[START] = start(place);
    }
    // Its stamp is above all that is there, so nothing newer is.
    let is_past = rng.percent(40);
    if let (Some(&slot), true) = (updates.first(), is_past) {
        row_of(&mut keeper.txns, slot)[KIND..=START].copy_from_slice(&[SETTLED, clock]);
    }
    for row in keeper.versions.chunks_mut(VERSION_ROW) {
        if rng.percent(20) {
            continue;
        }
        let has_newer = queries.len() < PLACES && !is_past && rng.percent(50);
        let newer = Some(clock).filter(|_| has_newer);
        let older = (0..queries.len()).map(|place| start(place) - rng.below(3));
        let stamps: Vec<u64> = newer.into_iter().chain(older).collect();
        row[COUNT] = stamps.len() as u64;
        for (pair, stamp) in row[1..].chunks_mut(2).zip(stamps) {
            pair.copy_from_slice(&[stamp, rng.odd_word()]);
        }
    }
    let item = rng.below(ITEMS as u64);
    let query = number(keeper, rng.one_of(queries));
    match (updates.first(), rng.below(4)) {
        (Some(&slot), 0..=2) => {
            for item in (0..QUOTA).map(|turn| (item as usize + 2 * turn) % ITEMS) {
                let row = &mut keeper.locks[item * LOCK_ROW..][..LOCK_ROW];
                row[EXCLUSIVE..].copy_from_slice(&[slot as u64 + 1, rng.odd_word()]);
            }
            Call::Commit {
                number: number(keeper, slot),
            }
        }
        (None, 0) => rng.one_of(&[Call::Update, Call::Query]),
        (_, 1) => rng.one_of(&[
            Call::Commit { number: query },
            Call::Abort { number: query },
        ]),
        _ => Call::Read {
            number: query,
            item,
        },
    }
}

#[cfg(test)]
mod tests {
    use super::*;
    use crate::answer::code;
    use crate::clauses::broken;

    #[test]
    fn full_tables_are_good_and_tell() {
        let mut codes = [0; code::NAMES.len()];
        for seed in 0..3000 {
            let (mut keeper, call) = full(&mut Rng::new(seed));
            let list = broken(&keeper.txns, &keeper.locks, &keeper.versions);
            assert!(list.is_empty(), "seed {}: {:?}", seed, list);
            codes[keeper.call(call).code as usize] += 1;
        }
        for code in [code::GRANTED, code::WAIT, code::DEADLOCK, code::NO_SLOT] {
            assert!(codes[code as usize] > 50, "{:?}", codes);
        }
        assert_eq!(codes[code::BAD_TABLES as usize], 0);
    }
}
