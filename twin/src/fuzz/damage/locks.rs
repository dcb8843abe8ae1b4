//! Damage to locks, and to the waits for them.

use super::txns::{pick_slot, update};
use super::{set, waits};
use crate::fuzz::director;
use crate::fuzz::scene::Scene;
use crate::keeper::Call;
use crate::protocol::Tables;
use crate::rng::Rng;
use crate::sizes::*;

pub fn pick_item(rng: &mut Rng, t: &Tables, like: impl Fn(&[u64]) -> bool) -> Option<usize> {
    let rows = t.locks.chunks(LOCK_ROW).enumerate();
    let items: Vec<usize> = rows
        .filter(|(_, row)| like(row))
        .map(|(item, _)| item)
        .collect();
    rng.pick(&items)
}

pub fn awaits_held(rng: &mut Rng, t: &mut Tables, lock: u64) -> bool {
    let slot = match pick_slot(rng, t, update) {
        Some(slot) => slot,
        None => return false,
    };
    let holds = |row: &[u64]| {
        let shared = lock == AWAITS_SHARED && row[SHARED] >> slot & 1 != 0;
        shared || row[EXCLUSIVE] == slot as u64 + 1
    };
    match pick_item(rng, t, holds) {
        Some(item) => waits(t, slot, lock, item),
        None => false,
    }
}

pub fn shared_holder(rng: &mut Rng, t: &mut Tables, like: fn(&[u64]) -> bool) -> bool {
    match (
        pick_slot(rng, t, like),
        pick_item(rng, t, |row| row[EXCLUSIVE] == 0),
    ) {
        (Some(slot), Some(item)) => {
            t.locks[item * LOCK_ROW + SHARED] |= 1 << slot;
            true
        }
        _ => false,
    }
}

pub fn shared_high_bit(rng: &mut Rng, t: &mut Tables) -> bool {
    match pick_item(rng, t, |row| row[EXCLUSIVE] == 0) {
        Some(item) => {
            let first = SLOTS as u64;
            let bit = match rng.percent(50) {
                true => first,
                false => rng.within(first, 63),
            };
            t.locks[item * LOCK_ROW + SHARED] |= 1 << bit;
            true
        }
        None => false,
    }
}

pub fn exclusive_holder(rng: &mut Rng, t: &mut Tables, like: fn(&[u64]) -> bool) -> bool {
    match (
        pick_slot(rng, t, like),
        pick_item(rng, t, |row| row[SHARED] == 0),
    ) {
        (Some(slot), Some(item)) => set(&mut t.locks[item * LOCK_ROW + EXCLUSIVE], slot as u64 + 1),
        _ => false,
    }
}

/// An exclusive holder that is no slot, though a part of its bits may be one.
pub fn exclusive_high(rng: &mut Rng, t: &mut Tables) -> bool {
    let first = SLOTS as u64 + 1;
    let holder = match rng.below(4) {
        0 => first,
        1 => rng.within(first, 70),
        2 => rng.one_of(&[64, 128, 256, 1 << 16, 1 << 32]) + rng.below(first),
        _ => rng.odd_word().max(first),
    };
    match pick_item(rng, t, |row| row[SHARED] == 0) {
        Some(item) => set(&mut t.locks[item * LOCK_ROW + EXCLUSIVE], holder),
        None => false,
    }
}

pub fn both_holders(rng: &mut Rng, t: &mut Tables) -> bool {
    let (one, other) = match (pick_slot(rng, t, update), pick_slot(rng, t, update)) {
        (Some(one), Some(other)) => (one, other),
        _ => return false,
    };
    match pick_item(rng, t, |row| row[SHARED] | row[EXCLUSIVE] != 0) {
        Some(item) => {
            let row = &mut t.locks[item * LOCK_ROW..][..LOCK_ROW];
            row[SHARED] |= 1 << one;
            if row[EXCLUSIVE] == 0 {
                row[EXCLUSIVE] = other as u64 + 1;
            }
            true
        }
        None => false,
    }
}

pub fn working_value(rng: &mut Rng, t: &mut Tables) -> bool {
    match pick_item(rng, t, |row| row[EXCLUSIVE] == 0) {
        Some(item) => set(
            &mut t.locks[item * LOCK_ROW + WORKING],
            rng.odd_word().max(1),
        ),
        None => false,
    }
}

/// Two updates, each of which awaits exclusively what the other holds.
pub fn circle_of_two(rng: &mut Rng, t: &mut Tables) -> bool {
    let (one, other) = match (pick_slot(rng, t, update), pick_slot(rng, t, update)) {
        (Some(one), Some(other)) if one != other => (one, other),
        _ => return false,
    };
    let holds = |slot: usize| {
        move |row: &[u64]| row[SHARED] >> slot & 1 != 0 || row[EXCLUSIVE] == slot as u64 + 1
    };
    let items = (
        pick_item(rng, t, holds(other)),
        pick_item(rng, t, holds(one)),
    );
    if let (Some(wanted), Some(held)) = items {
        for (slot, item) in [(one, wanted), (other, held)] {
            waits(t, slot, AWAITS_EXCLUSIVE, item);
        }
    }
    items.0.is_some() && items.1.is_some()
}

/// The end of a chain of waits awaits what the chain's first one holds.
pub fn circle_along_waits(rng: &mut Rng, t: &mut Tables) -> bool {
    let keeper = match t.as_keeper() {
        Some(keeper) => keeper,
        None => return false,
    };
    let scene = Scene::of(&keeper);
    let (number, item, lock) = match director::close(rng, &scene) {
        Some(Call::Read { number, item }) => (number, item, AWAITS_SHARED),
        Some(Call::Write { number, item, .. }) => (number, item, AWAITS_EXCLUSIVE),
        _ => return false,
    };
    match scene.find(number) {
        Some(txn) => waits(t, txn.slot, lock, item as usize),
        None => false,
    }
}
