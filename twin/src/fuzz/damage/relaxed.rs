//! Damage to relaxed queries, to the sets that updates have joined and to what is hidden,
//! each to one clause.

use super::ranks::without_line;
use super::settled::trim;
use super::txns::{live, pick_slot, query, relaxed, settled, update};
use super::{join, set, waits};
use crate::fuzz::line::{row_of, step_out};
use crate::fuzz::sets::{must_join, slots};
use crate::protocol::Tables;
use crate::rng::Rng;
use crate::sizes::*;

/// The bit of one that is set.
fn bit_of(rng: &mut Rng, word: u64) -> Option<u64> {
    let bits: Vec<u64> = (0..64).filter(|bit| word >> bit & 1 != 0).collect();
    rng.pick(&bits).map(|bit| 1 << bit)
}

/// The bit of a relaxed query; and one that is none.
fn of_relaxed(rng: &mut Rng, t: &Tables) -> Option<u64> {
    pick_slot(rng, t, relaxed).map(|slot| 1 << slot)
}

fn of_no_relaxed(rng: &mut Rng, t: &Tables) -> u64 {
    let any = 1 << rng.within(32, 63);
    let high = rng.one_of(&[1 << 32, 1 << 63, any]);
    match pick_slot(rng, t, |row| !relaxed(row)) {
        Some(slot) if rng.percent(70) => 1 << slot,
        _ => high,
    }
}

/// An item like this, by its locks and its versions.
fn pick_item(rng: &mut Rng, t: &Tables, like: impl Fn(&[u64], &[u64]) -> bool) -> Option<usize> {
    let rows = t.versions.chunks(VERSION_ROW);
    let all = t.locks.chunks(LOCK_ROW).zip(rows).enumerate();
    let items: Vec<usize> = all
        .filter(|(_, (lock, row))| like(lock, row))
        .map(|(item, _)| item)
        .collect();
    rng.pick(&items)
}

fn is_free(lock: &[u64]) -> bool {
    lock[SHARED] | lock[EXCLUSIVE] == 0
}

fn hidden_in(t: &mut Tables, item: usize, place: usize) -> &mut u64 {
    &mut t.versions[item * VERSION_ROW + hidden(place)]
}

/// It stands in the line of an item, where an update could.
pub fn relaxed_awaits(rng: &mut Rng, t: &mut Tables) -> bool {
    match (pick_slot(rng, t, relaxed), without_line(rng, t)) {
        (Some(slot), Some(item)) => waits(t, slot, rng.within(1, 2), item),
        _ => false,
    }
}

/// A query beside one past its writing becomes a relaxed one, and what it alone read goes;
/// or an update that holds nothing does.
pub fn beside_settled(rng: &mut Rng, t: &mut Tables) -> bool {
    if pick_slot(rng, t, settled).is_none() {
        return false;
    }
    let bare = |slot: &usize| {
        let holds =
            |row: &[u64]| row[SHARED] >> slot & 1 != 0 || row[EXCLUSIVE] == *slot as u64 + 1;
        !t.locks.chunks(LOCK_ROW).any(holds)
    };
    let mut some = slots(&t.txns, QUERY);
    some.extend(slots(&t.txns, UPDATE).into_iter().filter(bare));
    let slot = match rng.pick(&some) {
        Some(slot) => slot,
        None => return false,
    };
    step_out(&mut t.txns, slot);
    row_of(&mut t.txns, slot)[KIND..=START].copy_from_slice(&[RELAXED, 0]);
    trim(t);
    true
}

/// One that is no relaxed query has items read.
pub fn items_read(rng: &mut Rng, t: &mut Tables) -> bool {
    let some = rng.one_of(&[1, 1 << 32, 1 << 63, u64::MAX]);
    match pick_slot(rng, t, |row| live(row) && !relaxed(row)) {
        Some(slot) => set(&mut row_of(&mut t.txns, slot)[ITEMS_READ], some),
        None => false,
    }
}

/// One that is no update, or is past its writing, is later for a relaxed query.
pub fn later_for(rng: &mut Rng, t: &mut Tables) -> bool {
    let some = match of_relaxed(rng, t) {
        Some(bit) => bit,
        None => return false,
    };
    match pick_slot(rng, t, |row| query(row) || relaxed(row)) {
        Some(slot) => set(&mut row_of(&mut t.txns, slot)[LATER_FOR], some),
        None => false,
    }
}

/// An update is later for one that is no relaxed query.
pub fn later_for_others(rng: &mut Rng, t: &mut Tables) -> bool {
    let bit = of_no_relaxed(rng, t);
    match pick_slot(rng, t, update) {
        Some(slot) => {
            row_of(&mut t.txns, slot)[LATER_FOR] |= bit;
            true
        }
        None => false,
    }
}

/// A holder is not later for one that it must be later for; only for what it shares, or
/// only for what it holds exclusively, if there is such a one.
fn leaves(rng: &mut Rng, t: &mut Tables, whose: impl Fn(&Tables, usize) -> u64) -> bool {
    let some: Vec<(usize, u64)> = slots(&t.txns, UPDATE)
        .into_iter()
        .map(|slot| (slot, whose(t, slot)))
        .filter(|(_, sets)| *sets != 0)
        .collect();
    let (slot, sets) = match rng.pick(&some) {
        Some(one) => one,
        None => return false,
    };
    match bit_of(rng, sets) {
        Some(bit) => {
            row_of(&mut t.txns, slot)[LATER_FOR] &= !bit;
            true
        }
        None => false,
    }
}

/// The sets that a slot must be in for what it shares, and for what it holds exclusively.
fn both(t: &Tables, slot: usize) -> (u64, u64) {
    let each = (0..ITEMS).map(|item| must_join(&t.txns, &t.locks, &t.versions, slot, item));
    each.fold((0, 0), |all, one| (all.0 | one.0, all.1 | one.1))
}

/// The newest versions of what a slot holds exclusively are hidden from these.
fn hidden_of_held(t: &Tables, slot: usize) -> u64 {
    let held = (0..ITEMS).filter(|item| t.locks[item * LOCK_ROW + EXCLUSIVE] == slot as u64 + 1);
    held.fold(0, |sets, item| {
        sets | t.versions[item * VERSION_ROW + hidden(0)]
    })
}

/// These have read what a slot holds exclusively.
fn readers_of_held(t: &Tables, slot: usize) -> u64 {
    let held = (0..ITEMS).filter(|item| t.locks[item * LOCK_ROW + EXCLUSIVE] == slot as u64 + 1);
    let items = held.fold(0, |items, item| items | 1 << item);
    let rows = t.txns[TXN_HEAD..].chunks(TXN_ROW).enumerate();
    let readers = rows.filter(|(_, row)| relaxed(row) && row[ITEMS_READ] & items != 0);
    readers.fold(0, |sets, (query, _)| sets | 1 << query)
}

/// An update, one with little else, gets an item like this, whoever held it, and joins whom
/// it must.
fn gets(rng: &mut Rng, t: &mut Tables, how: usize, like: impl Fn(&Tables, usize) -> bool) {
    let held = |slot: usize| {
        let is_its =
            |row: &&[u64]| row[EXCLUSIVE] == slot as u64 + 1 || row[SHARED] >> slot & 1 != 0;
        t.locks.chunks(LOCK_ROW).filter(is_its).count()
    };
    let slot = slots(&t.txns, UPDATE)
        .into_iter()
        .min_by_key(|&slot| held(slot));
    let items: Vec<usize> = (0..ITEMS).filter(|item| like(t, *item)).collect();
    if let (Some(slot), Some(item)) = (slot, rng.pick(&items)) {
        // Who waits for nobody is on no circle.
        step_out(&mut t.txns, slot);
        let lock = match how {
            SHARED => [1 << slot, 0, 0],
            _ => [0, slot as u64 + 1, 7],
        };
        t.locks[item * LOCK_ROW..][..LOCK_ROW].copy_from_slice(&lock);
        join(t);
    }
}

/// The relaxed queries that an item's newest version is hidden from, and those that have
/// read it.
fn hidden_and_seen(t: &Tables, item: usize) -> (u64, u64) {
    let rows = t.txns[TXN_HEAD..].chunks(TXN_ROW).enumerate();
    let readers = rows.filter(|(_, row)| relaxed(row) && row[ITEMS_READ] >> item & 1 != 0);
    let seen = readers.fold(0, |sets, (query, _)| sets | 1 << query);
    (t.versions[item * VERSION_ROW + hidden(0)], seen)
}

pub fn sharer_leaves(rng: &mut Rng, t: &mut Tables) -> bool {
    gets(rng, t, SHARED, |t, item| hidden_and_seen(t, item).0 != 0);
    leaves(rng, t, |t, slot| {
        let (shared, exclusive) = both(t, slot);
        shared & !exclusive
    })
}

pub fn holder_leaves(rng: &mut Rng, t: &mut Tables) -> bool {
    gets(rng, t, EXCLUSIVE, |t, item| {
        let (hidden, seen) = hidden_and_seen(t, item);
        hidden & !seen != 0
    });
    leaves(rng, t, |t, slot| {
        let (shared, _) = both(t, slot);
        hidden_of_held(t, slot) & !shared & !readers_of_held(t, slot)
    })
}

pub fn holder_leaves_reader(rng: &mut Rng, t: &mut Tables) -> bool {
    gets(rng, t, EXCLUSIVE, |t, item| {
        let (hidden, seen) = hidden_and_seen(t, item);
        seen & !hidden != 0
    });
    leaves(rng, t, |t, slot| {
        let (shared, _) = both(t, slot);
        readers_of_held(t, slot) & !shared & !hidden_of_held(t, slot)
    })
}

/// Behind the versions of a row something is hidden from somebody.
pub fn unused_hidden(rng: &mut Rng, t: &mut Tables) -> bool {
    let bit = of_relaxed(rng, t).unwrap_or(1);
    match pick_item(rng, t, |_, row| row[COUNT] < PLACES as u64) {
        Some(item) => {
            let first = t.versions[item * VERSION_ROW + COUNT] as usize;
            let any = first + rng.index(PLACES - first);
            let place = rng.one_of(&[first, PLACES - 1, any]);
            set(hidden_in(t, item, place), bit)
        }
        None => false,
    }
}

/// The newer versions of a row are hidden from one that is no relaxed query.
pub fn hidden_others(rng: &mut Rng, t: &mut Tables) -> bool {
    let bit = of_no_relaxed(rng, t);
    match pick_item(rng, t, |lock, row| is_free(lock) && row[COUNT] > 1) {
        Some(item) => {
            let count = t.versions[item * VERSION_ROW + COUNT] as usize;
            for place in 0..=rng.index(count - 1) {
                *hidden_in(t, item, place) |= bit;
            }
            true
        }
        None => false,
    }
}

/// A version is hidden from one that a newer one is not hidden from.
pub fn not_nested(rng: &mut Rng, t: &mut Tables) -> bool {
    let is_long = |lock: &[u64], row: &[u64]| is_free(lock) && row[hidden(1)] != 0;
    let item = match pick_item(rng, t, is_long) {
        Some(item) => item,
        None => return false,
    };
    match bit_of(rng, *hidden_in(t, item, 1)) {
        Some(bit) => {
            *hidden_in(t, item, 0) &= !bit;
            true
        }
        None => false,
    }
}

/// Even the last version of a row is hidden from one.
pub fn last_hidden(rng: &mut Rng, t: &mut Tables) -> bool {
    let bit = match of_relaxed(rng, t) {
        Some(bit) => bit,
        None => return false,
    };
    let most = rng.one_of(&[1, 1, 1, PLACES as u64]);
    match pick_item(rng, t, |lock, row| is_free(lock) && row[COUNT] <= most) {
        Some(item) => {
            let count = t.versions[item * VERSION_ROW + COUNT] as usize;
            for place in 0..count {
                *hidden_in(t, item, place) |= bit;
            }
            true
        }
        None => false,
    }
}

#[cfg(test)]
mod tests {
    use super::super::tests::share;
    use super::*;
    use crate::clauses::Clause;

    #[test]
    fn each_clause_alone() {
        assert_eq!(share(items_read, &[Clause::ItemsRead]), 100);
        assert_eq!(share(later_for, &[Clause::LaterFor]), 100);
        assert_eq!(share(later_for_others, &[Clause::LaterForOthers]), 100);
        assert!(share(sharer_leaves, &[Clause::SharerLater]) > 90);
        assert!(share(holder_leaves, &[Clause::HolderLater]) > 90);
        assert!(share(holder_leaves_reader, &[Clause::HolderLaterRead]) > 90);
        assert_eq!(share(unused_hidden, &[Clause::UnusedHidden]), 100);
        assert_eq!(share(hidden_others, &[Clause::HiddenOthers]), 100);
        assert!(share(not_nested, &[Clause::HiddenNested]) > 20);
        assert!(share(last_hidden, &[Clause::HiddenLast]) > 50);
        assert_eq!(share(beside_settled, &[Clause::RelaxedBesideSettled]), 100);
        assert!(share(relaxed_awaits, &[Clause::RelaxedAwaits]) > 50);
    }
}
