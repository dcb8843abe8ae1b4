//! Damage to those past their writing, and beside it what is still good.

use super::ranks::without_line;
use super::txns::{pick_slot, query, relaxed, settled, update};
use super::{set, waits};
use crate::fuzz::line::{row_of, step_out};
use crate::protocol::Tables;
use crate::rng::Rng;
use crate::sizes::*;

/// An update ends its writing, under a stamp that may be long gone; what it holds
/// and what would be too new for that goes. Which slot.
pub fn made_settled(rng: &mut Rng, t: &mut Tables) -> Option<usize> {
    if pick_slot(rng, t, relaxed).is_some() {
        return None;
    }
    let slot = pick_slot(rng, t, update)?;
    let clock = t.txns[CLOCK];
    let rows = || t.versions.chunks(VERSION_ROW);
    let last = |row: &[u64]| row[2 * row[COUNT] as usize - 1];
    // No reader is earlier than the last version of a row.
    let least = rows().map(last).max().unwrap_or(0).max(1);
    let is_taken = |stamp: &u64| {
        let mut rows = t.txns[TXN_HEAD..].chunks(TXN_ROW);
        rows.any(|row| settled(row) && row[START] == *stamp)
    };
    let back = rng.one_of(&[0, 0, 1, 3, 40]);
    let first = clock.checked_sub(back)?;
    let mut stamps = (least..=first).rev().take(SLOTS + 1);
    let stamp = stamps.find(|stamp| !is_taken(stamp))?;
    step_out(&mut t.txns, slot);
    let row = row_of(&mut t.txns, slot);
    row[KIND..=START].copy_from_slice(&[SETTLED, stamp]);
    let versions = t.versions.chunks(VERSION_ROW);
    for (lock, versions) in t.locks.chunks_mut(LOCK_ROW).zip(versions) {
        lock[SHARED] &= !(1 << slot);
        if lock[EXCLUSIVE] == slot as u64 + 1 && versions[1] >= stamp {
            lock.fill(0);
        }
    }
    Some(slot)
}

/// One past its writing; often it is made.
fn some_settled(rng: &mut Rng, t: &mut Tables) -> Option<usize> {
    match rng.percent(50) {
        true => made_settled(rng, t),
        false => pick_slot(rng, t, settled),
    }
}

/// Each row keeps its newest version and those that some reader reads.
pub fn trim(t: &mut Tables) {
    let rows = t.txns[TXN_HEAD..].chunks(TXN_ROW);
    let readers = rows.filter(|row| query(row) || settled(row));
    let starts: Vec<u64> = readers.map(|row| row[START]).collect();
    for row in t.versions.chunks_mut(VERSION_ROW) {
        let used = row[1..].chunks(2).take(row[COUNT] as usize);
        let pairs: Vec<(u64, u64)> = used.map(|pair| (pair[0], pair[1])).collect();
        keep(row, &pairs, &starts);
    }
}

/// Writes of these pairs the newest and those that are read; false if they have
/// no room.
fn keep(row: &mut [u64], pairs: &[(u64, u64)], starts: &[u64]) -> bool {
    let read = |start: &u64| pairs.iter().position(|pair| pair.0 <= *start);
    let mut places: Vec<usize> = starts.iter().filter_map(read).chain([0]).collect();
    places.sort_unstable();
    places.dedup();
    if places.len() > PLACES {
        return false;
    }
    row.fill(0);
    row[COUNT] = places.len() as u64;
    for (words, place) in row[1..].chunks_mut(2).zip(places) {
        words.copy_from_slice(&[pairs[place].0, pairs[place].1]);
    }
    true
}

/// It stands in the line of an item, where an update could.
pub fn settled_awaits(rng: &mut Rng, t: &mut Tables) -> bool {
    match (some_settled(rng, t), without_line(rng, t)) {
        (Some(slot), Some(item)) => waits(t, slot, rng.within(1, 2), item),
        _ => false,
    }
}

pub fn settled_shares(rng: &mut Rng, t: &mut Tables) -> bool {
    let slot = match some_settled(rng, t) {
        Some(slot) => slot,
        None => return false,
    };
    match super::locks::pick_item(rng, t, |row| row[EXCLUSIVE] == 0) {
        Some(item) => {
            t.locks[item * LOCK_ROW + SHARED] |= 1 << slot;
            true
        }
        None => false,
    }
}

/// Its stamp is 0, it holds nothing, and every row has a version for it.
pub fn stamp_zero(rng: &mut Rng, t: &mut Tables) -> bool {
    let slot = match some_settled(rng, t) {
        Some(slot) => slot,
        None => return false,
    };
    for lock in t.locks.chunks_mut(LOCK_ROW) {
        if lock[EXCLUSIVE] == slot as u64 + 1 {
            lock.fill(0);
        }
    }
    for row in t.versions.chunks_mut(VERSION_ROW) {
        row[2 * row[COUNT] as usize - 1] = 0;
    }
    row_of(&mut t.txns, slot)[START] = 0;
    trim(t);
    true
}

pub fn stamp_above(rng: &mut Rng, t: &mut Tables) -> bool {
    let clock = t.txns[CLOCK];
    match some_settled(rng, t) {
        Some(slot) => {
            let above = rng.one_of(&[clock + 1, clock + 1, clock + 2, 1 << 32, u64::MAX]);
            row_of(&mut t.txns, slot)[START] = above;
            trim(t);
            true
        }
        None => false,
    }
}

/// The one with the smaller stamp gets the other's, so what it holds is older still.
pub fn stamp_twice(rng: &mut Rng, t: &mut Tables) -> bool {
    let (one, other) = match (some_settled(rng, t), some_settled(rng, t)) {
        (Some(one), Some(other)) if one != other => (one, other),
        _ => return false,
    };
    let stamps = [one, other].map(|slot| row_of(&mut t.txns, slot)[START]);
    let larger = stamps[0].max(stamps[1]);
    for slot in [one, other] {
        row_of(&mut t.txns, slot)[START] = larger;
    }
    trim(t);
    true
}

/// What it holds has a version with its stamp, or with a larger one.
pub fn held_version(rng: &mut Rng, t: &mut Tables) -> bool {
    let slot = match some_settled(rng, t) {
        Some(slot) => slot,
        None => return false,
    };
    let (clock, stamp) = (t.txns[CLOCK], row_of(&mut t.txns, slot)[START]);
    let is_held = |row: &[u64]| row[EXCLUSIVE] == slot as u64 + 1;
    let is_free = |row: &[u64]| row[SHARED] | row[EXCLUSIVE] == 0;
    let mut item = super::locks::pick_item(rng, t, is_held);
    if item.is_none() {
        item = super::locks::pick_item(rng, t, is_free);
    }
    let item = match item {
        Some(item) if stamp <= clock => item,
        _ => return false,
    };
    t.locks[item * LOCK_ROW + EXCLUSIVE] = slot as u64 + 1;
    let rows = t.txns[TXN_HEAD..].chunks(TXN_ROW);
    let readers = rows.filter(|row| query(row) || settled(row));
    let starts: Vec<u64> = readers.map(|row| row[START]).collect();
    let row = &mut t.versions[item * VERSION_ROW..][..VERSION_ROW];
    let newer = match rng.percent(60) {
        true => stamp,
        false => rng.within(stamp, clock),
    };
    let used = row[1..].chunks(2).take(row[COUNT] as usize);
    let older = used
        .map(|pair| (pair[0], pair[1]))
        .filter(|pair| pair.0 < newer);
    let pairs: Vec<(u64, u64)> = [(newer, rng.odd_word())].into_iter().chain(older).collect();
    keep(row, &pairs, &starts)
}

/// A row of one version that is above the stamp of one past its writing, and
/// above no query's start.
pub fn last_above(rng: &mut Rng, t: &mut Tables) -> bool {
    let slot = match some_settled(rng, t) {
        Some(slot) => slot,
        None => return false,
    };
    let (clock, stamp) = (t.txns[CLOCK], row_of(&mut t.txns, slot)[START]);
    let rows = t.txns[TXN_HEAD..].chunks(TXN_ROW);
    let most = rows.filter(|row| query(row)).map(|row| row[START]).min();
    let most = most.unwrap_or(clock).min(clock);
    let is_held = |item: usize| t.locks[item * LOCK_ROW + EXCLUSIVE] != 0;
    let is_alone = |item: &usize| t.versions[item * VERSION_ROW] == 1 && !is_held(*item);
    let items: Vec<usize> = (0..ITEMS).filter(is_alone).collect();
    match rng.pick(&items) {
        Some(item) if stamp < most => {
            let above = rng.within(stamp + 1, most.min(stamp + 3));
            set(&mut t.versions[item * VERSION_ROW + 1], above)
        }
        _ => false,
    }
}

/// It gets items, old enough for it, until it has this many.
pub fn settled_holds(rng: &mut Rng, t: &mut Tables, count: usize) -> bool {
    let slot = match some_settled(rng, t) {
        Some(slot) => slot,
        None => return false,
    };
    let (holder, stamp) = (slot as u64 + 1, row_of(&mut t.txns, slot)[START]);
    let is_held = |row: &&[u64]| row[EXCLUSIVE] == holder;
    let mut held = t.locks.chunks(LOCK_ROW).filter(is_held).count();
    let first = rng.index(ITEMS);
    for item in (0..ITEMS).map(|turn| (first + turn) % ITEMS) {
        let is_old = t.versions[item * VERSION_ROW + 1] < stamp;
        let row = &mut t.locks[item * LOCK_ROW..][..LOCK_ROW];
        if held < count && is_old && row[EXCLUSIVE] != holder {
            row.copy_from_slice(&[0, holder, rng.odd_word()]);
            held += 1;
        }
    }
    held == count
}

/// A live one's kind is another one.
pub fn another_kind(rng: &mut Rng, t: &mut Tables) -> bool {
    match pick_slot(rng, t, |row| row[NUMBER] != 0) {
        Some(slot) => {
            let row = row_of(&mut t.txns, slot);
            let kind = (row[KIND] + rng.within(1, 3)) % 4;
            if rng.percent(70) {
                row[READS..].fill(0); // else these tell it
            }
            set(&mut row[KIND], kind)
        }
        None => false,
    }
}

#[cfg(test)]
mod tests {
    use super::super::tests::share;
    use super::*;
    use crate::clauses::Clause;

    #[test]
    fn each_clause_alone() {
        assert_eq!(share(|rng, t| made_settled(rng, t).is_some(), &[]), 100);
        assert!(share(|rng, t| settled_holds(rng, t, QUOTA), &[]) > 80);
        assert!(share(|rng, t| settled_holds(rng, t, QUOTA + 1), &[Clause::Quota]) > 80);
        assert!(share(settled_awaits, &[Clause::SettledAwaits]) > 50);
        assert_eq!(share(settled_shares, &[Clause::SettledShares]), 100);
        assert_eq!(share(stamp_zero, &[Clause::SettledStampZero]), 100);
        assert_eq!(share(stamp_above, &[Clause::SettledStampAbove]), 100);
        assert_eq!(share(stamp_twice, &[Clause::SettledStampTwice]), 100);
        assert!(share(held_version, &[Clause::SettledVersion]) > 90);
        assert!(share(last_above, &[Clause::LastStamp]) > 90);
    }
}
