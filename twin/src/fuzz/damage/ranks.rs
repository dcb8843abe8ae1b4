//! Damage to the ranks of waiters, each to one clause, and beside it long lines
//! that are good.

use super::txns::{pick_slot, query, update};
use super::{set, waits};
use crate::fuzz::line::{row_of, step_out};
use crate::fuzz::made::may_wait;
use crate::fuzz::scene::{Scene, Txn};
use crate::protocol::Tables;
use crate::rng::Rng;
use crate::sizes::*;

/// A rank that no line has, or one that some line could have.
pub fn some_rank(rng: &mut Rng) -> u64 {
    match rng.below(4) {
        0 => 1,
        1 => rng.within(1, SLOTS as u64 + 1),
        2 => rng.one_of(&[SLOTS as u64 + 1, u64::MAX, 1 << 32]),
        _ => rng.odd_word().max(1),
    }
}

/// Lets updates await one item, one after another, as long as no circle closes.
/// Which item.
pub fn long_line(rng: &mut Rng, t: &mut Tables) -> Option<u64> {
    let item = rng.below(ITEMS as u64);
    let writes = rng.one_of(&[10, 50, 90]);
    for _ in 0..rng.within(2, 3 * SLOTS as u64 / 2) {
        let keeper = t.as_keeper()?;
        let scene = Scene::of(&keeper);
        let lock = match rng.percent(writes) {
            true => AWAITS_EXCLUSIVE,
            false => AWAITS_SHARED,
        };
        let is_write = lock == AWAITS_EXCLUSIVE;
        let fits = |txn: &Txn| {
            let has_room = !is_write || scene.exclusives(txn) < QUOTA;
            txn.is_idle() && has_room && may_wait(&scene, txn, is_write, item)
        };
        if let Some(txn) = scene.pick(rng, fits) {
            waits(t, txn.slot, lock, item as usize);
        }
    }
    Some(item)
}

/// The slots of a line of at least so many waiters, by rank. Often one is made.
fn a_line(rng: &mut Rng, t: &mut Tables, least: usize) -> Option<Vec<usize>> {
    let made = match rng.percent(60) {
        true => long_line(rng, t),
        false => None,
    };
    let keeper = t.as_keeper()?;
    let scene = Scene::of(&keeper);
    let is_long = |item: &u64| scene.line(*item).len() >= least;
    let items: Vec<u64> = (0..ITEMS as u64).filter(is_long).collect();
    let item = match made.filter(is_long) {
        Some(item) => item,
        None => rng.pick(&items)?,
    };
    Some(scene.line(item).iter().map(|txn| txn.slot).collect())
}

/// A waiter gets rank 0; those behind it stand as if it were not there.
pub fn no_rank(rng: &mut Rng, t: &mut Tables) -> bool {
    match a_line(rng, t, 1) {
        Some(line) => {
            let slot = rng.one_of(&line);
            let row = row_of(&mut t.txns, slot);
            let awaited = [row[AWAITED_LOCK], row[AWAITED_ITEM], 0];
            step_out(&mut t.txns, slot);
            row_of(&mut t.txns, slot)[AWAITED_LOCK..=RANK].copy_from_slice(&awaited);
            true
        }
        None => false,
    }
}

/// From one waiter on, not the first, all move up by one.
pub fn rank_twice(rng: &mut Rng, t: &mut Tables) -> bool {
    match a_line(rng, t, 2) {
        Some(line) => {
            let from = 1 + rng.index(line.len() - 1);
            for &slot in &line[from..] {
                row_of(&mut t.txns, slot)[RANK] -= 1;
            }
            true
        }
        None => false,
    }
}

/// From one waiter on all move back by one or more.
pub fn rank_gap(rng: &mut Rng, t: &mut Tables) -> bool {
    match a_line(rng, t, 1) {
        Some(line) => {
            let from = rng.index(line.len());
            let gap = rng.one_of(&[1, 1, 1, 2, 16, SLOTS as u64]);
            for &slot in &line[from..] {
                row_of(&mut t.txns, slot)[RANK] += gap;
            }
            true
        }
        None => false,
    }
}

/// The last one of a line has a rank that no line has.
pub fn rank_far_above(rng: &mut Rng, t: &mut Tables) -> bool {
    let first = SLOTS as u64 + 1;
    let rank = rng.one_of(&[first, first + 1, 64, 1 << 32, 1 << 63, u64::MAX]);
    match a_line(rng, t, 1) {
        Some(line) => set(&mut row_of(&mut t.txns, line[line.len() - 1])[RANK], rank),
        None => false,
    }
}

/// Who shares an item awaits it behind readers that hold nothing there.
pub fn exchanger_behind(rng: &mut Rng, t: &mut Tables) -> bool {
    let (exchanger, reader) = match idle(rng, t, 2).as_deref() {
        Some(&[exchanger, reader]) => (exchanger, reader),
        _ => return false,
    };
    let item = match without_line(rng, t) {
        Some(item) => item,
        None => return false,
    };
    t.locks[item * LOCK_ROW..][..LOCK_ROW].copy_from_slice(&[1 << exchanger, 0, 0]);
    waits(t, exchanger, AWAITS_EXCLUSIVE, item);
    waits(t, reader, AWAITS_SHARED, item);
    row_of(&mut t.txns, exchanger)[RANK] = 2;
    set(&mut row_of(&mut t.txns, reader)[RANK], 1)
}

/// So many updates that await nothing any more.
fn idle(rng: &mut Rng, t: &mut Tables, count: usize) -> Option<Vec<usize>> {
    let mut slots = Vec::new();
    for _ in 0..3 * count {
        let slot = pick_slot(rng, t, update)?;
        if slots.len() < count && !slots.contains(&slot) {
            step_out(&mut t.txns, slot);
            slots.push(slot);
        }
    }
    Some(slots).filter(|slots| slots.len() == count)
}

/// Two share an item that a reader awaits though it could have it, and one of
/// them waits for the reader. If the other one asks to exchange, it passes the
/// reader, and a circle would close.
pub fn exchange_closes(rng: &mut Rng, t: &mut Tables) -> bool {
    let (one, other, reader) = match idle(rng, t, 3).as_deref() {
        Some(&[one, other, reader]) => (one, other, reader),
        _ => return false,
    };
    let (item, awaited) = match (without_line(rng, t), without_line(rng, t)) {
        (Some(item), Some(awaited)) if item != awaited => (item, awaited),
        _ => return false,
    };
    t.locks[item * LOCK_ROW..][..LOCK_ROW].copy_from_slice(&[1 << one | 1 << other, 0, 0]);
    t.locks[awaited * LOCK_ROW..][..LOCK_ROW].copy_from_slice(&[1 << reader, 0, 0]);
    let rows = t.locks.chunks(LOCK_ROW);
    let full = rows
        .filter(|row| row[EXCLUSIVE] == other as u64 + 1)
        .count()
        >= QUOTA;
    waits(t, reader, AWAITS_SHARED, item);
    !full && waits(t, other, AWAITS_EXCLUSIVE, awaited)
}

/// One waits for the holder of an item, another one behind it for the first
/// alone, and the holder for what that one holds.
pub fn circle_in_line(rng: &mut Rng, t: &mut Tables) -> bool {
    let (holder, first, second) = match idle(rng, t, 3).as_deref() {
        Some(&[holder, first, second]) => (holder, first, second),
        _ => return false,
    };
    let (item, other) = match (without_line(rng, t), without_line(rng, t)) {
        (Some(item), Some(other)) if item != other => (item, other),
        _ => return false,
    };
    t.locks[item * LOCK_ROW..][..LOCK_ROW].copy_from_slice(&[1 << holder, 0, 0]);
    t.locks[other * LOCK_ROW..][..LOCK_ROW].copy_from_slice(&[1 << second, 0, 0]);
    waits(t, first, AWAITS_EXCLUSIVE, item);
    waits(t, second, AWAITS_SHARED, item);
    waits(t, holder, AWAITS_EXCLUSIVE, other)
}

/// An item that nobody awaits.
pub fn without_line(rng: &mut Rng, t: &Tables) -> Option<usize> {
    let rows = || t.txns[TXN_HEAD..].chunks(TXN_ROW);
    let is_awaited =
        |item: usize| rows().any(|row| row[AWAITED_LOCK] != 0 && row[AWAITED_ITEM] == item as u64);
    let items: Vec<usize> = (0..ITEMS).filter(|&item| !is_awaited(item)).collect();
    rng.pick(&items)
}

/// A query stands in the line of an item, where an update could.
pub fn query_awaits(rng: &mut Rng, t: &mut Tables) -> bool {
    match (pick_slot(rng, t, query), without_line(rng, t)) {
        (Some(slot), Some(item)) => waits(t, slot, rng.within(1, 2), item),
        _ => false,
    }
}

#[cfg(test)]
mod tests {
    use super::super::tests::share;
    use super::*;
    use crate::clauses::Clause;

    #[test]
    fn each_clause_alone() {
        assert_eq!(share(|rng, t| long_line(rng, t).is_some(), &[]), 100);
        assert_eq!(share(exchange_closes, &[]), 100);
        assert!(share(no_rank, &[Clause::RankMissing]) > 50);
        // Without the edge between the two equal ones there may be no circle.
        assert_eq!(share(rank_twice, &[Clause::RankTwice]), 100);
        assert_eq!(share(rank_gap, &[Clause::RankGap]), 100);
        assert_eq!(share(rank_far_above, &[Clause::RankGap]), 100);
        assert!(share(exchanger_behind, &[Clause::ExchangerBehind]) > 50);
        assert!(share(circle_in_line, &[Clause::Circle]) > 50);
        assert!(share(query_awaits, &[Clause::QueryAwaits]) > 50);
    }
}
