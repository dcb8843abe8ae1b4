//! Damage to what an update may hold exclusively, and beside it what is still
//! good.

use super::join;
use super::txns::{pick_slot, update};
use crate::fuzz::line::step_out;
use crate::fuzz::made::may_wait;
use crate::fuzz::scene::{Scene, Txn};
use crate::protocol::Tables;
use crate::rng::Rng;
use crate::sizes::*;

/// Lets an update hold exactly so many items exclusively and await nothing.
pub fn holds(rng: &mut Rng, t: &mut Tables, count: usize) -> bool {
    held_by(rng, t, count).is_some()
}

/// The same, and it awaits this lock on an item, closing no circle.
pub fn holds_and_awaits(rng: &mut Rng, t: &mut Tables, count: usize, lock: u64) -> bool {
    let slot = match held_by(rng, t, count) {
        Some(slot) => slot,
        None => return false,
    };
    let keeper = match t.as_keeper() {
        Some(keeper) => keeper,
        None => return false,
    };
    let scene = Scene::of(&keeper);
    let is_write = lock == AWAITS_EXCLUSIVE;
    let this = |txn: &&Txn| txn.slot == slot;
    let txn = match scene.live().iter().find(this) {
        Some(txn) => *txn,
        None => return false,
    };
    let stale = rng.percent(20); // a wait whose cause is gone
    let like = |item: &u64| {
        let is_free = scene.against(&txn, is_write, *item) == 0;
        may_wait(&scene, &txn, is_write, *item) && is_free == stale
    };
    let items: Vec<u64> = (0..ITEMS as u64).filter(like).collect();
    match rng.pick(&items) {
        Some(item) => super::waits(t, slot, lock, item as usize),
        None => false,
    }
}

/// Gives an update items, others' among them, or takes some away. It waits no
/// longer, so what it holds now closes no circle.
fn held_by(rng: &mut Rng, t: &mut Tables, count: usize) -> Option<usize> {
    let slot = pick_slot(rng, t, update)?;
    let holder = slot as u64 + 1;
    step_out(&mut t.txns, slot);
    let is_held = |row: &&[u64]| row[EXCLUSIVE] == holder;
    let mut held = t.locks.chunks(LOCK_ROW).filter(is_held).count();
    // An odd step leads to every item.
    let (first, step) = (rng.index(ITEMS), 2 * rng.index(ITEMS / 2) + 1);
    for item in (0..ITEMS).map(|turn| (first + turn * step) % ITEMS) {
        let row = &mut t.locks[item * LOCK_ROW..][..LOCK_ROW];
        if row[EXCLUSIVE] == holder && held > count {
            row.fill(0);
            held -= 1;
        } else if row[EXCLUSIVE] != holder && held < count {
            row.copy_from_slice(&[0, holder, rng.odd_word()]);
            held += 1;
        }
    }
    join(t);
    Some(slot)
}

#[cfg(test)]
mod tests {
    use super::super::tests::share;
    use super::*;
    use crate::clauses::Clause;

    fn breaks(damage: impl Fn(&mut Rng, &mut Tables) -> bool, expected: &[Clause]) {
        assert_eq!(share(damage, expected), 100);
    }

    #[test]
    fn both_sides_of_the_limit() {
        breaks(|rng, t| holds(rng, t, 31), &[]);
        breaks(|rng, t| holds(rng, t, 32), &[]);
        breaks(|rng, t| holds(rng, t, 33), &[Clause::Quota]);
        breaks(|rng, t| holds(rng, t, 64), &[Clause::Quota]);
        let awaits = |count, lock| {
            move |rng: &mut Rng, t: &mut Tables| holds_and_awaits(rng, t, count, lock)
        };
        breaks(awaits(31, AWAITS_SHARED), &[]);
        breaks(awaits(32, AWAITS_SHARED), &[]);
        breaks(awaits(33, AWAITS_SHARED), &[Clause::Quota]);
        breaks(awaits(31, AWAITS_EXCLUSIVE), &[]);
        breaks(awaits(32, AWAITS_EXCLUSIVE), &[Clause::FullAwaitsExclusive]);
        breaks(awaits(33, AWAITS_EXCLUSIVE), &[Clause::Quota]);
    }
}
