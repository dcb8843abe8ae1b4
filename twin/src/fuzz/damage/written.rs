//! Good tables for commits of nothing and of one item alone.

use super::join;
use super::txns::{pick_slot, update};
use crate::fuzz::line::step_out;
use crate::protocol::Tables;
use crate::rng::Rng;
use crate::sizes::*;

/// An update awaits nothing and has written nothing, or one item, often the first or
/// the last, often with a value that looks like none. It has read some others.
pub fn little_written(rng: &mut Rng, t: &mut Tables) -> bool {
    let slot = match pick_slot(rng, t, update) {
        Some(slot) => slot,
        None => return false,
    };
    let holder = slot as u64 + 1;
    step_out(&mut t.txns, slot);
    for row in t.locks.chunks_mut(LOCK_ROW) {
        if row[EXCLUSIVE] == holder {
            row.fill(0);
        }
        row[SHARED] &= !(1 << slot);
    }
    let reads = rng.one_of(&[0, 0, 5, 50]);
    for row in t.locks.chunks_mut(LOCK_ROW) {
        if row[EXCLUSIVE] == 0 && rng.percent(reads) {
            row[SHARED] |= 1 << slot;
        }
    }
    if rng.percent(50) {
        let any = rng.index(ITEMS);
        let item = rng.one_of(&[0, ITEMS - 1, any]);
        let newest = t.versions[item * VERSION_ROW + 2];
        let value = rng.odd_word();
        let value = rng.one_of(&[0, newest, value]);
        t.locks[item * LOCK_ROW..][..LOCK_ROW].copy_from_slice(&[0, holder, value]);
    }
    join(t);
    true
}

/// The same with the clock spent.
pub fn little_written_spent(rng: &mut Rng, t: &mut Tables) -> bool {
    t.txns[CLOCK] = LAST;
    little_written(rng, t)
}

#[cfg(test)]
mod tests {
    use super::super::tests::share;
    use super::*;

    #[test]
    fn they_are_good() {
        assert_eq!(share(little_written, &[]), 100);
        assert_eq!(share(little_written_spent, &[]), 100);
    }
}
