//! Read counts and weight sums: near the limit, above it, and where there are none.

use super::txns::{pick_slot, query, relaxed, settled, update};
use super::{above_limit, set};
use crate::fuzz::line::row_of;
use crate::fuzz::made::some_sum;
use crate::protocol::Tables;
use crate::rng::Rng;
use crate::sizes::*;

/// A query of either kind.
fn counted(row: &[u64]) -> bool {
    query(row) || relaxed(row)
}

/// A query has read so often, or so old versions, that a few reads more come to the
/// limit. Good.
pub fn nearly_held(rng: &mut Rng, t: &mut Tables) -> bool {
    let slot = match pick_slot(rng, t, counted) {
        Some(slot) => slot,
        None => return false,
    };
    let row = row_of(&mut t.txns, slot);
    row[READS] = LAST - rng.one_of(&[0, 0, 1, 2, 3]);
    row[WEIGHT] = match rng.below(4) {
        0 => some_sum(rng),
        _ => LAST - rng.one_of(&[0, 0, 1, 1, 2, 3, 4, 8, 31, 32]),
    };
    true
}

/// One of the two sums of a query is above the limit.
pub fn sum_above(rng: &mut Rng, t: &mut Tables, place: usize) -> bool {
    match pick_slot(rng, t, counted) {
        Some(slot) => set(&mut row_of(&mut t.txns, slot)[place], above_limit(rng)),
        None => false,
    }
}

/// An update, past its writing or not, has one.
pub fn update_has(rng: &mut Rng, t: &mut Tables, place: usize) -> bool {
    let like: fn(&[u64]) -> bool = rng.one_of(&[update as fn(&[u64]) -> bool, settled]);
    let sum = match rng.below(3) {
        0 => above_limit(rng),
        1 => rng.one_of(&[1, 2, LAST]),
        _ => some_sum(rng).max(1),
    };
    match pick_slot(rng, t, like) {
        Some(slot) => set(&mut row_of(&mut t.txns, slot)[place], sum),
        None => false,
    }
}

#[cfg(test)]
mod tests {
    use super::super::tests::share;
    use super::*;
    use crate::clauses::Clause;

    #[test]
    fn each_clause_alone() {
        assert_eq!(share(nearly_held, &[]), 100);
        let kinds = [
            (READS, Clause::ReadCount, Clause::UpdateReads),
            (WEIGHT, Clause::WeightSum, Clause::UpdateWeight),
        ];
        for (place, above, there) in kinds {
            assert_eq!(share(|rng, t| sum_above(rng, t, place), &[above]), 100);
            assert_eq!(share(|rng, t| update_has(rng, t, place), &[there]), 100);
        }
    }
}
