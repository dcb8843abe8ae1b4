//! How old is what a query reads (request E8): each granted read counts 1 and the place
//! of its version, its end tells both, and both stop at the last number.

mod trial;

use trial::*;
use twin::sizes::*;
use twin::{Call, Keeper};

const X: u64 = 7;
const Y: u64 = 8;

/// The read count and the weight sum of a slot.
fn sums(t: &Trial, slot: usize) -> [u64; 2] {
    [t.row(slot)[READS], t.row(slot)[WEIGHT]]
}

fn set_sums(t: &mut Trial, slot: usize, [reads, weight]: [u64; 2]) {
    let at = TXN_HEAD + slot * TXN_ROW;
    t.0.txns[at + READS] = reads;
    t.0.txns[at + WEIGHT] = weight;
}

/// An update begins, writes this and commits.
fn committed(t: &mut Trial, item: u64, value: u64) {
    let number = t.call(Call::Update)[2];
    assert_eq!(t.write(number, item, value), GRANTED);
    assert_eq!(t.commit(number)[0], 0);
}

/// A query (1, in slot 0) whose version of X is the one at this place.
fn with_place(place: u64) -> Trial {
    let mut t = Trial::fresh();
    assert_eq!(t.call(Call::Query), [0, 0, 1, 0]);
    for value in 1..place {
        committed(&mut t, X, value);
        if value + 1 < place {
            assert_eq!(t.call(Call::Query)[0], 0);
        }
    }
    t
}

#[test]
fn a_granted_read_changes_its_own_two_words_alone() {
    let mut t = with_place(3);
    for reads in 1..=3 {
        let mut expected: Keeper = t.0.clone();
        assert_eq!(t.read(1, X), [0, 0, 0, 3]);
        expected.txns[TXN_HEAD + READS] = reads;
        expected.txns[TXN_HEAD + WEIGHT] = 3 * reads;
        assert!(t.0 == expected, "other words changed");
    }
    assert_eq!(t.read(1, Y), FOUND_0);
    assert_eq!(sums(&t, 0), [4, 10]);
    assert_eq!(sums(&t, 1), [0, 0]);
    assert_eq!(t.commit(1), [0, 10, 0, 4]);
    assert_eq!(t.row(0), [0; TXN_ROW]);
}

#[test]
fn commit_and_abort_tell_the_same() {
    for ends in [Trial::commit, Trial::abort] {
        let mut t = with_place(2);
        assert_eq!(t.read(1, X), [0, 0, 0, 2]);
        assert_eq!(t.read(1, Y), FOUND_0);
        assert_eq!(ends(&mut t, 1), [0, 3, 0, 2]);
        // Who comes next to the slot has read nothing.
        let next = t.call(Call::Query)[2];
        assert_eq!(sums(&t, 0), [0, 0]);
        assert_eq!(ends(&mut t, next), GRANTED);
    }
}

#[test]
fn the_place_may_move_from_read_to_read() {
    let mut t = with_place(2);
    assert_eq!(t.read(1, X), [0, 0, 0, 2]);
    assert_eq!(t.call(Call::Query), [0, 0, 3, 0]);
    committed(&mut t, X, 9);
    assert_eq!(t.read(1, X), [0, 0, 0, 3]);
    assert_eq!(t.commit(3), GRANTED);
    assert_eq!(t.read(1, X), [0, 0, 0, 2]);
    assert_eq!(t.abort(1), [0, 7, 0, 3]);
}

#[test]
fn what_is_not_granted_does_not_count() {
    let mut t = Trial::with_updates(1);
    assert_eq!(t.write(1, X, 5), GRANTED);
    assert_eq!(t.settle(1), [0, 0, 1, 0]);
    assert_eq!(t.call(Call::Query), [0, 0, 2, 0]);
    t.waits_silently(2, X);
    assert_eq!(t.read(2, 64), UNKNOWN_ITEM);
    assert_eq!(t.write(2, X, 1), QUERY_MAY_NOT_WRITE);
    assert_eq!(t.settle(2), QUERY_MAY_NOT_WRITE);
    assert_eq!(sums(&t, 1), [0, 0]);
    assert_eq!(t.commit(1), [0, 0, 1, 0]);
    assert_eq!(t.read(2, X), [0, 5, 0, 1]);
    assert_eq!(t.commit(2), [0, 1, 0, 1]);
}

#[test]
fn updates_count_nothing() {
    let mut t = Trial::with_updates(2);
    assert_eq!(t.read(1, X), FOUND_0);
    assert_eq!(t.write(2, Y, 5), GRANTED);
    assert_eq!(t.read(2, Y), [0, 5, 0, 0]);
    assert_eq!(t.settle(2), [0, 0, 1, 0]);
    assert_eq!(t.read(2, X), FOUND_0);
    assert_eq!(t.read(2, Y), [0, 5, 0, 0]);
    for slot in [0, 1] {
        assert_eq!(sums(&t, slot), [0, 0]);
    }
    assert_eq!(t.commit(1), [0, 0, 1, 0]);
    assert_eq!(t.commit(2), [0, 0, 1, 0]);
}

#[test]
fn both_are_held_at_the_last_number() {
    // Before, a read of the version at place 5, after.
    for (before, after) in [
        ([0, 0], [1, 5]),
        ([LAST - 2, 0], [LAST - 1, 5]),
        ([LAST - 1, 0], [LAST, 5]),
        ([LAST, 0], [LAST, 5]),
        ([3, LAST - 6], [4, LAST - 1]),
        ([3, LAST - 5], [4, LAST]),
        ([3, LAST - 4], [4, LAST]),
        ([3, LAST - 2], [4, LAST]),
        ([3, LAST - 1], [4, LAST]),
        ([3, LAST], [4, LAST]),
        ([LAST, LAST], [LAST, LAST]),
        // A sum below the count is as good as any other.
        ([LAST - 1, 1], [LAST, 6]),
    ] {
        let mut t = with_place(5);
        set_sums(&mut t, 0, before);
        assert_eq!(t.read(1, X), [0, 0, 0, 5]);
        assert_eq!(sums(&t, 0), after);
        assert_eq!(t.commit(1), [0, after[1], 0, after[0]]);
    }
}

#[test]
fn every_place_has_its_weight() {
    for place in 1..=PLACES as u64 {
        let mut t = with_place(place);
        assert_eq!(t.read(1, X), [0, 0, 0, place]);
        assert_eq!(t.commit(1), [0, place, 0, 1]);
    }
}
