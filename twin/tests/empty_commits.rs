//! Commits with nothing written (request E7): the present clock is answered, no
//! stamp is taken, and a spent clock is no hindrance.

mod trial;

use trial::*;
use twin::sizes::*;
use twin::{Call, Keeper};

const X: u64 = 7;
const Y: u64 = 8;

/// A commit of nothing: this number, its row and shared locks gone, and no other
/// word changed.
fn commits_nothing(t: &mut Trial, number: u64, clock: u64) {
    let mut expected: Keeper = t.0.clone();
    let rows = expected.txns[TXN_HEAD..].chunks_mut(TXN_ROW);
    let (slot, row) = rows
        .enumerate()
        .find(|(_, row)| row[NUMBER] == number)
        .unwrap();
    row.fill(0);
    for row in expected.locks.chunks_mut(LOCK_ROW) {
        row[SHARED] &= !(1 << slot);
    }
    assert_eq!(t.commit(number), [0, 0, clock, 0]);
    assert!(t.0 == expected, "{} changed other words", number);
    assert_eq!(t.commit(number), UNKNOWN_TRANSACTION);
}

/// An update begins, writes this and commits.
fn committed(t: &mut Trial, item: u64, value: u64) -> u64 {
    let number = t.call(Call::Update)[2];
    assert_eq!(t.write(number, item, value), GRANTED);
    t.commit(number)[2]
}

#[test]
fn on_fresh_tables_it_is_stamp_0() {
    let mut t = Trial::with_updates(2);
    assert_eq!(t.read(2, X), FOUND_0);
    commits_nothing(&mut t, 1, 0);
    commits_nothing(&mut t, 2, 0);
    assert_eq!(t.0.locks, Keeper::fresh().locks);
    assert_eq!(t.0.versions, Keeper::fresh().versions);
    // The first that writes has the first stamp still.
    assert_eq!(committed(&mut t, X, 5), 1);
    assert_eq!(t.call(Call::Update), [0, 0, 4, 0]);
    assert_eq!(t.read(4, X), [0, 5, 0, 1]);
    commits_nothing(&mut t, 4, 1);
    assert_eq!(committed(&mut t, X, 6), 2);
}

#[test]
fn the_stamp_is_that_of_the_commit_not_of_the_begin() {
    let mut t = Trial::with_updates(1);
    assert_eq!(t.read(1, X), FOUND_0);
    assert_eq!(committed(&mut t, Y, 5), 1);
    assert_eq!(committed(&mut t, Y, 6), 2);
    commits_nothing(&mut t, 1, 2);
}

#[test]
fn a_spent_clock_is_no_hindrance() {
    for clock in [LAST - 1, LAST] {
        let mut t = Trial::with_updates(4);
        t.0.txns[CLOCK] = clock;
        assert_eq!(t.read(1, X), FOUND_0);
        assert_eq!(t.write(3, Y, 0), GRANTED);
        assert_eq!(t.read(4, Y), WAIT);
        commits_nothing(&mut t, 1, clock);
        commits_nothing(&mut t, 2, clock);
        // Who waits has to wait still, and who wrote needs a stamp.
        assert_eq!(t.commit(4), STILL_WAITING);
        let ends = t.commit(3);
        if clock == LAST {
            assert_eq!(ends, CLOCK_SPENT);
            assert_eq!(t.abort(3), GRANTED);
        } else {
            assert_eq!(ends, [0, 0, LAST, 0]);
        }
        assert_eq!(t.read(4, Y), FOUND_0);
        commits_nothing(&mut t, 4, LAST);
    }
}

#[test]
fn any_one_item_in_any_slot_is_something() {
    // Also a value that is there already.
    for item in 0..ITEMS as u64 {
        let slot = item % SLOTS as u64;
        let mut t = Trial::with_updates(slot + 1);
        assert_eq!(t.write(slot + 1, item, 0), GRANTED);
        assert_eq!(t.commit(slot + 1), [0, 0, 1, 0]);
        assert_eq!(t.versions(item), [(1, 0)]);
        for number in 1..=slot {
            commits_nothing(&mut t, number, 1);
        }
    }
}

#[test]
fn a_write_that_was_not_granted_is_nothing() {
    let mut t = Trial::with_updates(2);
    assert_eq!(t.read(1, X), FOUND_0);
    assert_eq!(t.read(2, X), FOUND_0);
    assert_eq!(t.write(1, X, 1), WAIT);
    assert_eq!(t.write(2, X, 2), DEADLOCK);
    assert_eq!(t.write(2, 64, 2), UNKNOWN_ITEM);
    commits_nothing(&mut t, 2, 0);
    assert_eq!(t.write(1, X, 1), GRANTED);
    assert_eq!(t.commit(1), [0, 0, 1, 0]);
}

#[test]
fn a_writer_that_waited_for_it_goes_on() {
    let mut t = Trial::with_updates(3);
    for item in [X, Y, 63] {
        assert_eq!(t.read(1, item), FOUND_0);
    }
    assert_eq!(t.read(2, Y), FOUND_0);
    assert_eq!(t.write(2, X, 5), WAIT);
    assert_eq!(t.write(3, Y, 6), WAIT);
    commits_nothing(&mut t, 1, 0);
    assert_eq!(t.lock(X), [0, 0, 0]);
    assert_eq!(t.lock(Y), [2, 0, 0]);
    assert_eq!(t.ranks(3), [0, 1, 1]);
    assert_eq!(t.write(3, Y, 6), WAIT);
    assert_eq!(t.write(2, X, 5), GRANTED);
    assert_eq!(t.commit(2), [0, 0, 1, 0]);
    assert_eq!(t.write(3, Y, 6), GRANTED);
}

#[test]
fn older_versions_stay_for_their_readers() {
    let mut t = Trial::fresh();
    assert_eq!(t.call(Call::Query), [0, 0, 1, 0]);
    assert_eq!(committed(&mut t, X, 5), 1);
    assert_eq!(t.call(Call::Query), [0, 0, 3, 0]);
    assert_eq!(committed(&mut t, X, 6), 2);
    assert_eq!(t.call(Call::Update), [0, 0, 5, 0]);
    assert_eq!(t.read(5, X), [0, 6, 0, 1]);
    commits_nothing(&mut t, 5, 2);
    assert_eq!(t.versions(X), [(2, 6), (1, 5), (0, 0)]);
    assert_eq!(t.read(1, X), [0, 0, 0, 3]);
    assert_eq!(t.read(3, X), [0, 5, 0, 2]);
    // A query's end still says no stamp.
    assert_eq!(t.commit(3), [0, 2, 0, 1]);
}

#[test]
fn past_its_writing_it_has_its_own_stamp() {
    let mut t = Trial::with_updates(2);
    assert_eq!(t.settle(1), [0, 0, 1, 0]);
    assert_eq!(committed(&mut t, X, 5), 2);
    // It reads what was there at its stamp, so that is kept till it ends.
    assert_eq!(t.read(1, X), [0, 0, 0, 2]);
    assert_eq!(t.read(2, Y), FOUND_0);
    commits_nothing(&mut t, 2, 2);
    assert_eq!(t.versions(X), [(2, 5), (0, 0)]);
    assert_eq!(t.commit(1), [0, 0, 1, 0]);
    assert_eq!(t.versions(X), [(2, 5)]);
    assert_eq!(t.clock(), 2);
    // Also with the clock spent.
    let mut t = Trial::with_updates(2);
    assert_eq!(t.settle(1), [0, 0, 1, 0]);
    t.0.txns[CLOCK] = LAST;
    commits_nothing(&mut t, 2, LAST);
    assert_eq!(t.commit(1), [0, 0, 1, 0]);
}

#[test]
fn beside_one_past_its_writing_it_comes_behind_its_stamp() {
    let mut t = Trial::with_updates(3);
    assert_eq!(t.write(1, X, 5), GRANTED);
    assert_eq!(t.read(2, Y), FOUND_0);
    assert_eq!(t.settle(1), [0, 0, 1, 0]);
    // What that one holds it cannot have read.
    assert_eq!(t.read(3, X), WAIT);
    commits_nothing(&mut t, 2, 1);
    assert_eq!(t.commit(3), STILL_WAITING);
    assert_eq!(t.commit(1), [0, 0, 1, 0]);
    assert_eq!(t.read(3, X), [0, 5, 0, 1]);
    commits_nothing(&mut t, 3, 1);
    assert_eq!(t.versions(X), [(1, 5)]);
    // Nor does it get in the way of one that settles behind it.
    assert_eq!(t.call(Call::Update), [0, 0, 4, 0]);
    assert_eq!(t.write(4, Y, 6), GRANTED);
    assert_eq!(t.settle(4), [0, 0, 2, 0]);
    assert_eq!(t.commit(4), [0, 0, 2, 0]);
}
