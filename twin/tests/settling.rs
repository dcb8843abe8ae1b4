//! Write, then only check (request E6): each of its sentences, on both sides.

mod trial;

use trial::*;
use twin::sizes::*;
use twin::Call;

const X: u64 = 7;
const Y: u64 = 8;

/// Update 1 writes X and settles under stamp 1; so many updates have begun.
fn settled(updates: u64) -> Trial {
    let mut t = Trial::with_updates(updates);
    assert_eq!(t.write(1, X, 5), GRANTED);
    assert_eq!(t.settle(1), [0, 0, 1, 0]);
    t
}

/// An update begins, writes one item and commits.
fn committed(t: &mut Trial, item: u64, value: u64) -> u64 {
    let number = t.call(Call::Update)[2];
    assert_eq!(t.write(number, item, value), GRANTED);
    t.commit(number)[2]
}

#[test]
fn it_changes_the_clock_the_row_and_the_shared_bits() {
    let mut t = Trial::with_updates(3);
    assert_eq!(t.read(2, Y), FOUND_0);
    assert_eq!(t.write(1, X, 5), GRANTED);
    for item in (0..64).filter(|item| *item != X) {
        assert_eq!(t.read(1, item), FOUND_0);
    }
    assert_eq!(t.write(3, Y, 6), WAIT);
    let mut expected = t.0.clone();
    assert_eq!(t.settle(1), [0, 0, 1, 0]);
    expected.txns[CLOCK] = 1;
    expected.txns[TXN_HEAD + KIND] = 2;
    expected.txns[TXN_HEAD + START] = 1;
    for item in 0..64 {
        expected.locks[item * LOCK_ROW + SHARED] &= !1;
    }
    assert_eq!(t.0, expected);
    assert_eq!(t.row(0), [1, 2, 1, 0, 0, 0, 0, 0, 0, 0]);
    assert_eq!(t.lock(X), [0, 1, 5]);
    assert_eq!(t.lock(Y), [2, 0, 0]);
    assert_eq!(t.lock(0), [0, 0, 0]);
    // The other sharer still stands against the writer.
    assert_eq!(t.write(3, Y, 6), WAIT);
    assert_eq!(t.settle(2), [0, 0, 2, 0]);
    assert_eq!(t.write(3, Y, 6), GRANTED);
}

#[test]
fn the_order_of_its_tests() {
    let mut t = settled(2);
    assert_eq!(t.call(Call::Query), [0, 0, 3, 0]);
    assert_eq!(t.read(2, X), WAIT);
    for clock in [1, LAST] {
        t.0.txns[CLOCK] = clock;
        for number in [0, 4, LAST, LAST + 2, u64::MAX] {
            assert_eq!(t.settle(number), UNKNOWN_TRANSACTION);
        }
        assert_eq!(t.settle(3), QUERY_MAY_NOT_WRITE);
        assert_eq!(t.settle(1), PAST_WRITING);
        assert_eq!(t.settle(2), STILL_WAITING);
    }
    assert_eq!(t.call(Call::Update), [0, 0, 4, 0]);
    assert_eq!(t.settle(4), CLOCK_SPENT);
    assert_eq!(t.row(3), [4, 0, 0, 0, 0, 0, 0, 0, 0, 0]);
    t.0.txns[CLOCK] = LAST - 1;
    assert_eq!(t.settle(4), [0, 0, LAST, 0]);
    t.0.versions[0] = 0;
    for number in [0, 1, 2, 3, 4] {
        assert_eq!(t.settle(number), BAD_TABLES);
    }
}

#[test]
fn it_reads_by_its_stamp() {
    let mut t = settled(1);
    assert_eq!(t.read(1, Y), FOUND_0);
    // No lock is taken, so others write on; they have later stamps.
    assert_eq!(t.lock(Y), [0, 0, 0]);
    assert_eq!(committed(&mut t, Y, 6), 2);
    assert_eq!(t.read(1, Y), [0, 0, 0, 2]);
    assert_eq!(committed(&mut t, Y, 7), 3);
    assert_eq!(t.versions(Y), [(3, 7), (0, 0)]);
    assert_eq!(t.read(1, Y), [0, 0, 0, 2]);
    // In the order of the stamps it comes before both, though it commits last.
    assert_eq!(t.commit(1), [0, 0, 1, 0]);
    assert_eq!(t.versions(Y), [(3, 7)]);
    // What is committed before the settle it sees.
    let number = t.call(Call::Update)[2];
    assert_eq!(t.settle(number), [0, 0, 4, 0]);
    assert_eq!(t.read(number, Y), [0, 7, 0, 1]);
    assert_eq!(t.read(number, X), [0, 5, 0, 1]);
    assert_eq!(t.read(number, 64), UNKNOWN_ITEM);
}

#[test]
fn it_sees_its_own_working_values() {
    let mut t = settled(1);
    assert_eq!(t.read(1, X), [0, 5, 0, 0]);
    assert_eq!(t.write(1, X, 9), GRANTED);
    assert_eq!(t.lock(X), [0, 1, 9]);
    assert_eq!(t.read(1, X), [0, 9, 0, 0]);
    assert_eq!(t.commit(1), [0, 0, 1, 0]);
    assert_eq!(t.versions(X), [(1, 9)]);
}

#[test]
fn it_writes_only_what_it_holds() {
    let mut t = Trial::with_updates(3);
    assert_eq!(t.write(1, X, 5), GRANTED);
    assert_eq!(t.read(1, Y), FOUND_0);
    assert_eq!(t.settle(1), [0, 0, 1, 0]);
    assert_eq!(t.read(2, 10), FOUND_0);
    assert_eq!(t.write(2, 11, 1), GRANTED);
    // What it shared before, what nobody holds, what others share or hold alone.
    for item in [Y, 9, 10, 11, 0, 63] {
        assert_eq!(t.write(1, item, 1), PAST_WRITING);
    }
    assert_eq!(t.write(1, 64, 1), UNKNOWN_ITEM);
    assert_eq!(t.write(1, u64::MAX, 1), UNKNOWN_ITEM);
    assert_eq!(t.write(4, Y, 1), UNKNOWN_TRANSACTION);
    // It never asks, so it never waits nor stands in a circle.
    assert_eq!(t.write(2, X, 1), WAIT);
    assert_eq!(t.write(1, 11, 1), PAST_WRITING);
    assert_eq!(t.write(1, X, 6), GRANTED);
}

#[test]
fn twelve_comes_before_eleven() {
    let mut t = Trial::with(1, 32);
    assert_eq!(t.write(1, 40, 1), QUOTA_SPENT);
    assert_eq!(t.settle(1), [0, 0, 1, 0]);
    assert_eq!(t.write(1, 40, 1), PAST_WRITING);
    for item in 0..32 {
        assert_eq!(t.write(1, item, 100 + item), GRANTED);
    }
    assert_eq!(t.commit(1), [0, 0, 1, 0]);
    for item in 0..32 {
        assert_eq!(t.versions(item), [(1, 100 + item)]);
    }
}

#[test]
fn its_commit_takes_no_new_stamp() {
    let mut t = settled(1);
    assert_eq!(committed(&mut t, Y, 6), 2);
    assert_eq!(t.commit(1), [0, 0, 1, 0]);
    assert_eq!((t.clock(), t.versions(X)), (2, vec![(1, 5)]));
    assert_eq!((t.row(0), t.lock(X)), (&[0; TXN_ROW][..], &[0; 3][..]));
    assert_eq!(t.commit(1), UNKNOWN_TRANSACTION);
    // So it cannot be refused for want of one.
    let mut t = settled(2);
    t.0.txns[CLOCK] = LAST;
    assert_eq!(t.write(2, Y, 6), GRANTED);
    assert_eq!(t.commit(2), CLOCK_SPENT);
    assert_eq!(t.commit(1), [0, 0, 1, 0]);
    assert_eq!((t.clock(), t.versions(X)), (LAST, vec![(1, 5)]));
}

#[test]
fn the_last_stamp() {
    let mut t = Trial::with_updates(1);
    t.0.txns[CLOCK] = LAST - 1;
    assert_eq!(t.write(1, X, 5), GRANTED);
    assert_eq!(t.settle(1), [0, 0, LAST, 0]);
    assert_eq!(t.call(Call::Query), [0, 0, 2, 0]);
    t.waits_silently(2, X);
    assert_eq!(t.commit(1), [0, 0, LAST, 0]);
    assert_eq!(t.read(2, X), [0, 5, 0, 1]);
}

#[test]
fn nothing_held_is_enough() {
    let mut t = Trial::with_updates(2);
    assert_eq!(t.settle(1), [0, 0, 1, 0]);
    assert_eq!(t.settle(2), [0, 0, 2, 0]);
    assert_eq!(t.write(1, X, 5), PAST_WRITING);
    assert_eq!(t.commit(2), [0, 0, 2, 0]);
    assert_eq!(t.commit(1), [0, 0, 1, 0]);
    assert_eq!(t.clock(), 2);
    assert_eq!(t.0.versions, Trial::fresh().0.versions);
}

#[test]
fn commits_in_another_order_than_their_stamps() {
    let mut t = settled(3);
    assert_eq!(t.write(2, Y, 6), GRANTED);
    assert_eq!(t.settle(2), [0, 0, 2, 0]);
    assert_eq!(t.write(3, 9, 7), GRANTED);
    assert_eq!(t.settle(3), [0, 0, 3, 0]);
    assert_eq!(t.call(Call::Query), [0, 0, 4, 0]);
    for (number, item) in [(3, 9), (1, X), (2, Y)] {
        t.waits_silently(4, item);
        assert_eq!(t.commit(number), [0, 0, number, 0]);
        assert_eq!(t.read(4, item), [0, 4 + number, 0, 1]);
    }
    assert_eq!((t.versions(9), t.versions(X)), (vec![(3, 7)], vec![(1, 5)]));
    assert_eq!(t.clock(), 3);
}

/// A settled one reads an old version of Y that it never held.
fn reader_of_y() -> Trial {
    let mut t = settled(1);
    assert_eq!(committed(&mut t, Y, 6), 2);
    assert_eq!(committed(&mut t, Y, 7), 3);
    assert_eq!(t.versions(Y), [(3, 7), (0, 0)]);
    t
}

#[test]
fn its_end_trims_every_row() {
    let mut t = reader_of_y();
    assert_eq!(t.abort(1), GRANTED);
    assert_eq!(t.versions(Y), [(3, 7)]);
    assert_eq!((t.versions(X), t.lock(X)), (vec![(0, 0)], &[0; 3][..]));
    assert_eq!((t.clock(), t.row(0)), (3, &[0; TXN_ROW][..]));

    let mut t = reader_of_y();
    assert_eq!(t.commit(1), [0, 0, 1, 0]);
    assert_eq!((t.versions(Y), t.versions(X)), (vec![(3, 7)], vec![(1, 5)]));

    // What another one reads stays.
    let mut t = Trial::fresh();
    assert_eq!(t.call(Call::Query), [0, 0, 1, 0]);
    assert_eq!(t.call(Call::Update), [0, 0, 2, 0]);
    assert_eq!(t.settle(2), [0, 0, 1, 0]);
    assert_eq!(committed(&mut t, Y, 6), 2);
    assert_eq!(t.commit(2), [0, 0, 1, 0]);
    assert_eq!(t.versions(Y), [(2, 6), (0, 0)]);
    assert_eq!(t.commit(1), GRANTED);
    assert_eq!(t.versions(Y), [(2, 6)]);
}

#[test]
fn behind_its_versions_stays_what_an_earlier_reader_reads() {
    let mut t = Trial::fresh();
    assert_eq!(committed(&mut t, X, 4), 1);
    // A query before the settle, and two that begin after it.
    assert_eq!(t.call(Call::Query), [0, 0, 2, 0]);
    assert_eq!(t.call(Call::Update), [0, 0, 3, 0]);
    assert_eq!(t.write(3, X, 5), GRANTED);
    assert_eq!(t.settle(3), [0, 0, 2, 0]);
    assert_eq!(t.call(Call::Query), [0, 0, 4, 0]);
    assert_eq!(t.read(2, X), [0, 4, 0, 1]);
    assert_eq!(t.commit(3), [0, 0, 2, 0]);
    assert_eq!(t.versions(X), [(2, 5), (1, 4)]);
    assert_eq!(t.read(2, X), [0, 4, 0, 2]);
    assert_eq!(t.read(4, X), [0, 5, 0, 1]);

    // Who began after the settle reads the new one, so the old one goes.
    let mut t = settled(1);
    assert_eq!(t.call(Call::Query), [0, 0, 2, 0]);
    assert_eq!(t.commit(1), [0, 0, 1, 0]);
    assert_eq!(t.versions(X), [(1, 5)]);
}

#[test]
fn it_is_a_reader_for_the_bound_on_looked() {
    let mut t = Trial::fresh();
    assert_eq!(t.call(Call::Query), [0, 0, 1, 0]);
    assert_eq!(committed(&mut t, 0, 10), 1);
    let number = t.call(Call::Update)[2];
    assert_eq!(t.settle(number), [0, 0, 2, 0]);
    assert_eq!(committed(&mut t, 0, 30), 3);
    assert_eq!(t.versions(0), [(3, 30), (1, 10), (0, 0)]);
    // Place 3 is 2 and one reader with a later start, which is no query.
    assert_eq!(t.read(1, 0), [0, 0, 0, 3]);
    assert_eq!(t.read(number, 0), [0, 10, 0, 2]);
}

#[test]
fn a_full_row_of_settled_readers() {
    let mut t = Trial::fresh();
    for turn in 0..31 {
        let number = t.call(Call::Update)[2];
        assert_eq!(t.settle(number), [0, 0, 2 * turn + 1, 0]);
        assert_eq!(committed(&mut t, 0, 100 + turn), 2 * turn + 2);
    }
    assert_eq!(t.count(0), 32);
    assert_eq!(t.read(1, 0), [0, 0, 0, 32]);
    assert_eq!(t.read(3, 0), [0, 100, 0, 31]);
    assert_eq!(t.read(61, 0), [0, 129, 0, 2]);
    // The last slot: one more write finds room, since nobody reads the newest.
    assert_eq!(committed(&mut t, 0, 500), 63);
    assert_eq!((t.count(0), t.versions(0)[0]), (32, (63, 500)));
    // It settles instead: beside it 31 read older versions, and its own is new.
    let number = t.call(Call::Update)[2];
    assert_eq!(t.call(Call::Update), NO_SLOT);
    assert_eq!(t.write(number, 0, 600), GRANTED);
    assert_eq!(t.settle(number), [0, 0, 64, 0]);
    assert_eq!(t.commit(number), [0, 0, 64, 0]);
    assert_eq!((t.count(0), t.versions(0)[0]), (32, (64, 600)));
    assert_eq!(t.read(1, 0), [0, 0, 0, 32]);
    assert_eq!(t.abort(31), GRANTED);
    assert_eq!((t.count(0), t.read(1, 0)), (31, [0, 0, 0, 31]));
}
