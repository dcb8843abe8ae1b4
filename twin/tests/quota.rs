//! Request E2: an update holds at most 32 items exclusively. Trials with 31, 32
//! and 33, and where the test stands among the others.

mod trial;

use trial::*;
use twin::sizes::*;
use twin::Call;

#[test]
fn the_thirty_third_item_is_refused() {
    let mut t = Trial::with(1, 31);
    assert_eq!(t.write(1, 31, 31), GRANTED);
    for item in 32..64 {
        assert_eq!(t.write(1, item, 5), QUOTA_SPENT);
    }
    assert_eq!(t.write(1, 32, 6), QUOTA_SPENT);
    // What it has it may write again, and read.
    for item in 0..32 {
        assert_eq!(t.read(1, item), [0, item, 0, 0]);
        assert_eq!(t.write(1, item, 100 + item), GRANTED);
        assert_eq!(t.read(1, item), [0, 100 + item, 0, 0]);
    }
    // It may read what it has not.
    assert_eq!(t.read(1, 40), FOUND_0);
    assert_eq!(t.write(1, 41, 5), QUOTA_SPENT);
    assert_eq!(t.commit(1), [0, 0, 1, 0]);
    assert_eq!(t.call(Call::Query), [0, 0, 2, 0]);
    for item in 0..64 {
        let value = if item < 32 { 100 + item } else { 0 };
        assert_eq!(t.read(2, item), [0, value, 0, 1]);
    }
}

#[test]
fn an_exchange_is_a_further_item() {
    let mut t = Trial::with(1, 31);
    assert_eq!(t.read(1, 40), FOUND_0);
    assert_eq!(t.read(1, 41), FOUND_0);
    assert_eq!(t.write(1, 40, 5), GRANTED);
    assert_eq!(t.write(1, 41, 5), QUOTA_SPENT);
    assert_eq!(t.read(1, 41), FOUND_0);
    assert_eq!(t.0.locks[41 * LOCK_ROW..][..LOCK_ROW], [1, 0, 0]);
}

#[test]
fn shared_locks_do_not_count() {
    let mut t = Trial::with(1, 0);
    for item in 0..64 {
        assert_eq!(t.read(1, item), FOUND_0);
    }
    for item in 0..32 {
        assert_eq!(t.write(1, item, 1), GRANTED);
    }
    assert_eq!(t.write(1, 32, 1), QUOTA_SPENT);
    assert_eq!(t.commit(1), [0, 0, 1, 0]);
}

#[test]
fn an_end_makes_room() {
    for commits in [true, false] {
        let mut t = Trial::with(2, 32);
        assert_eq!(t.write(2, 31, 7), WAIT);
        let ended = if commits { t.commit(1) } else { t.abort(1) };
        assert_eq!(ended, [0, 0, u64::from(commits), 0]);
        assert_eq!(t.write(2, 31, 7), GRANTED);
        for item in 0..31 {
            let value = if commits { item } else { 0 };
            assert_eq!(t.read(2, item), [0, value, 0, 1]);
            assert_eq!(t.write(2, item, 8), GRANTED);
        }
        assert_eq!(t.write(2, 32, 7), QUOTA_SPENT);
        // The slot of the ended one has nothing left over.
        assert_eq!(t.call(Call::Update), [0, 0, 3, 0]);
        for item in 32..64 {
            assert_eq!(t.write(3, item, 9), GRANTED);
        }
        assert_eq!(t.write(3, 0, 9), QUOTA_SPENT);
    }
}

#[test]
fn two_full_updates_hold_everything() {
    let mut t = Trial::with(3, 32);
    for item in 32..64 {
        assert_eq!(t.write(2, item, item), GRANTED);
    }
    for item in 0..32 {
        assert_eq!(t.write(1, 32 + item, 5), QUOTA_SPENT);
        assert_eq!(t.write(2, item, 5), QUOTA_SPENT);
    }
    assert_eq!(t.write(3, 63, 5), WAIT);
    assert_eq!(t.read(1, 63), WAIT);
    assert_eq!(t.read(2, 0), DEADLOCK);
    assert_eq!(t.write(2, 0, 5), QUOTA_SPENT);
    assert_eq!(t.commit(2), [0, 0, 1, 0]);
    // The third one asked first.
    assert_eq!(t.read(1, 63), WAIT);
    assert_eq!(t.write(3, 63, 5), GRANTED);
    assert_eq!(t.read(1, 63), WAIT);
    assert_eq!(t.commit(3), [0, 0, 2, 0]);
    assert_eq!(t.read(1, 63), [0, 5, 0, 1]);
}

#[test]
fn it_comes_before_the_conflict() {
    let mut t = Trial::with(3, 32);
    assert_eq!(t.write(2, 50, 5), GRANTED);
    assert_eq!(t.read(2, 51), FOUND_0);
    assert_eq!(t.read(2, 52), FOUND_0);
    assert_eq!(t.read(1, 52), FOUND_0);
    // Free, held exclusively, shared, and shared by the caller too.
    for item in [49, 50, 51, 52] {
        assert_eq!(t.write(1, item, 5), QUOTA_SPENT);
    }
    // Also where a circle would close.
    assert_eq!(t.read(2, 0), WAIT);
    for item in [49, 50, 51, 52] {
        assert_eq!(t.write(1, item, 5), QUOTA_SPENT);
    }
    // For a read there is no such test.
    assert_eq!(t.read(1, 50), DEADLOCK);
    assert_eq!(t.write(3, 53, 5), GRANTED);
    assert_eq!(t.read(1, 53), WAIT);
}

#[test]
fn it_comes_after_all_else() {
    let mut t = Trial::with(2, 32);
    assert_eq!(t.write(2, 50, 5), GRANTED);
    assert_eq!(t.write(9, 40, 5), UNKNOWN_TRANSACTION);
    assert_eq!(t.write(1, 64, 5), UNKNOWN_ITEM);
    assert_eq!(t.write(1, u64::MAX, 5), UNKNOWN_ITEM);
    assert_eq!(t.call(Call::Query), [0, 0, 3, 0]);
    assert_eq!(t.write(3, 40, 5), QUERY_MAY_NOT_WRITE);
    // A full update may await a shared lock; then it is that which counts.
    assert_eq!(t.read(1, 50), WAIT);
    assert_eq!(t.write(1, 50, 5), STILL_WAITING);
    assert_eq!(t.write(1, 40, 5), STILL_WAITING);
    assert_eq!(t.write(1, 0, 5), STILL_WAITING);
    assert_eq!(t.commit(1), STILL_WAITING);
    assert_eq!(t.read(1, 50), WAIT);
    assert_eq!(t.commit(2), [0, 0, 1, 0]);
    assert_eq!(t.write(1, 50, 5), STILL_WAITING);
    assert_eq!(t.read(1, 50), [0, 5, 0, 1]);
    assert_eq!(t.write(1, 50, 5), QUOTA_SPENT);
    assert_eq!(t.commit(1), [0, 0, 2, 0]);
}

#[test]
fn with_thirty_one_it_waits_as_before() {
    let mut t = Trial::with(2, 31);
    assert_eq!(t.write(2, 50, 5), GRANTED);
    assert_eq!(t.write(1, 50, 6), WAIT);
    assert_eq!(t.write(1, 50, 7), WAIT);
    assert_eq!(t.write(2, 0, 5), DEADLOCK);
    assert_eq!(t.abort(2), GRANTED);
    assert_eq!(t.write(1, 50, 8), GRANTED);
    assert_eq!(t.read(1, 50), [0, 8, 0, 0]);
    assert_eq!(t.write(1, 51, 5), QUOTA_SPENT);

    let mut t = Trial::with(2, 31);
    assert_eq!(t.write(2, 50, 5), GRANTED);
    assert_eq!(t.write(2, 0, 5), WAIT);
    assert_eq!(t.write(1, 50, 5), DEADLOCK);
    assert_eq!(t.write(1, 51, 5), GRANTED);
    assert_eq!(t.write(1, 50, 5), QUOTA_SPENT);
}
