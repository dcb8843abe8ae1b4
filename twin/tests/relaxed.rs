//! Relaxed queries (request E11): each way to join, what is read then, and code 13.

mod trial;

use trial::*;
use twin::sizes::*;
use twin::Call;

const X: u64 = 1;
const Y: u64 = 2;
const NOT_BESIDE: [u64; 4] = [13, 0, 0, 0];

fn relaxed(t: &mut Trial) -> u64 {
    let [code, _, number, _] = t.call(Call::Relaxed);
    assert_eq!(code, 0);
    number
}

/// An update that writes this and commits.
fn put(t: &mut Trial, item: u64, value: u64) {
    let [_, _, number, _] = t.call(Call::Update);
    assert_eq!(t.write(number, item, value), GRANTED);
    assert_eq!(t.commit(number)[0], 0);
}

/// Whether a slot is later for another.
fn is_later(t: &Trial, slot: usize, query: usize) -> bool {
    t.row(slot)[LATER_FOR] >> query & 1 != 0
}

#[test]
fn it_reads_what_is_newest_until_it_has_read() {
    let mut t = Trial::fresh();
    let q = relaxed(&mut t);
    assert_eq!(t.row(0), [1, 3, 0, 0, 0, 0, 0, 0, 0, 0]);
    put(&mut t, X, 5);
    assert_eq!(t.read(q, X), [0, 5, 0, 1]);
    // A strict query of its age would have read 0. Who writes X now is later for it.
    put(&mut t, X, 6);
    assert_eq!(t.read(q, X), [0, 5, 0, 2]);
    put(&mut t, Y, 7);
    assert_eq!(t.read(q, Y), [0, 7, 0, 1]);
    assert_eq!(t.commit(q), [0, 4, 0, 3]);
    assert_eq!(t.count(X as usize), 1);
}

#[test]
fn joined_by_writing_what_was_read() {
    let mut t = Trial::fresh();
    let q = relaxed(&mut t);
    assert_eq!(t.read(q, X), FOUND_0);
    let [_, _, u, _] = t.call(Call::Update);
    assert_eq!(t.write(u, X, 5), GRANTED);
    assert!(is_later(&t, 1, 0));
    assert_eq!(t.write(u, Y, 6), GRANTED);
    assert_eq!(t.commit(u), [0, 0, 1, 0]);
    // All that it wrote is hidden.
    assert_eq!(t.read(q, Y), [0, 0, 0, 2]);
    assert_eq!(t.read(q, X), [0, 0, 0, 2]);
}

#[test]
fn joined_by_being_read() {
    let mut t = Trial::with(1, 3);
    let q = relaxed(&mut t);
    assert_eq!(t.read(q, X), FOUND_0);
    assert!(is_later(&t, 0, 1));
    assert_eq!(t.commit(1), [0, 0, 1, 0]);
    assert_eq!(t.read(q, Y), [0, 0, 0, 2]);
}

#[test]
fn joined_by_reading_or_overwriting() {
    for overwrites in [false, true] {
        let mut t = Trial::with(1, 3);
        let q = relaxed(&mut t);
        assert_eq!(t.read(q, X), FOUND_0);
        assert_eq!(t.commit(1), [0, 0, 1, 0]);
        let [_, _, u, _] = t.call(Call::Update);
        match overwrites {
            true => assert_eq!(t.write(u, Y, 9), GRANTED),
            false => assert_eq!(t.read(u, Y), [0, 2, 0, 1]),
        }
        assert!(is_later(&t, 0, 1));
        assert_eq!(t.write(u, 9, 9), GRANTED);
        assert_eq!(t.commit(u), [0, 0, 2, 0]);
        assert_eq!(t.read(q, 9), [0, 0, 0, 2]);
    }
}

#[test]
fn joined_by_waiting_and_not_by_a_refusal() {
    let mut t = Trial::with(3, 3);
    let q = relaxed(&mut t);
    assert_eq!(t.read(q, X), FOUND_0);
    assert_eq!(t.write(2, 5, 0), GRANTED);
    // A writer that waits joins; who would close a circle does not.
    assert_eq!(t.write(2, X, 1), WAIT);
    assert!(is_later(&t, 1, 3));
    assert_eq!(t.read(q, 5), FOUND_0);
    assert_eq!(t.write(3, 6, 0), GRANTED);
    assert_eq!(t.write(1, 6, 0), WAIT);
    assert_eq!(t.write(3, 0, 0), DEADLOCK);
    assert!(!is_later(&t, 2, 3));
    // A reader that waits does not either; who waited before a read joins when it asks again.
    let mut t = Trial::with(2, 3);
    let q = relaxed(&mut t);
    assert_eq!(t.write(2, X, 1), WAIT);
    assert_eq!(t.read(q, X), FOUND_0);
    assert!(!is_later(&t, 1, 2));
    assert_eq!(t.write(2, X, 1), WAIT);
    assert!(is_later(&t, 1, 2));
}

#[test]
fn quota_spent_joins_nothing() {
    let mut t = Trial::with(1, 32);
    let q = relaxed(&mut t);
    assert_eq!(t.read(q, 40), FOUND_0);
    assert_eq!(t.write(1, 40, 0), QUOTA_SPENT);
    assert!(!is_later(&t, 0, 1));
}

#[test]
fn its_own_refusals() {
    let mut t = Trial::fresh();
    let q = relaxed(&mut t);
    assert_eq!(t.write(q, X, 1), QUERY_MAY_NOT_WRITE);
    assert_eq!(t.write(q, 64, 1), UNKNOWN_ITEM);
    assert_eq!(t.read(q, 64), UNKNOWN_ITEM);
    assert_eq!(t.settle(q), QUERY_MAY_NOT_WRITE);
    assert_eq!(t.abort(q), GRANTED);
    assert_eq!(t.read(q, X), UNKNOWN_TRANSACTION);
}

#[test]
fn thirteen_comes_last() {
    // A begin: 7 and 8 come first.
    let mut t = Trial::with_updates(32);
    assert_eq!(t.settle(1), [0, 0, 1, 0]);
    assert_eq!(t.call(Call::Relaxed), NO_SLOT);
    assert_eq!(t.abort(2), GRANTED);
    assert_eq!(t.call(Call::Relaxed), NOT_BESIDE);
    t.0.txns[LAST_NUMBER] = LAST;
    assert_eq!(t.call(Call::Relaxed), NUMBERS_SPENT);
    // A settle: 3, 5, 6 and 9 do; 12 cannot be there.
    let mut t = Trial::with(2, 3);
    let q = relaxed(&mut t);
    assert_eq!(t.settle(1), NOT_BESIDE);
    assert_eq!(t.settle(9), UNKNOWN_TRANSACTION);
    assert_eq!(t.settle(q), QUERY_MAY_NOT_WRITE);
    assert_eq!(t.write(2, X, 1), WAIT);
    assert_eq!(t.settle(2), STILL_WAITING);
    t.0.txns[CLOCK] = LAST;
    assert_eq!(t.settle(1), CLOCK_SPENT);
    t.0.txns[CLOCK] = 0;
    assert_eq!(t.commit(q), GRANTED);
    assert_eq!(t.settle(1), [0, 0, 1, 0]);
}

#[test]
fn an_end_forgets_its_set() {
    let mut t = Trial::with(1, 3);
    let q = relaxed(&mut t);
    assert_eq!(t.read(q, X), FOUND_0);
    assert_eq!(t.commit(1), [0, 0, 1, 0]);
    let [_, _, u, _] = t.call(Call::Update);
    assert_eq!(t.write(u, Y, 9), GRANTED);
    assert!(is_later(&t, 0, 1));
    assert_eq!(t.commit(q), [0, 1, 0, 1]);
    assert!(!is_later(&t, 0, 1));
    assert_eq!(t.count(Y as usize), 1);
    // A later one in the same slot sees it all.
    let r = relaxed(&mut t);
    assert_eq!(t.read(r, X), [0, 1, 0, 1]);
}
