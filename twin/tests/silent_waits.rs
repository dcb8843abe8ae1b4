//! Readers that wait for one past its writing (request E6), and updates beside it.

mod trial;

use trial::*;
use twin::Call;

const X: u64 = 7;
const Y: u64 = 8;
const Z: u64 = 9;

/// Update 1 holds X and has stamp 1, update 2 holds Y and has stamp 2.
fn two_settled(updates: u64) -> Trial {
    let mut t = Trial::with_updates(updates);
    for (number, item) in [(1, X), (2, Y)] {
        assert_eq!(t.write(number, item, 4 + number), GRANTED);
        assert_eq!(t.settle(number), [0, 0, number, 0]);
    }
    t
}

#[test]
fn a_query_waits_for_stamps_up_to_its_start() {
    let mut t = Trial::with_updates(1);
    assert_eq!(t.write(1, X, 5), GRANTED);
    // A holder that is still writing has no stamp yet: nobody waits for it.
    assert_eq!(t.call(Call::Query), [0, 0, 2, 0]);
    assert_eq!(t.read(2, X), FOUND_0);
    assert_eq!(t.settle(1), [0, 0, 1, 0]);
    // The start 0 is below the stamp.
    assert_eq!(t.read(2, X), FOUND_0);
    // The start 1 is the stamp.
    assert_eq!(t.call(Call::Query), [0, 0, 3, 0]);
    t.waits_silently(3, X);
    // The start 2 is above it.
    assert_eq!(t.call(Call::Update), [0, 0, 4, 0]);
    assert_eq!(t.write(4, Y, 6), GRANTED);
    assert_eq!(t.commit(4), [0, 0, 2, 0]);
    assert_eq!(t.call(Call::Query), [0, 0, 5, 0]);
    t.waits_silently(5, X);
    t.waits_silently(5, X);
    assert_eq!(t.commit(1), [0, 0, 1, 0]);
    assert_eq!(t.read(2, X), [0, 0, 0, 2]);
    assert_eq!(t.read(3, X), [0, 5, 0, 1]);
    assert_eq!(t.read(5, X), [0, 5, 0, 1]);
}

#[test]
fn an_abort_ends_the_wait_too() {
    let mut t = two_settled(2);
    assert_eq!(t.call(Call::Query), [0, 0, 3, 0]);
    t.waits_silently(3, X);
    t.waits_silently(2, X);
    assert_eq!(t.abort(1), GRANTED);
    assert_eq!(t.read(3, X), FOUND_0);
    assert_eq!(t.read(2, X), FOUND_0);
    t.waits_silently(3, Y);
}

#[test]
fn a_settled_one_waits_for_smaller_stamps_alone() {
    let mut t = two_settled(2);
    t.waits_silently(2, X);
    assert_eq!(t.read(1, Y), FOUND_0);
    // Neither waits for the other in a circle, and neither is held up.
    t.waits_silently(2, X);
    assert_eq!(t.read(1, X), [0, 5, 0, 0]);
    assert_eq!(t.commit(1), [0, 0, 1, 0]);
    assert_eq!(t.read(2, X), [0, 5, 0, 1]);
    assert_eq!(t.commit(2), [0, 0, 2, 0]);

    // The larger one commits first: the smaller one reads what was before.
    let mut t = two_settled(2);
    assert_eq!(t.commit(2), [0, 0, 2, 0]);
    assert_eq!(t.read(1, Y), [0, 0, 0, 2]);
    assert_eq!(t.commit(1), [0, 0, 1, 0]);
    assert_eq!(t.versions(Y), [(2, 6)]);
}

#[test]
fn such_a_wait_is_never_followed_by_six() {
    let mut t = two_settled(2);
    t.waits_silently(2, X);
    assert_eq!(t.read(2, Z), FOUND_0);
    t.waits_silently(2, X);
    assert_eq!(t.write(2, Y, 60), GRANTED);
    t.waits_silently(2, X);
    assert_eq!(t.write(2, X, 60), PAST_WRITING);
    assert_eq!(t.settle(2), PAST_WRITING);
    assert_eq!(t.read(2, 64), UNKNOWN_ITEM);
    t.waits_silently(2, X);
    assert_eq!(t.commit(2), [0, 0, 2, 0]);

    assert_eq!(t.call(Call::Query), [0, 0, 3, 0]);
    t.waits_silently(3, X);
    assert_eq!(t.read(3, Y), [0, 60, 0, 1]);
    assert_eq!(t.write(3, X, 1), QUERY_MAY_NOT_WRITE);
    assert_eq!(t.settle(3), QUERY_MAY_NOT_WRITE);
    t.waits_silently(3, X);
    assert_eq!(t.commit(3), [0, 1, 0, 1]);
    assert_eq!(t.call(Call::Query), [0, 0, 4, 0]);
    t.waits_silently(4, X);
    assert_eq!(t.abort(4), GRANTED);
}

#[test]
fn such_a_wait_takes_no_rank() {
    let mut t = two_settled(4);
    assert_eq!(t.write(3, X, 1), WAIT);
    assert_eq!(t.ranks(4), [0, 0, 1, 0]);
    t.waits_silently(2, X);
    assert_eq!(t.call(Call::Query), [0, 0, 5, 0]);
    t.waits_silently(5, X);
    assert_eq!(t.read(4, X), WAIT);
    assert_eq!(t.ranks(5), [0, 0, 1, 2, 0]);
    assert_eq!(t.commit(1), [0, 0, 1, 0]);
    // Nor does it look at the line: who waits there stands against updates alone.
    assert_eq!(t.read(2, X), [0, 5, 0, 1]);
    assert_eq!(t.read(5, X), [0, 5, 0, 1]);
    assert_eq!(t.read(4, X), WAIT);
    assert_eq!(t.write(3, X, 1), GRANTED);
    assert_eq!(t.read(2, X), [0, 5, 0, 1]);
    assert_eq!(t.ranks(5), [0, 0, 0, 1, 0]);
}

#[test]
fn such_a_wait_closes_no_circle() {
    // 3 waits for 2, and 2 for 1, but of that the tables know nothing.
    let mut t = two_settled(4);
    assert_eq!(t.write(3, Z, 1), GRANTED);
    assert_eq!(t.read(3, Y), WAIT);
    t.waits_silently(2, X);
    // What 3 writes has no stamp yet.
    assert_eq!(t.read(1, Z), FOUND_0);
    assert_eq!(t.read(2, Z), FOUND_0);
    assert_eq!(t.write(4, Z, 1), WAIT);
    assert_eq!(t.commit(1), [0, 0, 1, 0]);
    assert_eq!(t.commit(2), [0, 0, 2, 0]);
    assert_eq!(t.read(3, Y), [0, 6, 0, 1]);
}

#[test]
fn an_update_waits_for_a_settled_one_as_for_any() {
    let mut t = two_settled(4);
    assert_eq!(t.read(3, X), WAIT);
    assert_eq!(t.write(4, X, 1), WAIT);
    assert_eq!(t.ranks(4), [0, 0, 1, 2]);
    assert_eq!(t.settle(3), STILL_WAITING);
    assert_eq!(t.commit(3), STILL_WAITING);
    assert_eq!(t.read(3, X), WAIT);
    assert_eq!(t.commit(1), [0, 0, 1, 0]);
    assert_eq!(t.read(3, X), [0, 5, 0, 1]);
    assert_eq!(t.ranks(4), [0, 0, 0, 1]);
    // A settle lets a waiting writer in, and keeps what it wrote itself.
    assert_eq!(t.write(3, Z, 1), GRANTED);
    assert_eq!(t.write(4, X, 1), WAIT);
    assert_eq!(t.settle(3), [0, 0, 3, 0]);
    assert_eq!(t.write(4, X, 1), GRANTED);
    assert_eq!(t.write(4, Z, 1), WAIT);
    // The check goes on by stamp 3, whatever the writer does.
    assert_eq!(t.read(3, X), [0, 5, 0, 1]);
    assert_eq!(t.abort(3), GRANTED);
    assert_eq!(t.write(4, Z, 1), GRANTED);
    assert_eq!(t.commit(4), [0, 0, 4, 0]);
}

#[test]
fn what_a_query_reads_hangs_on_how_the_settled_one_ends() {
    for commits in [true, false] {
        let mut t = two_settled(2);
        assert_eq!(t.call(Call::Query), [0, 0, 3, 0]);
        t.waits_silently(3, X);
        let ended = if commits { t.commit(1) } else { t.abort(1) };
        assert_eq!(ended, [0, 0, u64::from(commits), 0]);
        let value = if commits { 5 } else { 0 };
        assert_eq!(t.read(3, X), [0, value, 0, 1]);
    }
}
