//! Request E4: who waits stands in line. Trials of places, ranks and circles.

mod trial;

use trial::*;
use twin::Call;

const X: u64 = 7;
const Y: u64 = 8;
const Z: u64 = 9;

#[test]
fn readers_do_not_pass_a_waiting_writer() {
    let mut t = Trial::with_updates(4);
    assert_eq!(t.read(1, X), FOUND_0);
    assert_eq!(t.write(2, X, 2), WAIT);
    assert_eq!(t.read(3, X), WAIT);
    assert_eq!(t.read(4, X), WAIT);
    assert_eq!(t.ranks(4), [0, 1, 2, 3]);
    // A repeated wait changes nothing.
    assert_eq!(t.read(3, X), WAIT);
    assert_eq!(t.ranks(4), [0, 1, 2, 3]);
    assert_eq!(t.commit(1), [0, 0, 0, 0]);
    assert_eq!(t.read(4, X), WAIT);
    assert_eq!(t.write(2, X, 5), GRANTED);
    assert_eq!(t.ranks(4), [0, 0, 1, 2]);
    assert_eq!(t.commit(2), [0, 0, 1, 0]);
    // Readers do not stand against one another.
    assert_eq!(t.read(4, X), [0, 5, 0, 1]);
    assert_eq!(t.ranks(4), [0, 0, 1, 0]);
    assert_eq!(t.read(3, X), [0, 5, 0, 1]);
}

#[test]
fn writers_wait_for_waiting_readers() {
    let mut t = Trial::with_updates(4);
    assert_eq!(t.write(1, X, 1), GRANTED);
    assert_eq!(t.read(2, X), WAIT);
    assert_eq!(t.write(3, X, 3), WAIT);
    assert_eq!(t.commit(1), [0, 0, 1, 0]);
    // Nobody holds it, but the reader was first.
    assert_eq!(t.write(3, X, 3), WAIT);
    assert_eq!(t.write(4, X, 4), WAIT);
    assert_eq!(t.ranks(4), [0, 1, 2, 3]);
    assert_eq!(t.abort(2), GRANTED);
    assert_eq!(t.ranks(4), [0, 0, 1, 2]);
    assert_eq!(t.write(4, X, 4), WAIT);
    assert_eq!(t.write(3, X, 3), GRANTED);
}

#[test]
fn one_that_goes_moves_those_behind_it() {
    for leaver in 2..=5 {
        let mut t = Trial::with_updates(6);
        assert_eq!(t.write(1, X, 1), GRANTED);
        for number in 2..=5 {
            assert_eq!(t.write(number, X, number), WAIT);
        }
        assert_eq!(t.read(6, Y), FOUND_0);
        assert_eq!(t.ranks(6), [0, 1, 2, 3, 4, 0]);
        assert_eq!(t.abort(leaver), GRANTED);
        let mut ranks = vec![0; 6];
        let left = (2..=5).filter(|number| *number != leaver);
        for (rank, number) in (1..).zip(left) {
            ranks[number as usize - 1] = rank;
        }
        assert_eq!(t.ranks(6), ranks);
        // Who comes now is last.
        assert_eq!(t.read(6, X), WAIT);
        assert_eq!(t.ranks(6)[5], 4);
    }
}

#[test]
fn an_exchanger_goes_ahead() {
    let mut t = Trial::with_updates(5);
    assert_eq!(t.read(1, X), FOUND_0);
    assert_eq!(t.read(2, X), FOUND_0);
    assert_eq!(t.write(3, X, 3), WAIT);
    assert_eq!(t.read(4, X), WAIT);
    assert_eq!(t.ranks(5), [0, 0, 1, 2, 0]);
    assert_eq!(t.write(1, X, 1), WAIT);
    assert_eq!(t.ranks(5), [1, 0, 2, 3, 0]);
    // A second one would wait for the first, and it for this one.
    assert_eq!(t.write(2, X, 2), DEADLOCK);
    assert_eq!(t.ranks(5), [1, 0, 2, 3, 0]);
    // What needs no further lock asks no line.
    assert_eq!(t.read(2, X), FOUND_0);
    assert_eq!(t.commit(2), [0, 0, 0, 0]);
    assert_eq!(t.write(1, X, 1), GRANTED);
    assert_eq!(t.ranks(5), [0, 0, 1, 2, 0]);
    assert_eq!(t.read(1, X), [0, 1, 0, 0]);
    assert_eq!(t.write(1, X, 9), GRANTED);
    assert_eq!(t.read(5, X), WAIT);
    assert_eq!(t.ranks(5), [0, 0, 1, 2, 3]);

    // The only one that shares it exchanges at once.
    let mut t = Trial::with_updates(2);
    assert_eq!(t.read(1, X), FOUND_0);
    assert_eq!(t.write(2, X, 2), WAIT);
    assert_eq!(t.write(1, X, 1), GRANTED);
    assert_eq!(t.ranks(2), [0, 1]);
}

#[test]
fn a_circle_through_an_earlier_waiter() {
    let mut t = Trial::with_updates(3);
    assert_eq!(t.read(1, X), FOUND_0);
    assert_eq!(t.write(3, Y, 3), GRANTED);
    assert_eq!(t.write(2, X, 2), WAIT);
    // The third one waits for the second, and that one for the first.
    assert_eq!(t.read(3, X), WAIT);
    assert_eq!(t.read(1, Y), DEADLOCK);
    assert_eq!(t.abort(2), GRANTED);
    assert_eq!(t.read(1, Y), WAIT);
    assert_eq!(t.read(3, X), FOUND_0);
}

#[test]
fn a_circle_through_one_that_is_passed() {
    let mut t = Trial::with_updates(4);
    assert_eq!(t.read(1, X), FOUND_0);
    assert_eq!(t.read(2, X), FOUND_0);
    assert_eq!(t.write(4, Y, 4), GRANTED);
    assert_eq!(t.write(3, X, 3), WAIT);
    assert_eq!(t.read(4, X), WAIT);
    assert_eq!(t.abort(3), GRANTED);
    // Nobody stands against the fourth one now, and it has not asked again.
    assert_eq!(t.read(2, Y), WAIT);
    // The first would wait for the second, that for the fourth, and the fourth,
    // which would have the first ahead of it, for the first.
    assert_eq!(t.write(1, X, 1), DEADLOCK);
    assert_eq!(t.ranks(4), [0, 1, 0, 1]);
    assert_eq!(t.read(4, X), FOUND_0);
}

#[test]
fn a_wait_that_nobody_stands_against_keeps_its_place() {
    let mut t = Trial::with_updates(3);
    assert_eq!(t.write(1, X, 1), GRANTED);
    assert_eq!(t.write(2, X, 2), WAIT);
    assert_eq!(t.abort(1), GRANTED);
    assert_eq!(t.read(3, X), WAIT);
    assert_eq!(t.commit(2), STILL_WAITING);
    assert_eq!(t.read(3, X), WAIT);
    assert_eq!(t.write(2, X, 2), GRANTED);
    assert_eq!(t.ranks(3), [0, 0, 1]);
}

#[test]
fn refused_requests_stand_nowhere() {
    let mut t = Trial::with(3, 32);
    assert_eq!(t.write(2, 50, 5), GRANTED);
    assert_eq!(t.write(1, 50, 5), QUOTA_SPENT);
    assert_eq!(t.ranks(3), [0, 0, 0]);
    assert_eq!(t.write(3, 50, 5), WAIT);
    assert_eq!(t.write(1, 50, 5), QUOTA_SPENT);
    assert_eq!(t.ranks(3), [0, 0, 1]);
    assert_eq!(t.read(2, Z), WAIT);
    assert_eq!(t.read(1, 50), DEADLOCK);
    assert_eq!(t.ranks(3), [0, 1, 1]);
}

#[test]
fn thirty_one_in_line_are_served_one_after_another() {
    let mut t = Trial::with_updates(32);
    for number in 1..=32 {
        let answer = t.write(number, X, number);
        assert_eq!(answer, if number == 1 { GRANTED } else { WAIT });
    }
    assert_eq!(t.ranks(32), (0..32).collect::<Vec<u64>>());
    for number in 1..32 {
        assert_eq!(t.commit(number), [0, 0, number, 0]);
        // A newcomer goes behind all.
        assert_eq!(t.call(Call::Update), [0, 0, 32 + number, 0]);
        assert_eq!(t.read(32 + number, X), WAIT);
        for later in number + 2..=32 {
            assert_eq!(t.write(later, X, later), WAIT);
        }
        assert_eq!(t.write(number + 1, X, number + 1), GRANTED);
        assert_eq!(t.abort(32 + number), GRANTED);
    }
}

#[test]
fn the_last_rank_is_thirty_two() {
    // All wait, since the one who held the item is gone and nobody has asked again.
    let mut t = Trial::with_updates(32);
    for number in 1..=32 {
        let answer = t.write(number, X, number);
        assert_eq!(answer, if number == 1 { GRANTED } else { WAIT });
    }
    assert_eq!(t.abort(1), GRANTED);
    assert_eq!(t.call(Call::Update), [0, 0, 33, 0]);
    assert_eq!(t.read(33, X), WAIT);
    assert_eq!(t.ranks(32)[0], 32);
    assert_eq!(t.abort(17), GRANTED);
    assert_eq!(t.ranks(32)[0], 31);
    assert_eq!(t.write(2, X, 2), GRANTED);
    assert_eq!(t.ranks(32)[0], 30);
    assert_eq!(t.ranks(32)[31], 29);
}

#[test]
fn thirty_two_share_and_one_asks_to_exchange() {
    let mut t = Trial::with_updates(32);
    for number in 1..=32 {
        assert_eq!(t.read(number, X), FOUND_0);
    }
    assert_eq!(t.write(32, X, 5), WAIT);
    // Each of them would wait for it, and it waits for each.
    for number in 1..32 {
        assert_eq!(t.write(number, X, number), DEADLOCK);
    }
    for number in 1..32 {
        assert_eq!(t.write(32, X, 5), WAIT);
        assert_eq!(t.commit(number), [0, 0, 0, 0]);
    }
    assert_eq!(t.write(32, X, 5), GRANTED);
    assert_eq!(t.ranks(32), [0; 32]);
}
