//! The trials A to O of document 01, on both sides of each limit.

mod trial;

use trial::*;
use twin::sizes::*;
use twin::{Answer, Call};

const X: u64 = 7;
const Y: u64 = 8;

#[test]
fn a_the_run_of_the_document() {
    let mut t = Trial::fresh();
    assert_eq!(t.call(Call::Update), [0, 0, 1, 0]);
    assert_eq!(t.write(1, 5, 77), GRANTED);
    assert_eq!(t.call(Call::Query), [0, 0, 2, 0]);
    assert_eq!(t.read(2, 5), [0, 0, 0, 1]);
    assert_eq!(t.commit(1), [0, 0, 1, 0]);
    assert_eq!(t.read(2, 5), [0, 0, 0, 2]);
    assert_eq!(t.commit(2), [0, 3, 0, 2]);
    assert_eq!(t.read(2, 5), UNKNOWN_TRANSACTION);
}

#[test]
fn b_the_last_item_and_the_one_after() {
    let mut t = Trial::fresh();
    assert_eq!(t.call(Call::Query), [0, 0, 1, 0]);
    assert_eq!(t.read(1, 63), [0, 0, 0, 1]);
    assert_eq!(t.read(1, 64), UNKNOWN_ITEM);
    assert_eq!(t.read(1, u64::MAX), UNKNOWN_ITEM);
    assert_eq!(t.read(2, 64), UNKNOWN_TRANSACTION);
    assert_eq!(t.read(0, 64), UNKNOWN_TRANSACTION);
}

#[test]
fn c_a_reader_waits_for_a_writer() {
    let mut t = Trial::with_updates(2);
    assert_eq!(t.write(1, X, 5), GRANTED);
    assert_eq!(t.read(2, X), WAIT);
    assert_eq!(t.read(2, X), WAIT);
    assert_eq!(t.ranks(2), [0, 1]);
    assert_eq!(t.commit(1), [0, 0, 1, 0]);
    assert_eq!(t.read(2, X), [0, 5, 0, 1]);
    assert_eq!(t.ranks(2), [0, 0]);
}

#[test]
fn d_the_own_shared_lock_is_exchanged() {
    let mut t = Trial::with_updates(1);
    assert_eq!(t.read(1, X), [0, 0, 0, 1]);
    assert_eq!(t.write(1, X, 9), GRANTED);
    assert_eq!(t.0.locks[X as usize * LOCK_ROW..][..LOCK_ROW], [0, 1, 9]);
    assert_eq!(t.read(1, X), [0, 9, 0, 0]);
    assert_eq!(t.write(1, X, 10), GRANTED);
    assert_eq!(t.read(1, X), [0, 10, 0, 0]);
}

#[test]
fn e_two_readers_both_want_to_write() {
    let mut t = Trial::with_updates(2);
    assert_eq!(t.read(1, X), [0, 0, 0, 1]);
    assert_eq!(t.read(2, X), [0, 0, 0, 1]);
    assert_eq!(t.write(1, X, 1), WAIT);
    assert_eq!(t.write(2, X, 2), DEADLOCK);
    assert_eq!(t.ranks(2), [1, 0]);
    assert_eq!(t.read(2, X), [0, 0, 0, 1]);
    assert_eq!(t.abort(2), GRANTED);
    assert_eq!(t.write(1, X, 3), GRANTED);
    assert_eq!(t.read(1, X), [0, 3, 0, 0]);
}

#[test]
fn f_who_waits_may_only_repeat_or_abort() {
    let mut t = Trial::with_updates(2);
    assert_eq!(t.write(1, X, 1), GRANTED);
    assert_eq!(t.read(2, X), WAIT);
    assert_eq!(t.commit(2), STILL_WAITING);
    assert_eq!(t.read(2, Y), STILL_WAITING);
    assert_eq!(t.write(2, X, 5), STILL_WAITING);
    assert_eq!(t.ranks(2), [0, 1]);
    assert_eq!(t.read(2, 64), UNKNOWN_ITEM);
    assert_eq!(t.read(2, X), WAIT);
    assert_eq!(t.abort(2), GRANTED);

    let mut t = Trial::with_updates(2);
    assert_eq!(t.read(1, X), [0, 0, 0, 1]);
    assert_eq!(t.read(2, X), [0, 0, 0, 1]);
    assert_eq!(t.write(2, X, 5), WAIT);
    assert_eq!(t.read(2, X), STILL_WAITING);
    assert_eq!(t.write(2, Y, 5), STILL_WAITING);
    assert_eq!(t.commit(2), STILL_WAITING);
    assert_eq!(t.commit(1), [0, 0, 0, 0]);
    assert_eq!(t.read(2, X), STILL_WAITING);
    assert_eq!(t.write(2, X, 6), GRANTED);
    assert_eq!(t.read(2, X), [0, 6, 0, 0]);
}

#[test]
fn g_thirty_two_live_and_one_more() {
    // The last slot as well as one before it.
    for ended in [1, 9, 16, 17, 32] {
        let mut t = Trial::with_updates(32);
        assert_eq!(t.call(Call::Update), NO_SLOT);
        assert_eq!(t.call(Call::Query), NO_SLOT);
        assert_eq!(t.abort(ended), GRANTED);
        assert_eq!(t.call(Call::Query), [0, 0, 33, 0]);
        assert_eq!(t.0.txns[TXN_HEAD + (ended as usize - 1) * TXN_ROW], 33);
        assert_eq!(t.call(Call::Update), NO_SLOT);
        assert_eq!(t.call(Call::Query), NO_SLOT);
    }
}

#[test]
fn h_a_query_may_not_write() {
    let mut t = Trial::fresh();
    assert_eq!(t.call(Call::Query), [0, 0, 1, 0]);
    assert_eq!(t.write(1, 63, 1), QUERY_MAY_NOT_WRITE);
    assert_eq!(t.write(1, 64, 1), UNKNOWN_ITEM);
    assert_eq!(t.write(2, 64, 1), UNKNOWN_TRANSACTION);
}

/// A query at each stamp 0 to 30, an update writing item 0 after each.
fn full_row() -> Trial {
    let mut t = Trial::fresh();
    for stamp in 0..31 {
        assert_eq!(t.call(Call::Query), [0, 0, 2 * stamp + 1, 0]);
        let number = 2 * stamp + 2;
        assert_eq!(t.call(Call::Update), [0, 0, number, 0]);
        assert_eq!(t.write(number, 0, 100 + stamp), GRANTED);
        assert_eq!(t.commit(number), [0, 0, stamp + 1, 0]);
    }
    t
}

#[test]
fn i_a_full_row() {
    let mut t = full_row();
    assert_eq!(t.count(0), 32);
    assert_eq!(t.read(1, 0), [0, 0, 0, 32]);
    assert_eq!(t.read(3, 0), [0, 100, 0, 31]);
    assert_eq!(t.read(61, 0), [0, 129, 0, 2]);

    // One more write finds room: nobody reads the newest version.
    assert_eq!(t.call(Call::Update), [0, 0, 63, 0]);
    assert_eq!(t.call(Call::Update), NO_SLOT);
    assert_eq!(t.write(63, 0, 500), GRANTED);
    assert_eq!(t.commit(63), [0, 0, 32, 0]);
    assert_eq!(t.count(0), 32);
    assert_eq!(t.read(1, 0), [0, 0, 0, 32]);

    // A query's end frees its own version and no other.
    assert_eq!(t.commit(31), GRANTED);
    assert_eq!(t.count(0), 31);
    assert_eq!(t.read(1, 0), [0, 0, 0, 31]);
    assert_eq!(t.read(29, 0), [0, 113, 0, 17]);
    assert_eq!(t.read(33, 0), [0, 115, 0, 16]);
    assert_eq!(t.abort(1), [0, 95, 0, 3]);
    assert_eq!(t.count(0), 30);
}

#[test]
fn j_the_clock_is_spent() {
    let mut t = Trial::fresh();
    t.0.txns[CLOCK] = LAST - 1;
    assert_eq!(t.call(Call::Update), [0, 0, 1, 0]);
    assert_eq!(t.call(Call::Query), [0, 0, 2, 0]);
    assert_eq!(t.write(1, Y, 1), GRANTED);
    assert_eq!(t.commit(1), [0, 0, LAST, 0]);

    assert_eq!(t.call(Call::Update), [0, 0, 3, 0]);
    assert_eq!(t.call(Call::Query), [0, 0, 4, 0]);
    assert_eq!(t.write(3, X, 1), GRANTED);
    assert_eq!(t.commit(3), CLOCK_SPENT);
    assert_eq!(t.read(3, X), [0, 1, 0, 0]);
    assert_eq!(t.read(4, X), [0, 0, 0, 1]);
    assert_eq!(t.commit(4), [0, 1, 0, 1]);
    assert_eq!(t.commit(2), GRANTED);
    assert_eq!(t.commit(3), CLOCK_SPENT);

    // Waiting comes before the clock.
    assert_eq!(t.call(Call::Update), [0, 0, 5, 0]);
    assert_eq!(t.read(5, X), WAIT);
    assert_eq!(t.commit(5), STILL_WAITING);
    assert_eq!(t.abort(3), GRANTED);

    // Who wrote nothing takes no stamp.
    assert_eq!(t.read(5, X), [0, 0, 0, 1]);
    assert_eq!(t.commit(5), [0, 0, LAST, 0]);
}

#[test]
fn k_an_aborted_write_is_never_read() {
    let mut t = Trial::with_updates(2);
    assert_eq!(t.write(1, X, 5), GRANTED);
    assert_eq!(t.call(Call::Query), [0, 0, 3, 0]);
    assert_eq!(t.read(3, X), [0, 0, 0, 1]);
    assert_eq!(t.abort(1), GRANTED);
    assert_eq!(t.0.locks, [0; LOCK_WORDS]);
    assert_eq!(t.read(2, X), [0, 0, 0, 1]);
    assert_eq!(t.read(3, X), [0, 0, 0, 1]);
    assert_eq!(t.commit(2), [0, 0, 0, 0]);
    assert_eq!(t.call(Call::Query), [0, 0, 4, 0]);
    assert_eq!(t.read(4, X), [0, 0, 0, 1]);
}

#[test]
fn l_a_version_count_of_zero() {
    for item in 0..ITEMS {
        let mut t = Trial::with_updates(1);
        t.0.versions[item * VERSION_ROW] = 0;
        for call in Call::each(1, 0, 1) {
            assert_eq!(t.call(call), BAD_TABLES);
        }
    }
}

#[test]
fn m_the_numbers_are_spent() {
    let mut t = Trial::fresh();
    t.0.txns[LAST_NUMBER] = LAST - 1;
    assert_eq!(t.call(Call::Update), [0, 0, LAST, 0]);
    assert_eq!(t.call(Call::Update), NUMBERS_SPENT);
    assert_eq!(t.call(Call::Query), NUMBERS_SPENT);
    assert_eq!(t.commit(LAST), [0, 0, 0, 0]);
    assert_eq!(t.call(Call::Query), NUMBERS_SPENT);

    let mut t = Trial::with_updates(32);
    t.0.txns[LAST_NUMBER] = LAST;
    assert_eq!(t.call(Call::Update), NO_SLOT);
    assert_eq!(t.call(Call::Query), NO_SLOT);
    assert_eq!(t.abort(1), GRANTED);
    assert_eq!(t.call(Call::Update), NUMBERS_SPENT);
}

#[test]
fn n_tables_of_other_sizes() {
    let good = Trial::with_updates(1).0;
    for (short, long, table) in [(257, 259, 0), (191, 193, 1), (4159, 4161, 2)] {
        // Among them the sizes of sixteen slots and sixteen versions.
        for len in [0, 1, short, long, 2 * long, 98, 2112] {
            for call in Call::each(1, 0, 1) {
                let mut tables = [
                    good.txns.to_vec(),
                    good.locks.to_vec(),
                    good.versions.to_vec(),
                ];
                tables[table].resize(len, 0);
                let before = tables.clone();
                let [txns, locks, versions] = &mut tables;
                let answer: Answer = call.on(txns, locks, versions);
                assert_eq!(answer.words(), BAD_TABLES);
                assert_eq!(tables, before);
            }
        }
    }
}

#[test]
fn o_circles_of_every_length() {
    for length in 2..=32 {
        let mut t = Trial::with_updates(length);
        for number in 1..=length {
            assert_eq!(t.write(number, number, number), GRANTED);
        }
        for number in 1..length {
            assert_eq!(t.read(number, number + 1), WAIT);
        }
        assert_eq!(t.read(length, 1), DEADLOCK);
        assert_eq!(t.write(length, 1, 1), DEADLOCK);
        let waiting = length as usize - 1;
        assert_eq!(t.ranks(length), [&vec![1; waiting][..], &[0]].concat());
        assert_eq!(t.read(length, 0), [0, 0, 0, 1]);
        assert_eq!(t.abort(1), GRANTED);
        assert_eq!(t.read(length, 1), [0, 0, 0, 1]);
    }
}
