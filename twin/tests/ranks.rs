//! The clauses on ranks and circles broken alone, and what barely keeps them.

mod sample;

use sample::*;
use twin::clauses::Clause;
use twin::sizes::*;
use twin::Keeper;

/// The line of item 1: the waiter first, behind it the update, which reads too.
fn line_of_two(k: &mut Keeper) {
    set_txn(k, LIVE_UPDATE, [11, UPDATE, 0, AWAITS_SHARED, 1, 2]);
}

#[test]
fn ranks() {
    keeps(line_of_two);
    // The order of the slots is not that of the line.
    keeps(|k| {
        line_of_two(k);
        *txn(k, WAITER, RANK) = 2;
        *txn(k, LIVE_UPDATE, RANK) = 1;
    });
    for rank in [1, 2, 17, 32, 33, u64::MAX] {
        breaks(Clause::RankUnawaited, |k| *txn(k, LIVE_UPDATE, RANK) = rank);
        breaks(Clause::RankUnawaited, |k| *txn(k, NEW_QUERY, RANK) = rank);
        breaks(Clause::FreeRow, |k| *txn(k, FREE, RANK) = rank);
    }
    breaks(Clause::RankMissing, |k| *txn(k, WAITER, RANK) = 0);
    breaks(Clause::RankMissing, |k| {
        line_of_two(k);
        *txn(k, LIVE_UPDATE, RANK) = 0;
    });
    breaks(Clause::RankTwice, |k| {
        line_of_two(k);
        *txn(k, LIVE_UPDATE, RANK) = 1;
    });
    for rank in [2, 3, 16, 17, 32, 33, (1 << 32) + 1, u64::MAX] {
        breaks(Clause::RankGap, |k| *txn(k, WAITER, RANK) = rank);
    }
    for rank in [3, 16, 17, 32, 33, (1 << 32) + 2, u64::MAX] {
        breaks(Clause::RankGap, |k| {
            line_of_two(k);
            *txn(k, LIVE_UPDATE, RANK) = rank;
        });
    }
    // Each item has a line of its own.
    keeps(|k| set_txn(k, LIVE_UPDATE, [11, UPDATE, 0, AWAITS_SHARED, 0, 1]));
    breaks(Clause::RankGap, |k| {
        set_txn(k, LIVE_UPDATE, [11, UPDATE, 0, AWAITS_SHARED, 0, 2])
    });
}

/// All slots are updates that await item 0, the last slot first; nobody holds it.
fn line_of_all(k: &mut Keeper) {
    *k = Keeper::fresh();
    k.txns[LAST_NUMBER] = 50;
    for slot in 0..SLOTS {
        let words = [
            11 + slot as u64,
            UPDATE,
            0,
            AWAITS_EXCLUSIVE,
            0,
            (SLOTS - slot) as u64,
        ];
        set_txn(k, slot, words);
    }
}

#[test]
fn every_slot_in_one_line() {
    keeps(line_of_all);
    for slot in [0, 15, 16, 31] {
        breaks(Clause::RankMissing, |k| {
            line_of_all(k);
            for lower in 0..slot {
                *txn(k, lower, RANK) -= 1;
            }
            *txn(k, slot, RANK) = 0;
        });
    }
    for slot in [0, 14, 15, 16, 30] {
        breaks(Clause::RankTwice, |k| {
            line_of_all(k);
            for lower in 0..=slot {
                *txn(k, lower, RANK) -= 1;
            }
        });
    }
    for rank in [33, 34, 64, u64::MAX] {
        breaks(Clause::RankGap, |k| {
            line_of_all(k);
            *txn(k, 0, RANK) = rank;
        });
    }
}

#[test]
fn a_circle_of_every_slot() {
    // Slot i awaits what the next one holds, and the last one what the first does.
    let circle = |last: usize| {
        move |k: &mut Keeper| {
            *k = Keeper::fresh();
            k.txns[LAST_NUMBER] = 50;
            for slot in 0..SLOTS {
                let awaited = match slot {
                    31 => last,
                    _ => slot + 1,
                };
                let words = [
                    11 + slot as u64,
                    UPDATE,
                    0,
                    AWAITS_SHARED,
                    awaited as u64,
                    1,
                ];
                set_txn(k, slot, words);
                set_lock(k, slot, [0, slot as u64 + 1, 0]);
            }
        }
    };
    breaks(Clause::Circle, circle(0));
    // Those that wait for the circle are not on it.
    breaks(Clause::Circle, |k| {
        circle(30)(k);
        *txn(k, 31, RANK) = 1;
        *txn(k, 29, AWAITED_ITEM) = 40;
    });
    keeps(circle(63));
}

#[test]
fn exchangers_stand_first() {
    // Item 3 is shared by the holder, and the update awaits it.
    let line = |exchanger: u64, reader: u64, lock: u64| {
        move |k: &mut Keeper| {
            set_txn(k, HOLDER, [12, UPDATE, 0, AWAITS_EXCLUSIVE, 3, exchanger]);
            set_txn(k, LIVE_UPDATE, [11, UPDATE, 0, lock, 3, reader]);
        }
    };
    keeps(line(1, 2, AWAITS_SHARED));
    keeps(line(1, 2, AWAITS_EXCLUSIVE));
    breaks(Clause::ExchangerBehind, line(2, 1, AWAITS_SHARED));
    breaks(Clause::RankTwice, line(1, 1, AWAITS_SHARED));
}

#[test]
fn circles() {
    breaks(Clause::Circle, |k| {
        set_txn(k, HOLDER, [12, UPDATE, 0, AWAITS_SHARED, 4, 1])
    });
    breaks(Clause::Circle, |k| {
        set_txn(k, HOLDER, [12, UPDATE, 0, AWAITS_EXCLUSIVE, 2, 1])
    });
    // A circle of three: the waiter, the holder, the update.
    breaks(Clause::Circle, |k| {
        set_txn(k, HOLDER, [12, UPDATE, 0, AWAITS_SHARED, 5, 1]);
        set_lock(k, 5, [0, LIVE_UPDATE as u64 + 1, 0]);
        set_txn(k, LIVE_UPDATE, [11, UPDATE, 0, AWAITS_EXCLUSIVE, 4, 1]);
    });
    // The waiter waits for the holder only because the update is ahead of it.
    let through_a_waiter = |ahead: u64, lock: u64| {
        move |k: &mut Keeper| {
            set_lock(k, 5, [1 << HOLDER, 0, 0]);
            set_txn(k, LIVE_UPDATE, [11, UPDATE, 0, lock, 5, ahead]);
            set_txn(k, WAITER, [50, UPDATE, 0, AWAITS_SHARED, 5, 3 - ahead]);
            set_txn(k, HOLDER, [12, UPDATE, 0, AWAITS_SHARED, 4, 1]);
        }
    };
    breaks(Clause::Circle, through_a_waiter(1, AWAITS_EXCLUSIVE));
    keeps(through_a_waiter(2, AWAITS_EXCLUSIVE));
    keeps(through_a_waiter(1, AWAITS_SHARED));
    // A circle nobody outside it waits for, and one that others wait for.
    keeps(|k| set_txn(k, LIVE_UPDATE, [11, UPDATE, 0, AWAITS_EXCLUSIVE, 2, 1]));
    keeps(|k| {
        set_txn(k, HOLDER, [12, UPDATE, 0, AWAITS_SHARED, 5, 1]);
        set_lock(k, 5, [0, LIVE_UPDATE as u64 + 1, 0]);
    });
}
