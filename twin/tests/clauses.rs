//! Each clause of good tables broken alone, and what barely keeps it.

mod sample;

use sample::*;
use twin::clauses::{broken, Clause};
use twin::sizes::*;
use twin::Keeper;

#[test]
fn the_sample_and_fresh_tables_are_good() {
    keeps(|_| {});
    keeps(|keeper| *keeper = Keeper::fresh());
}

#[test]
fn sizes() {
    let keeper = sample();
    let (txns, locks, versions) = (&keeper.txns[..], &keeper.locks[..], &keeper.versions[..]);
    let longer = |table: &[u64]| [table, &[0]].concat();
    assert!(twin::good(txns, locks, versions));
    assert!(!twin::good(&txns[..257], locks, versions));
    assert!(!twin::good(&longer(txns), locks, versions));
    assert!(!twin::good(txns, &locks[..191], versions));
    assert!(!twin::good(txns, &longer(locks), versions));
    assert!(!twin::good(txns, locks, &versions[..4159]));
    assert!(!twin::good(txns, locks, &longer(versions)));
    assert!(!twin::good(&[], &[], &[]));
    assert!(!twin::good(locks, txns, versions));
    assert_eq!(broken(&txns[..257], locks, versions), [Clause::Sizes]);
}

#[test]
fn last_number_and_clock() {
    keeps(|k| k.txns[LAST_NUMBER] = LAST);
    breaks(Clause::LastNumber, |k| k.txns[LAST_NUMBER] = LAST + 1);
    breaks(Clause::LastNumber, |k| k.txns[LAST_NUMBER] = u64::MAX);
    keeps(|k| k.txns[CLOCK] = LAST);
    breaks(Clause::Clock, |k| k.txns[CLOCK] = LAST + 1);
    breaks(Clause::Clock, |k| k.txns[CLOCK] = u64::MAX);
}

#[test]
fn free_rows() {
    for place in 1..TXN_ROW {
        breaks(Clause::FreeRow, |k| *txn(k, FREE, place) = 1);
        for slot in [15, 16, 31] {
            breaks(Clause::FreeRow, |k| *txn(k, slot, place) = 1 << 63);
        }
    }
}

#[test]
fn numbers() {
    breaks(Clause::DistinctNumbers, |k| {
        *txn(k, LIVE_UPDATE, NUMBER) = 15
    });
    breaks(Clause::DistinctNumbers, |k| *txn(k, OLD_QUERY, NUMBER) = 15);
    breaks(Clause::NumberGiven, |k| *txn(k, WAITER, NUMBER) = 51);
    breaks(Clause::NumberGiven, |k| k.txns[LAST_NUMBER] = 49);
    breaks(Clause::NumberGiven, |k| {
        *txn(k, WAITER, NUMBER) = (1 << 32) + 1
    });
    keeps(|k| *txn(k, WAITER, NUMBER) = 1);
}

#[test]
fn kinds_and_starts() {
    breaks(Clause::Kind, |k| *txn(k, LIVE_UPDATE, KIND) = 4);
    breaks(Clause::Kind, |k| *txn(k, LIVE_UPDATE, KIND) = u64::MAX);
    breaks(Clause::UpdateStart, |k| *txn(k, LIVE_UPDATE, START) = 1);
    breaks(Clause::QueryStart, |k| *txn(k, NEW_QUERY, START) = 11);
    breaks(Clause::QueryStart, |k| *txn(k, NEW_QUERY, START) = u64::MAX);
    keeps(|k| *txn(k, NEW_QUERY, START) = 9);
}

#[test]
fn awaited() {
    breaks(Clause::AwaitedLock, |k| *txn(k, WAITER, AWAITED_LOCK) = 3);
    breaks(Clause::AwaitedLock, |k| {
        *txn(k, LIVE_UPDATE, AWAITED_LOCK) = u64::MAX
    });
    breaks(Clause::QueryAwaits, |k| {
        set_txn(k, NEW_QUERY, [15, QUERY, 10, 1, 0, 1])
    });
    breaks(Clause::QueryAwaits, |k| {
        set_txn(k, NEW_QUERY, [15, QUERY, 10, 2, 0, 1])
    });
    breaks(Clause::AwaitedItem, |k| *txn(k, WAITER, AWAITED_ITEM) = 64);
    breaks(Clause::AwaitedItem, |k| {
        *txn(k, WAITER, AWAITED_ITEM) = u64::MAX
    });
    keeps(|k| *txn(k, WAITER, AWAITED_ITEM) = 63);
    breaks(Clause::NothingAwaited, |k| {
        *txn(k, LIVE_UPDATE, AWAITED_ITEM) = 1
    });
    breaks(Clause::NothingAwaited, |k| {
        *txn(k, NEW_QUERY, AWAITED_ITEM) = 63
    });
    breaks(Clause::NothingAwaited, |k| {
        set_txn(k, WAITER, [50, UPDATE, 0, 0, 1, 0])
    });
}

#[test]
fn reads_and_weights() {
    let sums = [
        (READS, Clause::ReadCount, Clause::UpdateReads),
        (WEIGHT, Clause::WeightSum, Clause::UpdateWeight),
    ];
    for (place, above, there) in sums {
        for slot in [OLD_QUERY, NEW_QUERY] {
            // No sentence ties the one to the other.
            for sum in [0, 1, LAST - 1, LAST] {
                keeps(|k| *txn(k, slot, place) = sum);
            }
            for sum in [LAST + 1, 1 << 63, u64::MAX] {
                breaks(above, |k| *txn(k, slot, place) = sum);
            }
        }
        for slot in [LIVE_UPDATE, HOLDER, WAITER] {
            for sum in [1, LAST, LAST + 1, u64::MAX] {
                breaks(there, |k| *txn(k, slot, place) = sum);
            }
        }
    }
}

#[test]
fn awaits_what_it_holds() {
    breaks(Clause::AwaitsSharedHeld, |k| {
        *txn(k, WAITER, AWAITED_ITEM) = 2
    });
    breaks(Clause::AwaitsSharedHeld, |k| {
        *txn(k, WAITER, AWAITED_ITEM) = 4
    });
    breaks(Clause::AwaitsExclusiveHeld, |k| {
        *txn(k, WAITER, AWAITED_LOCK) = AWAITS_EXCLUSIVE;
        *txn(k, WAITER, AWAITED_ITEM) = 4;
    });
    keeps(|k| {
        *txn(k, WAITER, AWAITED_LOCK) = AWAITS_EXCLUSIVE;
        *txn(k, WAITER, AWAITED_ITEM) = 2;
    });
    // A wait whose cause is gone is still a wait.
    keeps(|k| set_lock(k, 1, [0, 0, 0]));
}

#[test]
fn holders() {
    breaks(Clause::SharedHolders, |k| k.locks[SHARED] = 1 << FREE);
    breaks(Clause::SharedHolders, |k| k.locks[SHARED] = 1 << OLD_QUERY);
    for bit in [15, 16, 31, 32] {
        breaks(Clause::SharedHolders, |k| k.locks[SHARED] = 1 << bit);
    }
    breaks(Clause::SharedHolders, |k| {
        k.locks[SHARED] = 1 << 63 | 1 << HOLDER
    });
    keeps(|k| k.locks[SHARED] = 0b111);
    breaks(Clause::ExclusiveHolder, |k| {
        k.locks[EXCLUSIVE] = FREE as u64 + 1
    });
    breaks(Clause::ExclusiveHolder, |k| {
        k.locks[EXCLUSIVE] = NEW_QUERY as u64 + 1
    });
    for holder in [16, 17, 32, 33, 64, 65] {
        breaks(Clause::ExclusiveHolder, |k| k.locks[EXCLUSIVE] = holder);
    }
    breaks(Clause::ExclusiveHolder, |k| {
        k.locks[EXCLUSIVE] = (1 << 32) + 1
    });
    breaks(Clause::ExclusiveHolder, |k| k.locks[EXCLUSIVE] = u64::MAX);
    keeps(|k| set_lock(k, 63, [0, LIVE_UPDATE as u64 + 1, u64::MAX]));
    breaks(Clause::BothHolders, |k| {
        set_lock(k, 63, [1 << HOLDER, 1, 5])
    });
    breaks(Clause::BothHolders, |k| set_lock(k, 63, [1, 1, 5]));
    breaks(Clause::WorkingValue, |k| k.locks[WORKING] = 1);
    breaks(Clause::WorkingValue, |k| {
        set_lock(k, 3, [1 << HOLDER, 0, 1])
    });
}

#[test]
fn the_slots_from_sixteen_on() {
    for slot in [16, 31] {
        let updates = move |k: &mut Keeper| {
            set_txn(k, slot, [13, UPDATE, 0, 0, 0, 0]);
            set_lock(k, 10, [1 << slot | 1 << HOLDER, 0, 0]);
            set_lock(k, 11, [0, slot as u64 + 1, 7]);
        };
        keeps(updates);
        breaks(Clause::DistinctNumbers, |k| {
            updates(k);
            *txn(k, slot, NUMBER) = 12;
        });
        breaks(Clause::AwaitsSharedHeld, |k| {
            updates(k);
            set_txn(k, slot, [13, UPDATE, 0, AWAITS_SHARED, 10, 1]);
        });
        breaks(Clause::AwaitsExclusiveHeld, |k| {
            updates(k);
            set_txn(k, slot, [13, UPDATE, 0, AWAITS_EXCLUSIVE, 11, 1]);
        });
        breaks(Clause::Quota, |k| {
            updates(k);
            fill(k, slot, 33);
        });
        // It alone reads the version at stamp 8.
        let reads = move |k: &mut Keeper| {
            set_txn(k, slot, [13, QUERY, 8, 0, 0, 0]);
            set_versions(k, OLD_ITEM, &[(9, 1), (8, 2), (2, 3)]);
        };
        keeps(reads);
        breaks(Clause::UnreadVersion, |k| {
            reads(k);
            *txn(k, slot, START) = 9;
        });
        breaks(Clause::LastStamp, |k| {
            set_txn(k, slot, [13, QUERY, 1, 0, 0, 0]);
        });
    }
}

#[test]
fn full_rows() {
    // A query at each stamp 1 to 32, and a version for each of them.
    let full = |k: &mut Keeper| {
        *k = Keeper::fresh();
        k.txns[LAST_NUMBER] = 50;
        k.txns[CLOCK] = 40;
        for slot in 0..SLOTS {
            set_txn(k, slot, [11 + slot as u64, QUERY, 1 + slot as u64, 0, 0, 0]);
        }
        let pairs: Vec<(u64, u64)> = (1..=32).rev().map(|stamp| (stamp, 1 << stamp)).collect();
        set_versions(k, 0, &pairs);
    };
    keeps(full);
    let stamp = |place: usize| 2 * place - 1;
    for place in [2, 16, 17, 18, 31, 32] {
        breaks(Clause::StampsFall, |k| {
            full(k);
            // Both stamps are then the newer one, which two queries read.
            k.versions[stamp(place)] += 1;
            for query in [33 - place, 34 - place] {
                *txn(k, query - 1, START) = 34 - place as u64;
            }
        });
        breaks(Clause::UnreadVersion, |k| {
            full(k);
            *txn(k, 32 - place, START) += 1;
        });
    }
    breaks(Clause::LastStamp, |k| {
        full(k);
        *txn(k, 1, START) = 0;
        k.versions[stamp(32)..=stamp(32) + 1].fill(0);
        k.versions[COUNT] = 31;
        *txn(k, 0, START) = 2;
    });
    breaks(Clause::UnusedPairs, |k| {
        full(k);
        *txn(k, 0, START) = 2;
        k.versions[COUNT] = 31;
        k.versions[stamp(32)] = 0;
        k.versions[stamp(31)] = 1;
        k.versions[stamp(32) + 1] = 9;
    });
}

/// Gives an update more items, from item 20, until it has so many.
fn fill(keeper: &mut Keeper, slot: usize, count: usize) {
    let holder = slot as u64 + 1;
    let rows = keeper.locks.chunks(LOCK_ROW);
    let held = rows.filter(|row| row[EXCLUSIVE] == holder).count();
    for item in 20..20 + count - held {
        set_lock(keeper, item, [0, holder, item as u64]);
    }
}

#[test]
fn quotas() {
    for slot in [LIVE_UPDATE, HOLDER, WAITER] {
        keeps(|k| fill(k, slot, 31));
        keeps(|k| fill(k, slot, 32));
        breaks(Clause::Quota, |k| fill(k, slot, 33));
        breaks(Clause::Quota, |k| fill(k, slot, 40));
    }
    // Shared locks do not count, nor do other updates' exclusive ones.
    keeps(|k| {
        fill(k, HOLDER, 32);
        for item in [5, 6, 7, 8] {
            set_lock(k, item, [1 << HOLDER, 0, 0]);
            set_lock(k, item + 5, [0, LIVE_UPDATE as u64 + 1, 0]);
        }
    });
    // Two full ones hold all items.
    let halves = |k: &mut Keeper| {
        *txn(k, WAITER, AWAITED_ITEM) = 63;
        for item in 0..64 {
            set_lock(k, item, [0, 1 + item as u64 / 32, 0]);
        }
    };
    keeps(halves);
    breaks(Clause::Quota, |k| {
        halves(k);
        set_lock(k, 63, [0, 1, 0]);
    });
}

#[test]
fn who_is_full_awaits_no_exclusive_lock() {
    let waiting = |count: usize, lock: u64, item: u64| {
        move |k: &mut Keeper| {
            fill(k, WAITER, count);
            *txn(k, WAITER, AWAITED_LOCK) = lock;
            *txn(k, WAITER, AWAITED_ITEM) = item;
        }
    };
    // Item 1 is the holder's, item 2 is shared by the waiter, item 60 is free.
    for item in [1, 2, 60] {
        keeps(waiting(31, AWAITS_EXCLUSIVE, item));
        breaks(
            Clause::FullAwaitsExclusive,
            waiting(32, AWAITS_EXCLUSIVE, item),
        );
        breaks(Clause::Quota, waiting(33, AWAITS_EXCLUSIVE, item));
    }
    for item in [1, 60] {
        keeps(waiting(32, AWAITS_SHARED, item));
        breaks(Clause::Quota, waiting(33, AWAITS_SHARED, item));
    }
    // Another's wait is no harm.
    keeps(|k| {
        fill(k, HOLDER, 32);
        waiting(1, AWAITS_EXCLUSIVE, 20)(k);
    });
}

#[test]
fn counts_and_unused_pairs() {
    for count in [0, 33, 34, 65, 1 << 63, u64::MAX, (1 << 32) + 1] {
        breaks(Clause::Count, |k| k.versions[COUNT] = count);
    }
    for place in 3..pair(PLACES) {
        breaks(Clause::UnusedPairs, |k| k.versions[place] = 1);
        breaks(Clause::UnusedPairs, |k| {
            k.versions[63 * VERSION_ROW + place] = 1 << 63
        });
    }
    for place in 5..pair(PLACES) {
        breaks(Clause::UnusedPairs, |k| {
            k.versions[OLD_ITEM * VERSION_ROW + place] = 1
        });
    }
    for place in hidden(1)..VERSION_ROW {
        breaks(Clause::UnusedHidden, |k| k.versions[place] = 1);
    }
    // A pair of zeros beyond the newest is used, and nobody reads it.
    breaks(Clause::UnreadVersion, |k| {
        set_versions(k, 0, &[(3, 1), (0, 0)])
    });
}

#[test]
fn stamps() {
    let old = |pairs: &'static [(u64, u64)]| move |k: &mut Keeper| set_versions(k, OLD_ITEM, pairs);
    breaks(Clause::StampsFall, old(&[(3, 1), (3, 2)]));
    breaks(Clause::StampsFall, old(&[(2, 1), (3, 2)]));
    breaks(Clause::StampsFall, old(&[(2, 1), (10, 2), (3, 3)]));
    breaks(Clause::FirstStamp, old(&[(11, 1), (4, 2), (2, 3)]));
    breaks(Clause::FirstStamp, old(&[(u64::MAX, 1), (4, 2), (2, 3)]));
    breaks(Clause::LastStamp, old(&[(4, 1)]));
    breaks(Clause::LastStamp, old(&[(10, 1)]));
    breaks(Clause::UnreadVersion, old(&[(9, 1), (8, 2), (2, 3)]));
    breaks(Clause::UnreadVersion, old(&[(3, 1), (2, 3)]));
    breaks(Clause::UnreadVersion, old(&[(9, 1), (3, 2), (2, 3)]));
    keeps(old(&[(10, 1), (3, 2)]));
    keeps(old(&[(4, 1), (3, 2)]));
    keeps(old(&[(4, 1), (0, 2)]));
    keeps(old(&[(3, 1)]));
    // One more query reads what lies between.
    keeps(|k| {
        set_txn(k, FREE, [16, QUERY, 8, 0, 0, 0]);
        set_versions(k, OLD_ITEM, &[(9, 1), (8, 2), (2, 3)]);
    });
}

#[test]
fn every_clause_has_a_name_of_its_own() {
    for clause in Clause::ALL {
        assert_eq!(Clause::named(clause.name()), Some(clause));
    }
    assert_eq!(Clause::named("none"), None);
}
