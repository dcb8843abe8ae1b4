//! The clauses on those past their writing broken alone, and what barely keeps
//! them.

mod sample;

use sample::*;
use twin::clauses::Clause;
use twin::sizes::*;
use twin::Keeper;

/// A slot in which one past its writing stands.
const PAST: usize = 5;
const OTHER: usize = 6;

/// One past its writing under stamp 5, which holds item 20, of two versions.
fn past(k: &mut Keeper) {
    set_txn(k, PAST, [21, SETTLED, 5, 0, 0, 0]);
    set_lock(k, 20, [0, PAST as u64 + 1, 8]);
    set_versions(k, 20, &[(4, 40), (3, 30)]);
}

/// Another one under stamp 7, which holds item 21.
fn two(k: &mut Keeper) {
    past(k);
    set_txn(k, OTHER, [22, SETTLED, 7, 0, 0, 0]);
    set_lock(k, 21, [0, OTHER as u64 + 1, 0]);
}

/// The clause is broken alone if this is done to tables with one past its writing.
fn past_breaks(clause: Clause, damage: impl Fn(&mut Keeper)) {
    breaks(clause, |k| {
        past(k);
        damage(k);
    });
}

fn past_keeps(change: impl Fn(&mut Keeper)) {
    keeps(|k| {
        past(k);
        change(k);
    });
}

#[test]
fn the_samples_are_good() {
    keeps(past);
    keeps(two);
    // One that holds nothing.
    keeps(|k| set_txn(k, PAST, [21, SETTLED, 5, 0, 0, 0]));
    // As many as there are slots.
    keeps(|k| {
        *k = Keeper::fresh();
        k.txns[LAST_NUMBER] = 50;
        k.txns[CLOCK] = 40;
        for slot in 0..SLOTS {
            let number = 1 + slot as u64;
            set_txn(k, slot, [number, SETTLED, 41 - number, 0, 0, 0]);
            set_lock(k, slot, [0, number, number]);
        }
    });
}

#[test]
fn kinds() {
    for kind in [4, 5, 16, 1 << 32, (1 << 32) + 2, u64::MAX] {
        past_breaks(Clause::Kind, |k| {
            set_lock(k, 20, [0, 0, 0]);
            set_versions(k, 20, &[(0, 0)]);
            *txn(k, PAST, KIND) = kind;
        });
    }
    // As an update it may have no start, as a query no lock.
    past_breaks(Clause::UpdateStart, |k| {
        *txn(k, PAST, KIND) = UPDATE;
    });
    past_breaks(Clause::ExclusiveHolder, |k| *txn(k, PAST, KIND) = QUERY);
}

#[test]
fn it_awaits_nothing() {
    for lock in [AWAITS_SHARED, AWAITS_EXCLUSIVE] {
        for item in [0, 1, 63] {
            let rank = if item == 1 { 2 } else { 1 };
            past_breaks(Clause::SettledAwaits, |k| {
                set_txn(k, PAST, [21, SETTLED, 5, lock, item, rank]);
            });
        }
    }
    past_breaks(Clause::NothingAwaited, |k| *txn(k, PAST, AWAITED_ITEM) = 1);
    past_breaks(Clause::UpdateReads, |k| *txn(k, PAST, READS) = 1);
    past_breaks(Clause::UpdateWeight, |k| *txn(k, PAST, WEIGHT) = LAST);
    past_breaks(Clause::RankUnawaited, |k| *txn(k, PAST, RANK) = 1);
}

#[test]
fn it_holds_nothing_shared() {
    for item in [0, 3, 63] {
        past_breaks(Clause::SettledShares, |k| {
            k.locks[item * LOCK_ROW + SHARED] |= 1 << PAST;
        });
    }
    past_breaks(Clause::BothHolders, |k| {
        k.locks[20 * LOCK_ROW + SHARED] |= 1 << HOLDER;
    });
}

#[test]
fn its_stamp_is_one_to_the_clock() {
    let bare = |stamp: u64| {
        move |k: &mut Keeper| {
            set_txn(k, PAST, [21, SETTLED, stamp, 0, 0, 0]);
            // The only row with a stamp, which would be too late for some.
            set_versions(k, OLD_ITEM, &[(0, 0)]);
        }
    };
    breaks(Clause::SettledStampZero, bare(0));
    for stamp in [1, 2, 9, 10] {
        keeps(bare(stamp));
    }
    for stamp in [11, LAST, LAST + 1, u64::MAX] {
        breaks(Clause::SettledStampAbove, bare(stamp));
    }
    keeps(|k| {
        k.txns[CLOCK] = LAST;
        bare(LAST)(k);
    });
}

#[test]
fn no_other_has_its_stamp() {
    breaks(Clause::SettledStampTwice, |k| {
        two(k);
        *txn(k, PAST, START) = 7;
    });
    for slot in [15, 16, 31] {
        past_breaks(Clause::SettledStampTwice, |k| {
            set_txn(k, slot, [22, SETTLED, 5, 0, 0, 0]);
        });
    }
    // A query may begin right at it, as many as like.
    past_keeps(|k| {
        *txn(k, NEW_QUERY, START) = 5;
        set_versions(k, OLD_ITEM, &[(9, 900), (2, 200)]);
    });
    past_keeps(|k| *txn(k, PAST, START) = 10);
}

#[test]
fn every_version_of_what_it_holds_is_below() {
    // A version with its very stamp, and one above it.
    past_breaks(Clause::SettledVersion, |k| {
        set_versions(k, 20, &[(5, 50), (3, 30)])
    });
    past_breaks(Clause::SettledVersion, |k| {
        set_versions(k, 20, &[(6, 50), (4, 40), (3, 30)])
    });
    past_breaks(Clause::SettledVersion, |k| {
        *txn(k, PAST, START) = 4;
    });
    // What it does not hold may be newer, and what an update holds.
    past_keeps(|k| {
        set_lock(k, 20, [0, 0, 0]);
        set_versions(k, 20, &[(6, 50), (4, 40), (3, 30)]);
    });
    past_keeps(|k| {
        set_lock(k, 20, [0, HOLDER as u64 + 1, 0]);
        set_versions(k, 20, &[(10, 50), (4, 40), (3, 30)]);
    });
    // Each of two by its own stamp.
    keeps(|k| {
        two(k);
        set_versions(k, 21, &[(6, 60), (4, 40), (3, 30)]);
    });
    breaks(Clause::SettledVersion, |k| {
        two(k);
        set_versions(k, 21, &[(7, 70), (4, 40), (3, 30)]);
    });
}

#[test]
fn it_is_a_reader_of_versions() {
    // It alone reads the version at stamp 4.
    let reads = |k: &mut Keeper| {
        past(k);
        set_versions(k, 30, &[(9, 1), (4, 2), (1, 3)]);
    };
    keeps(reads);
    breaks(Clause::UnreadVersion, |k| {
        reads(k);
        set_txn(k, PAST, [0; READS]);
        set_lock(k, 20, [0; LOCK_ROW]);
        set_versions(k, 20, &[(3, 30)]);
    });
    breaks(Clause::UnreadVersion, |k| {
        reads(k);
        *txn(k, PAST, START) = 9;
    });
    // Every row has a version for it.
    let early = |k: &mut Keeper| {
        set_txn(k, PAST, [21, SETTLED, 2, 0, 0, 0]);
        set_versions(k, 30, &[(2, 1)]);
    };
    keeps(early);
    breaks(Clause::LastStamp, |k| {
        early(k);
        *txn(k, PAST, START) = 1;
        set_versions(k, OLD_ITEM, &[(1, 900)]);
    });
}

#[test]
fn the_quota_counts_for_it() {
    let fill = |k: &mut Keeper, count: usize| {
        past(k);
        for item in 20..20 + count {
            set_lock(k, item, [0, PAST as u64 + 1, 1]);
        }
    };
    keeps(|k| fill(k, 31));
    keeps(|k| fill(k, 32));
    breaks(Clause::Quota, |k| fill(k, 33));
}
