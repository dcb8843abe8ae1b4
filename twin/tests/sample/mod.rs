//! Good tables with something for every clause, and what is asked of damaged
//! ones.
#![allow(dead_code)] // each file of clauses uses some of it

use twin::clauses::{broken, Clause};
use twin::sizes::*;
use twin::{Answer, Call, Keeper};

pub const LIVE_UPDATE: usize = 0;
pub const HOLDER: usize = 1;
pub const WAITER: usize = 2;
pub const OLD_QUERY: usize = 3;
pub const NEW_QUERY: usize = 4;
pub const FREE: usize = 5;

/// The row of item 9: the new query reads the newest, the old one the older.
pub const OLD_ITEM: usize = 9;

/// Good tables with something for every clause: an update that holds nothing,
/// one that holds item 1 exclusively and items 2 and 3 shared, one that awaits
/// item 1 shared and holds item 2 shared and item 4 exclusively, and queries at
/// stamps 3 and 10, the latter the clock; the older has read five times.
pub fn sample() -> Keeper {
    let mut keeper = Keeper::fresh();
    keeper.txns[LAST_NUMBER] = 50;
    keeper.txns[CLOCK] = 10;
    set_txn(&mut keeper, LIVE_UPDATE, [11, UPDATE, 0, 0, 0, 0]);
    set_txn(&mut keeper, HOLDER, [12, UPDATE, 0, 0, 0, 0]);
    set_txn(&mut keeper, WAITER, [50, UPDATE, 0, AWAITS_SHARED, 1, 1]);
    set_txn(&mut keeper, OLD_QUERY, [14, QUERY, 3, 0, 0, 0]);
    set_read(&mut keeper, OLD_QUERY, [5, 8]);
    set_txn(&mut keeper, NEW_QUERY, [15, QUERY, 10, 0, 0, 0]);
    set_lock(&mut keeper, 1, [0, HOLDER as u64 + 1, 77]);
    set_lock(&mut keeper, 2, [1 << HOLDER | 1 << WAITER, 0, 0]);
    set_lock(&mut keeper, 3, [1 << HOLDER, 0, 0]);
    set_lock(&mut keeper, 4, [0, WAITER as u64 + 1, 0]);
    set_versions(&mut keeper, OLD_ITEM, &[(9, 900), (2, 200)]);
    keeper
}

/// A row up to its rank, with nothing read.
pub fn set_txn(keeper: &mut Keeper, slot: usize, words: [u64; READS]) {
    let row = &mut keeper.txns[TXN_HEAD + slot * TXN_ROW..][..TXN_ROW];
    row[..READS].copy_from_slice(&words);
    row[READS..].fill(0);
}

/// The read count and the weight sum.
pub fn set_read(keeper: &mut Keeper, slot: usize, words: [u64; 2]) {
    *txn(keeper, slot, READS) = words[0];
    *txn(keeper, slot, WEIGHT) = words[1];
}

pub fn txn(keeper: &mut Keeper, slot: usize, place: usize) -> &mut u64 {
    &mut keeper.txns[TXN_HEAD + slot * TXN_ROW + place]
}

pub fn set_lock(keeper: &mut Keeper, item: usize, words: [u64; LOCK_ROW]) {
    keeper.locks[item * LOCK_ROW..][..LOCK_ROW].copy_from_slice(&words);
}

pub fn set_versions(keeper: &mut Keeper, item: usize, pairs: &[(u64, u64)]) {
    let row = &mut keeper.versions[item * VERSION_ROW..][..VERSION_ROW];
    row.fill(0);
    row[COUNT] = pairs.len() as u64;
    for (words, pair) in row[1..].chunks_mut(2).zip(pairs) {
        words[0] = pair.0;
        words[1] = pair.1;
    }
}

/// Only this clause is broken: every call answers 10 and changes nothing.
pub fn breaks(clause: Clause, damage: impl Fn(&mut Keeper)) {
    let mut keeper = sample();
    damage(&mut keeper);
    let list = broken(&keeper.txns, &keeper.locks, &keeper.versions);
    assert_eq!(list, [clause]);
    assert!(!keeper.is_good(), "{:?}", clause);
    let number = 11;
    let others = [Call::Abort { number: 99 }, Call::Read { number, item: 64 }];
    for call in Call::each(number, 0, 1).into_iter().chain(others) {
        let before = keeper.clone();
        let bad = Answer {
            code: 10,
            ..Answer::default()
        };
        assert_eq!(keeper.call(call), bad);
        assert_eq!(keeper, before);
    }
}

pub fn keeps(change: impl Fn(&mut Keeper)) {
    let mut keeper = sample();
    change(&mut keeper);
    let list = broken(&keeper.txns, &keeper.locks, &keeper.versions);
    assert_eq!(list, []);
    assert!(keeper.is_good());
}
