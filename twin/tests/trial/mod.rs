//! What trials are made with: a keeper whose calls are watched, and answers by name.
#![allow(dead_code)] // each file of trials uses some of it

use twin::sizes::*;
use twin::{Call, Keeper};

pub const GRANTED: [u64; 4] = [0, 0, 0, 0];
pub const WAIT: [u64; 4] = [1, 0, 0, 0];
pub const DEADLOCK: [u64; 4] = [2, 0, 0, 0];
pub const UNKNOWN_TRANSACTION: [u64; 4] = [3, 0, 0, 0];
pub const UNKNOWN_ITEM: [u64; 4] = [4, 0, 0, 0];
pub const QUERY_MAY_NOT_WRITE: [u64; 4] = [5, 0, 0, 0];
pub const STILL_WAITING: [u64; 4] = [6, 0, 0, 0];
pub const NO_SLOT: [u64; 4] = [7, 0, 0, 0];
pub const NUMBERS_SPENT: [u64; 4] = [8, 0, 0, 0];
pub const CLOCK_SPENT: [u64; 4] = [9, 0, 0, 0];
pub const BAD_TABLES: [u64; 4] = [10, 0, 0, 0];
pub const QUOTA_SPENT: [u64; 4] = [11, 0, 0, 0];
pub const PAST_WRITING: [u64; 4] = [12, 0, 0, 0];

/// The newest value, 0 because nobody committed another.
pub const FOUND_0: [u64; 4] = [0, 0, 0, 1];

pub struct Trial(pub Keeper);

impl Trial {
    pub fn fresh() -> Trial {
        Trial(Keeper::fresh())
    }

    /// Fresh tables on which so many updates have begun, from number 1.
    pub fn with_updates(count: u64) -> Trial {
        let mut trial = Trial::fresh();
        for number in 1..=count {
            assert_eq!(trial.call(Call::Update), [0, 0, number, 0]);
        }
        trial
    }

    /// The same, and the first of them writes so many items, from item 0, each
    /// with its own number.
    pub fn with(updates: u64, items: u64) -> Trial {
        let mut trial = Trial::with_updates(updates);
        for item in 0..items {
            assert_eq!(trial.write(1, item, item), GRANTED);
        }
        trial
    }

    /// Makes a call; any code but 0 and 1 leaves every word, all leave good
    /// tables good.
    pub fn call(&mut self, call: Call) -> [u64; 4] {
        let before = self.0.clone();
        let answer = self.0.call(call);
        if answer.code > 1 {
            assert_eq!(self.0, before, "{:?} changed the tables", call);
        }
        assert_eq!(self.0.is_good(), before.is_good());
        answer.words()
    }

    pub fn read(&mut self, number: u64, item: u64) -> [u64; 4] {
        self.call(Call::Read { number, item })
    }

    pub fn write(&mut self, number: u64, item: u64, value: u64) -> [u64; 4] {
        self.call(Call::Write {
            number,
            item,
            value,
        })
    }

    pub fn commit(&mut self, number: u64) -> [u64; 4] {
        self.call(Call::Commit { number })
    }

    pub fn abort(&mut self, number: u64) -> [u64; 4] {
        self.call(Call::Abort { number })
    }

    pub fn settle(&mut self, number: u64) -> [u64; 4] {
        self.call(Call::Settle { number })
    }

    /// A read that waits, and no word tells of it.
    pub fn waits_silently(&mut self, number: u64, item: u64) {
        let before = self.0.clone();
        assert_eq!(self.read(number, item), WAIT);
        assert_eq!(self.0, before, "the wait of {} is noted", number);
    }

    /// The ten words of a slot.
    pub fn row(&self, slot: usize) -> &[u64] {
        &self.0.txns[TXN_HEAD + slot * TXN_ROW..][..TXN_ROW]
    }

    /// The three words of an item's locks.
    pub fn lock(&self, item: u64) -> &[u64] {
        &self.0.locks[item as usize * LOCK_ROW..][..LOCK_ROW]
    }

    /// An item's versions, newest first.
    pub fn versions(&self, item: u64) -> Vec<(u64, u64)> {
        let row = &self.0.versions[item as usize * VERSION_ROW..][..VERSION_ROW];
        let used = row[1..].chunks(2).take(row[COUNT] as usize);
        used.map(|pair| (pair[0], pair[1])).collect()
    }

    pub fn clock(&self) -> u64 {
        self.0.txns[CLOCK]
    }

    /// The ranks of the first so many slots.
    pub fn ranks(&self, slots: u64) -> Vec<u64> {
        let rows = self.0.txns[TXN_HEAD..].chunks(TXN_ROW);
        rows.take(slots as usize).map(|row| row[RANK]).collect()
    }

    pub fn count(&self, item: usize) -> u64 {
        self.0.versions[item * VERSION_ROW]
    }
}
