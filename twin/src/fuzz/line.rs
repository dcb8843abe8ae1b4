//! The lines of waiters in a scene, whom a wish has against it, and which circle
//! a wait would close; and tables in which a slot steps into a line or out of it.

use super::scene::{Held, Scene, Txn};
use crate::sizes::*;

impl Scene<'_> {
    /// Those who await an item, in the order of their ranks.
    pub fn line(&self, item: u64) -> Vec<Txn> {
        let awaits = |txn: &&Txn| matches!(txn.awaits, Some((_, awaited)) if awaited == item);
        let mut line: Vec<Txn> = self.live().iter().filter(awaits).copied().collect();
        line.sort_by_key(|txn| txn.rank);
        line
    }

    /// Whether a transaction has no lock that is enough for its wish.
    pub fn needs(&self, txn: &Txn, is_write: bool, item: u64) -> bool {
        match self.held(txn, item) {
            Held::Nothing => true,
            Held::Shared => is_write,
            Held::Exclusive => false,
        }
    }

    /// The rank that a wish has, or would have as a new wait.
    pub fn place(&self, txn: &Txn, item: u64) -> u64 {
        if txn.awaits.is_some() {
            return txn.rank;
        }
        let shares = |txn: &Txn| self.held(txn, item) == Held::Shared;
        let is_before = |other: &Txn| {
            let in_line = matches!(other.awaits, Some((_, awaited)) if awaited == item);
            in_line && (!shares(txn) || shares(other))
        };
        1 + self.count(is_before) as u64
    }

    /// The other holders that stand against a transaction's wish.
    pub fn holders_against(&self, txn: &Txn, is_write: bool, item: u64) -> u64 {
        let (all, exclusive) = self.holders(item);
        let conflicting = if is_write { all } else { exclusive };
        conflicting & !txn.bit()
    }

    /// The earlier waiters that do.
    pub fn waiters_against(&self, txn: &Txn, is_write: bool, item: u64) -> u64 {
        let place = self.place(txn, item);
        let stands_against = |other: &&Txn| match other.awaits {
            Some((writes, awaited)) => {
                awaited == item && other.rank < place && (is_write || writes)
            }
            None => false,
        };
        let earlier = self.live().iter().filter(stands_against);
        earlier.map(Txn::bit).sum()
    }

    /// The others that stand against a transaction's wish.
    pub fn against(&self, txn: &Txn, is_write: bool, item: u64) -> u64 {
        if !self.needs(txn, is_write, item) {
            return 0;
        }
        let holders = self.holders_against(txn, is_write, item);
        holders | self.waiters_against(txn, is_write, item)
    }

    pub fn waits_for(&self, txn: &Txn) -> u64 {
        match txn.awaits {
            Some((is_write, item)) => self.against(txn, is_write, item),
            None => 0,
        }
    }

    /// Whether a waiter would have a new wait ahead of it that stands against it.
    pub fn would_be_passed(&self, waiter: &Txn, txn: &Txn, is_write: bool, item: u64) -> bool {
        match waiter.awaits {
            Some((writes, awaited)) => {
                let is_behind = waiter.rank >= self.place(txn, item);
                txn.awaits.is_none() && awaited == item && is_behind && (writes || is_write)
            }
            None => false,
        }
    }

    /// The number of transactions on the shortest circle that would close if
    /// this one waited for this; none if none would.
    pub fn circle(&self, txn: &Txn, is_write: bool, item: u64) -> Option<usize> {
        let against = self.against(txn, is_write, item);
        self.walk_back(txn, against, |other| {
            let passed = self.would_be_passed(other, txn, is_write, item);
            self.waits_for(other) | if passed { txn.bit() } else { 0 }
        })
    }

    /// The same where nobody behind the new wait waits for it.
    pub fn circle_before(&self, txn: &Txn, is_write: bool, item: u64) -> Option<usize> {
        let against = self.against(txn, is_write, item);
        self.walk_back(txn, against, |other| self.waits_for(other))
    }

    /// The same where nobody waits for a waiter that is only ahead of it.
    pub fn circle_of_holders(&self, txn: &Txn, is_write: bool, item: u64) -> Option<usize> {
        let against = self.holders_against(txn, is_write, item);
        self.walk_back(txn, against, |other| match other.awaits {
            Some((is_write, item)) => self.holders_against(other, is_write, item),
            None => 0,
        })
    }

    /// How many steps lead from these back to a transaction, counting itself.
    fn walk_back(&self, txn: &Txn, first: u64, next: impl Fn(&Txn) -> u64) -> Option<usize> {
        let (mut reached, mut newest) = (first, first);
        let mut length = 2;
        while newest != 0 {
            let members = self.live().iter().filter(|txn| newest & txn.bit() != 0);
            let further = members.fold(0, |slots, txn| slots | next(txn));
            if further & txn.bit() != 0 {
                return Some(length);
            }
            newest = further & !reached;
            reached |= further;
            length += 1;
        }
        None
    }
}

/// The row of a slot.
pub fn row_of(txns: &mut [u64], slot: usize) -> &mut [u64] {
    &mut txns[TXN_HEAD + slot * TXN_ROW..][..TXN_ROW]
}

/// Lets a slot, which awaits nothing, await a lock: at its place in the line.
pub fn step_in(txns: &mut [u64], locks: &[u64], slot: usize, lock: u64, item: usize) {
    let shared = locks[item * LOCK_ROW + SHARED];
    let shares = |slot: usize| shared >> slot & 1 != 0;
    let in_line = |row: &[u64]| row[AWAITED_LOCK] != 0 && row[AWAITED_ITEM] == item as u64;
    let mut place = 1;
    for other in 0..SLOTS {
        let is_before = !shares(slot) || shares(other);
        place += u64::from(in_line(row_of(txns, other)) && is_before);
    }
    for other in 0..SLOTS {
        let row = row_of(txns, other);
        if in_line(row) && row[RANK] >= place {
            row[RANK] += 1;
        }
    }
    let row = row_of(txns, slot);
    row[AWAITED_LOCK..=RANK].copy_from_slice(&[lock, item as u64, place]);
}

/// Lets a slot await nothing.
pub fn step_out(txns: &mut [u64], slot: usize) {
    let row = row_of(txns, slot);
    let (lock, item, rank) = (row[AWAITED_LOCK], row[AWAITED_ITEM], row[RANK]);
    row[AWAITED_LOCK..=RANK].fill(0);
    for other in 0..SLOTS {
        let row = row_of(txns, other);
        let in_line = row[AWAITED_LOCK] != 0 && row[AWAITED_ITEM] == item;
        if lock != 0 && in_line && row[RANK] > rank {
            row[RANK] -= 1;
        }
    }
}
