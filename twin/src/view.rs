//! Three tables of the right sizes, and what their words mean.

use crate::ids::{Item, Number, Slot, SlotSet, Stamp};
use crate::row::{Row, Starts};
use crate::sizes::*;

/// A lock that a transaction wants, holds or awaits.
#[derive(Clone, Copy, Debug, PartialEq, Eq)]
pub(crate) enum Lock {
    Shared,
    Exclusive,
}

impl Lock {
    /// The word of the awaited lock; none for nothing awaited.
    pub fn of_awaited(word: u64) -> Option<Lock> {
        match word {
            AWAITS_SHARED => Some(Lock::Shared),
            AWAITS_EXCLUSIVE => Some(Lock::Exclusive),
            _ => None,
        }
    }

    pub fn as_awaited(self) -> u64 {
        match self {
            Lock::Shared => AWAITS_SHARED,
            Lock::Exclusive => AWAITS_EXCLUSIVE,
        }
    }

    /// Two shared locks go together, nothing else does.
    pub fn conflicts(self, other: Lock) -> bool {
        self == Lock::Exclusive || other == Lock::Exclusive
    }
}

/// The slots that hold a lock row.
#[derive(Clone, Copy)]
pub(crate) struct Holders {
    pub shared: SlotSet,
    pub exclusive: SlotSet,
}

impl Holders {
    pub fn of(lock_row: &[u64]) -> Holders {
        Holders {
            shared: SlotSet::of_bits(lock_row[SHARED]),
            exclusive: SlotSet::of_holder(lock_row[EXCLUSIVE]),
        }
    }

    /// What this slot holds here.
    pub fn held_by(self, slot: Slot) -> Option<Lock> {
        if self.exclusive.contains(slot) {
            Some(Lock::Exclusive)
        } else if self.shared.contains(slot) {
            Some(Lock::Shared)
        } else {
            None
        }
    }

    /// The other holders that stand against this slot's lock.
    pub fn against(self, slot: Slot, lock: Lock) -> SlotSet {
        let holders = match lock {
            Lock::Shared => self.exclusive,
            Lock::Exclusive => self.exclusive.and(self.shared),
        };
        holders.without(slot)
    }
}

/// The three lent tables, of exact sizes.
pub(crate) struct View<'a> {
    pub txns: &'a mut [u64; TXN_WORDS],
    pub locks: &'a mut [u64; LOCK_WORDS],
    pub versions: &'a mut [u64; VERSION_WORDS],
}

impl<'a> View<'a> {
    pub fn new(
        txns: &'a mut [u64],
        locks: &'a mut [u64],
        versions: &'a mut [u64],
    ) -> Option<View<'a>> {
        Some(View {
            txns: txns.try_into().ok()?,
            locks: locks.try_into().ok()?,
            versions: versions.try_into().ok()?,
        })
    }

    /// The row of a slot.
    pub fn txn(&self, slot: Slot) -> &[u64] {
        let at = TXN_HEAD + slot.index() * TXN_ROW;
        &self.txns[at..at + TXN_ROW]
    }

    pub fn txn_mut(&mut self, slot: Slot) -> &mut [u64] {
        let at = TXN_HEAD + slot.index() * TXN_ROW;
        &mut self.txns[at..at + TXN_ROW]
    }

    /// The lock row of an item.
    pub fn lock(&self, item: Item) -> &[u64] {
        let at = item.index() * LOCK_ROW;
        &self.locks[at..at + LOCK_ROW]
    }

    pub fn lock_mut(&mut self, item: Item) -> &mut [u64] {
        let at = item.index() * LOCK_ROW;
        &mut self.locks[at..at + LOCK_ROW]
    }

    /// The version row of an item.
    pub fn row(&self, item: Item) -> &Row {
        let at = item.index() * VERSION_ROW;
        as_row(&self.versions[at..at + VERSION_ROW])
    }

    pub fn rows_mut(&mut self) -> impl Iterator<Item = &mut Row> {
        self.versions.chunks_exact_mut(VERSION_ROW).map(as_row_mut)
    }

    pub fn clock(&self) -> Stamp {
        Stamp::of(self.txns[CLOCK])
    }

    /// The slot of the live transaction with this number.
    pub fn find(&self, number: u64) -> Option<Slot> {
        let number = Number::new(number)?;
        Slot::all().find(|&slot| self.txn(slot)[NUMBER] == number.word())
    }

    pub fn free_slot(&self) -> Option<Slot> {
        Slot::all().find(|&slot| self.txn(slot)[NUMBER] == 0)
    }

    pub fn is_query(&self, slot: Slot) -> bool {
        self.txn(slot)[KIND] == QUERY
    }

    /// Whether this slot has an update that has not ended its writing.
    pub fn is_writing(&self, slot: Slot) -> bool {
        self.txn(slot)[NUMBER] != 0 && self.txn(slot)[KIND] == UPDATE
    }

    /// Whether this slot has an update past its writing.
    pub fn is_settled(&self, slot: Slot) -> bool {
        self.txn(slot)[KIND] == SETTLED
    }

    /// The query's start, or the stamp of one past its writing.
    pub fn start(&self, slot: Slot) -> Stamp {
        Stamp::of(self.txn(slot)[START])
    }

    /// How many items this slot holds exclusively.
    pub fn exclusives(&self, slot: Slot) -> usize {
        let is_held = |row: &&[u64]| row[EXCLUSIVE] == slot.as_holder();
        self.locks.chunks_exact(LOCK_ROW).filter(is_held).count()
    }

    /// The starts of all who read by them: queries, and those past their writing.
    pub fn starts(&self) -> Starts {
        let mut starts = Starts::none();
        for row in self.txns[TXN_HEAD..].chunks_exact(TXN_ROW) {
            if row[NUMBER] != 0 && (row[KIND] == QUERY || row[KIND] == SETTLED) {
                starts.insert(Stamp::of(row[START]));
            }
        }
        starts
    }
}

pub(crate) fn as_row(words: &[u64]) -> &Row {
    words.try_into().expect("rows are cut in their exact size")
}

pub(crate) fn as_row_mut(words: &mut [u64]) -> &mut Row {
    words.try_into().expect("rows are cut in their exact size")
}
