//! The eight calls. Each works on any three slices: tables that are not good are
//! answered 10 and left alone.

use crate::answer::{code, Answer};
use crate::good;
use crate::ids::{Item, Slot, SlotSet, Stamp};
use crate::row;
use crate::sizes::*;
use crate::view::{as_row_mut, Holders, Lock, View};

/// Fills fresh tables: zeros, and in each version row the pair (0, 0).
pub fn fresh(
    txns: &mut [u64; TXN_WORDS],
    locks: &mut [u64; LOCK_WORDS],
    versions: &mut [u64; VERSION_WORDS],
) {
    txns.fill(0);
    locks.fill(0);
    versions.fill(0);
    for row in versions.chunks_exact_mut(VERSION_ROW) {
        row[COUNT] = 1;
    }
}

/// Begins an update.
pub fn begin_update(txns: &mut [u64], locks: &mut [u64], versions: &mut [u64]) -> Answer {
    on_good(txns, locks, versions, |mut view| view.begin(UPDATE))
}

/// Begins a query; what it reads is fixed now.
pub fn begin_query(txns: &mut [u64], locks: &mut [u64], versions: &mut [u64]) -> Answer {
    on_good(txns, locks, versions, |mut view| view.begin(QUERY))
}

/// Begins a relaxed query; what it reads is as new as its earlier reads allow.
pub fn begin_relaxed(txns: &mut [u64], locks: &mut [u64], versions: &mut [u64]) -> Answer {
    on_good(txns, locks, versions, |mut view| view.begin(RELAXED))
}

/// Reads an item.
pub fn read(
    txns: &mut [u64],
    locks: &mut [u64],
    versions: &mut [u64],
    number: u64,
    item: u64,
) -> Answer {
    on_good(txns, locks, versions, |mut view| {
        view.access(number, item, Access::Read)
    })
}

/// Writes an item.
pub fn write(
    txns: &mut [u64],
    locks: &mut [u64],
    versions: &mut [u64],
    number: u64,
    item: u64,
    value: u64,
) -> Answer {
    on_good(txns, locks, versions, |mut view| {
        view.access(number, item, Access::Write(value))
    })
}

/// Commits an update, past its writing or not, or ends a query.
pub fn commit(txns: &mut [u64], locks: &mut [u64], versions: &mut [u64], number: u64) -> Answer {
    on_good(txns, locks, versions, |mut view| view.commit(number))
}

/// Aborts an update, or ends a query.
pub fn abort(txns: &mut [u64], locks: &mut [u64], versions: &mut [u64], number: u64) -> Answer {
    on_good(txns, locks, versions, |mut view| view.abort(number))
}

/// Ends an update's writing.
pub fn settle(txns: &mut [u64], locks: &mut [u64], versions: &mut [u64], number: u64) -> Answer {
    on_good(txns, locks, versions, |mut view| view.settle(number))
}

fn on_good<F>(txns: &mut [u64], locks: &mut [u64], versions: &mut [u64], call: F) -> Answer
where
    F: FnOnce(View) -> Answer,
{
    match View::new(txns, locks, versions) {
        Some(view) if good::holds(view.txns, view.locks, view.versions) => call(view),
        _ => Answer::bare(code::BAD_TABLES),
    }
}

/// What a read or a write is after.
#[derive(Clone, Copy)]
pub(crate) enum Access {
    Read,
    Write(u64),
}

impl Access {
    pub(crate) fn wants(self) -> Lock {
        match self {
            Access::Read => Lock::Shared,
            Access::Write(_) => Lock::Exclusive,
        }
    }
}

/// The calls on tables known to be good.
impl View<'_> {
    pub(crate) fn begin(&mut self, kind: u64) -> Answer {
        let slot = match self.free_slot() {
            Some(slot) => slot,
            None => return Answer::bare(code::NO_SLOT),
        };
        if self.txns[LAST_NUMBER] >= LAST {
            return Answer::bare(code::NUMBERS_SPENT);
        }
        if kind == RELAXED && self.has_any(SETTLED) {
            return Answer::bare(code::NOT_BESIDE);
        }
        self.take_slot(slot, kind)
    }

    /// A free slot gets the next number.
    pub(crate) fn take_slot(&mut self, slot: Slot, kind: u64) -> Answer {
        self.txns[LAST_NUMBER] += 1;
        let number = self.txns[LAST_NUMBER];
        let start = if kind == QUERY {
            self.clock().word()
        } else {
            0
        };
        let row = self.txn_mut(slot);
        row[NUMBER] = number;
        row[KIND] = kind;
        row[START] = start;
        Answer::numbered(number)
    }

    pub(crate) fn access(&mut self, number: u64, item: u64, access: Access) -> Answer {
        let slot = match self.find(number) {
            Some(slot) => slot,
            None => return Answer::bare(code::UNKNOWN_TRANSACTION),
        };
        let item = match Item::new(item) {
            Some(item) => item,
            None => return Answer::bare(code::UNKNOWN_ITEM),
        };
        match (self.txn(slot)[KIND], access) {
            (UPDATE, _) => self.access_by_update(slot, item, access),
            (RELAXED, Access::Read) => self.read_relaxed(slot, item),
            (_, Access::Read) => self.read_by_start(slot, item),
            (QUERY | RELAXED, Access::Write(_)) => Answer::bare(code::QUERY_MAY_NOT_WRITE),
            (_, Access::Write(value)) => self.write_by_settled(slot, item, value),
        }
    }

    fn access_by_update(&mut self, slot: Slot, item: Item, access: Access) -> Answer {
        let lock = access.wants();
        match self.awaited(slot) {
            Some(awaited) if awaited != (lock, item) => return Answer::bare(code::STILL_WAITING),
            _ => {}
        }
        if lock == Lock::Exclusive && self.is_further(slot, item) && self.exclusives(slot) >= QUOTA
        {
            return Answer::bare(code::QUOTA_SPENT);
        }
        self.ask(slot, item, access)
    }

    /// Whether a write of this item would add to what the slot holds
    /// exclusively; what it holds shared does.
    pub(crate) fn is_further(&self, slot: Slot, item: Item) -> bool {
        Holders::of(self.lock(item)).held_by(slot) != Some(Lock::Exclusive)
    }

    /// An update that may ask for this asks; the locks and the line decide. A
    /// call that needs no further lock asks neither.
    pub(crate) fn ask(&mut self, slot: Slot, item: Item, access: Access) -> Answer {
        let lock = access.wants();
        if self.needs(slot, item, lock) && !self.against(slot, lock, item).is_empty() {
            self.conflict(slot, item, lock)
        } else {
            self.grant(slot, item, access)
        }
    }

    /// Whether what the slot holds is not enough for this.
    pub(crate) fn needs(&self, slot: Slot, item: Item, lock: Lock) -> bool {
        match Holders::of(self.lock(item)).held_by(slot) {
            Some(Lock::Exclusive) => false,
            Some(Lock::Shared) => lock == Lock::Exclusive,
            None => true,
        }
    }

    /// Nobody stands against it: the caller gets what it asks for, and leaves
    /// the line if it stood there.
    pub(crate) fn grant(&mut self, slot: Slot, item: Item, access: Access) -> Answer {
        let holders = Holders::of(self.lock(item));
        self.step_out(slot);
        if let Access::Write(_) = access {
            self.join_readers(slot, item);
        }
        // What it holds exclusively it reads, or overwrites, as its own.
        if holders.held_by(slot) != Some(Lock::Exclusive) {
            self.join_followers(slot, item);
        }
        match (access, holders.held_by(slot)) {
            (Access::Read, Some(Lock::Exclusive)) => Answer::found(self.lock(item)[WORKING], 0),
            (Access::Read, Some(Lock::Shared)) => Answer::found(row::newest(self.row(item)), 1),
            (Access::Read, None) => {
                self.lock_mut(item)[SHARED] = holders.shared.with(slot).bits();
                Answer::found(row::newest(self.row(item)), 1)
            }
            (Access::Write(value), Some(Lock::Exclusive)) => {
                self.lock_mut(item)[WORKING] = value;
                Answer::granted()
            }
            (Access::Write(value), Some(Lock::Shared) | None) => {
                let row = self.lock_mut(item);
                row[SHARED] = 0;
                row[EXCLUSIVE] = slot.as_holder();
                row[WORKING] = value;
                Answer::granted()
            }
        }
    }

    /// The caller steps into the line, unless it stands there already. If a
    /// walk from it then comes back to it, a circle would have closed, and it
    /// stands there no more.
    fn conflict(&mut self, slot: Slot, item: Item, lock: Lock) -> Answer {
        let is_new = self.awaited(slot).is_none();
        if is_new {
            self.step_in(slot, lock, item);
        }
        if self.walk_reaches(self.waits_for(slot), slot) {
            if is_new {
                self.step_out(slot);
            }
            return Answer::bare(code::DEADLOCK);
        }
        if lock == Lock::Exclusive {
            self.join_readers(slot, item);
        }
        Answer::bare(code::WAIT)
    }

    pub(crate) fn commit(&mut self, number: u64) -> Answer {
        let slot = match self.find(number) {
            Some(slot) => slot,
            None => return Answer::bare(code::UNKNOWN_TRANSACTION),
        };
        if self.awaited(slot).is_some() {
            return Answer::bare(code::STILL_WAITING);
        }
        if self.is_query(slot) || self.is_relaxed(slot) {
            return self.end_query(slot);
        }
        if self.is_settled(slot) {
            // The stamp was taken at the settle, so there is none to take now.
            return self.put(slot, self.start(slot));
        }
        if self.exclusives(slot) == 0 {
            return self.end_unwritten(slot);
        }
        let stamp = match self.clock().next() {
            Some(stamp) => stamp,
            None => return Answer::bare(code::CLOCK_SPENT),
        };
        self.txns[CLOCK] = stamp.word();
        self.put(slot, stamp)
    }

    /// An update commits that wrote nothing (request E7). There is nothing to stamp,
    /// so the clock stays, and a spent one is no hindrance. Nor was it a reader that
    /// a version is kept for, so no row of versions changes.
    fn end_unwritten(&mut self, slot: Slot) -> Answer {
        self.let_go(slot);
        self.txn_mut(slot).fill(0);
        Answer::numbered(self.clock().word())
    }

    /// All locks of a slot go, and its working values.
    fn let_go(&mut self, slot: Slot) {
        for lock in self.locks.chunks_exact_mut(LOCK_ROW) {
            release(lock, slot);
        }
    }

    /// An update ends, and its versions get this stamp. Past its writing it was a
    /// reader of all the other rows too.
    fn put(&mut self, slot: Slot, stamp: Stamp) -> Answer {
        let was_reader = self.is_settled(slot);
        let later_for = SlotSet::of_bits(self.txn(slot)[LATER_FOR]);
        self.txn_mut(slot).fill(0);
        let starts = self.starts();
        let rows = self.versions.chunks_exact_mut(VERSION_ROW).map(as_row_mut);
        for (lock, versions) in self.locks.chunks_exact_mut(LOCK_ROW).zip(rows) {
            if lock[EXCLUSIVE] == slot.as_holder() {
                row::push(versions, stamp, lock[WORKING], later_for, &starts);
            } else if was_reader {
                row::forget(versions, stamp, &starts);
            }
            release(lock, slot);
        }
        Answer::numbered(stamp.word())
    }

    pub(crate) fn abort(&mut self, number: u64) -> Answer {
        let slot = match self.find(number) {
            Some(slot) => slot,
            None => return Answer::bare(code::UNKNOWN_TRANSACTION),
        };
        if self.is_query(slot) || self.is_relaxed(slot) {
            return self.end_query(slot);
        }
        self.step_out(slot);
        self.let_go(slot);
        if self.is_writing(slot) {
            self.txn_mut(slot).fill(0);
        } else {
            self.end_reader(slot);
        }
        Answer::granted()
    }

    /// A query ends, one way or the other, and tells how old what it read was.
    fn end_query(&mut self, slot: Slot) -> Answer {
        let (reads, weight) = (self.txn(slot)[READS], self.txn(slot)[WEIGHT]);
        match self.is_relaxed(slot) {
            true => self.end_relaxed(slot),
            false => self.end_reader(slot),
        }
        Answer::found(weight, reads)
    }

    /// The row of one that read by its start goes, and so does every version that
    /// it alone read, of whatever item.
    pub(crate) fn end_reader(&mut self, slot: Slot) {
        let ended = self.start(slot);
        self.txn_mut(slot).fill(0);
        let starts = self.starts();
        for row in self.rows_mut() {
            row::forget(row, ended, &starts);
        }
    }
}

/// Takes a slot's locks off one lock row, and its working value.
pub(crate) fn release(lock: &mut [u64], slot: Slot) {
    if lock[EXCLUSIVE] == slot.as_holder() {
        lock[EXCLUSIVE] = 0;
        lock[WORKING] = 0;
    }
    lock[SHARED] = SlotSet::of_bits(lock[SHARED]).without(slot).bits();
}
