//! Write, then only check (request E6): an update ends its writing, and from then
//! on reads by its stamp.

use crate::answer::{code, Answer};
use crate::ids::{Item, Slot, SlotSet};
use crate::row;
use crate::sizes::*;
use crate::view::View;

impl View<'_> {
    /// The update takes its stamp now, not at its commit, and lets go of what it
    /// only read.
    pub(crate) fn settle(&mut self, number: u64) -> Answer {
        let slot = match self.find(number) {
            Some(slot) => slot,
            None => return Answer::bare(code::UNKNOWN_TRANSACTION),
        };
        if self.is_query(slot) || self.is_relaxed(slot) {
            return Answer::bare(code::QUERY_MAY_NOT_WRITE);
        }
        if self.is_settled(slot) {
            return Answer::bare(code::PAST_WRITING);
        }
        if self.awaited(slot).is_some() {
            return Answer::bare(code::STILL_WAITING);
        }
        let stamp = match self.clock().next() {
            Some(stamp) => stamp,
            None => return Answer::bare(code::CLOCK_SPENT),
        };
        if self.has_any(RELAXED) {
            return Answer::bare(code::NOT_BESIDE);
        }
        self.txns[CLOCK] = stamp.word();
        let row = self.txn_mut(slot);
        row[KIND] = SETTLED;
        row[START] = stamp.word();
        for lock in self.locks.chunks_exact_mut(LOCK_ROW) {
            lock[SHARED] = SlotSet::of_bits(lock[SHARED]).without(slot).bits();
        }
        Answer::numbered(stamp.word())
    }

    /// A read by a query, or by one past its writing, which sees its own working
    /// values. It waits for who will put a version there that it would have to
    /// read. That wait is noted nowhere: no word changes, and nobody waits for it.
    /// A query counts what it is granted (request E8).
    pub(crate) fn read_by_start(&mut self, slot: Slot, item: Item) -> Answer {
        match self.exclusive_holder(item) {
            Some(holder) if holder == slot => Answer::found(self.lock(item)[WORKING], 0),
            Some(holder) if self.will_put_one_for(holder, slot) => Answer::bare(code::WAIT),
            _ => {
                let (value, place) = row::read_at(self.row(item), self.start(slot));
                if self.is_query(slot) {
                    self.weigh(slot, place);
                }
                Answer::found(value, place)
            }
        }
    }

    /// One read more, of the version at this place: both sums stop at the last number.
    pub(crate) fn weigh(&mut self, slot: Slot, place: u64) {
        let row = self.txn_mut(slot);
        row[READS] = LAST.min(row[READS] + 1);
        row[WEIGHT] = LAST.min(row[WEIGHT] + place);
    }

    pub(crate) fn exclusive_holder(&self, item: Item) -> Option<Slot> {
        let holder = self.lock(item)[EXCLUSIVE];
        Slot::all().find(|slot| slot.as_holder() == holder)
    }

    /// Whether the versions of a holder will have a stamp that a reader reads by.
    /// Of an update that is still writing the stamp will be above every start.
    fn will_put_one_for(&self, holder: Slot, reader: Slot) -> bool {
        self.is_settled(holder) && self.start(holder) <= self.start(reader)
    }

    /// Past its writing only what it holds exclusively can be written again.
    pub(crate) fn write_by_settled(&mut self, slot: Slot, item: Item, value: u64) -> Answer {
        if self.exclusive_holder(item) != Some(slot) {
            return Answer::bare(code::PAST_WRITING);
        }
        self.lock_mut(item)[WORKING] = value;
        Answer::granted()
    }
}
