//! Relaxed queries (request E11): each has a set of later updates, and reads the newest
//! version whose creator is not in it.
//!
//! The sets are kept from the other side. An update's row has the queries that it is
//! later for, and so has each version, as its creator had them at the commit. A committed
//! update joins no more, so that what stands at a version stays, but for queries that end.

use crate::answer::Answer;
use crate::ids::{Item, Slot, SlotSet};
use crate::row;
use crate::sizes::*;
use crate::view::{Holders, View};

impl View<'_> {
    pub fn is_relaxed(&self, slot: Slot) -> bool {
        self.txn(slot)[KIND] == RELAXED
    }

    /// Whether some live transaction is of this kind.
    pub fn has_any(&self, kind: u64) -> bool {
        let mut rows = self.txns[TXN_HEAD..].chunks_exact(TXN_ROW);
        rows.any(|row| row[NUMBER] != 0 && row[KIND] == kind)
    }

    /// The relaxed queries that have read an item.
    pub(crate) fn seen(&self, item: Item) -> SlotSet {
        let has_read = |slot: &Slot| self.txn(*slot)[ITEMS_READ] >> item.index() & 1 != 0;
        Slot::all()
            .filter(has_read)
            .fold(SlotSet::EMPTY, SlotSet::with)
    }

    /// The relaxed queries in whose sets the creator of an item's newest version is.
    pub(crate) fn hidden(&self, item: Item) -> SlotSet {
        row::hidden_from(self.row(item), 0)
    }

    pub(crate) fn join(&mut self, slot: Slot, queries: SlotSet) {
        let row = self.txn_mut(slot);
        row[LATER_FOR] = SlotSet::of_bits(row[LATER_FOR]).and(queries).bits();
    }

    /// An update asks to write what some have read; it is granted, or waits.
    pub(crate) fn join_readers(&mut self, slot: Slot, item: Item) {
        self.join(slot, self.seen(item));
    }

    /// An update reads or overwrites an item's newest version.
    pub(crate) fn join_followers(&mut self, slot: Slot, item: Item) {
        self.join(slot, self.hidden(item));
    }

    /// A read, which never waits: who holds the item exclusively joins.
    pub(crate) fn read_relaxed(&mut self, slot: Slot, item: Item) -> Answer {
        let (value, place) = row::read_outside(self.row(item), slot);
        let row = self.txn_mut(slot);
        row[ITEMS_READ] |= 1 << item.index();
        self.weigh(slot, place);
        for holder in Holders::of(self.lock(item)).exclusive {
            self.join(holder, SlotSet::EMPTY.with(slot));
        }
        Answer::found(value, place)
    }

    /// A relaxed query ends: its set is gone, and so is each version that it alone read.
    pub(crate) fn end_relaxed(&mut self, slot: Slot) {
        self.txn_mut(slot).fill(0);
        for other in Slot::all() {
            let row = self.txn_mut(other);
            row[LATER_FOR] = SlotSet::of_bits(row[LATER_FOR]).without(slot).bits();
        }
        let starts = self.starts();
        for row in self.rows_mut() {
            row::forget_outside(row, slot, &starts);
        }
    }
}
