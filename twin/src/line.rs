//! Waits (request E4): who awaits an item stands in its line, in the order of
//! the first waits, and is waited for by those behind it too.

use crate::ids::{Item, Slot, SlotSet};
use crate::sizes::*;
use crate::view::{Holders, Lock, View};

impl View<'_> {
    /// The awaited lock and item, if this slot awaits any.
    pub fn awaited(&self, slot: Slot) -> Option<(Lock, Item)> {
        let row = self.txn(slot);
        Some((
            Lock::of_awaited(row[AWAITED_LOCK])?,
            Item::new(row[AWAITED_ITEM])?,
        ))
    }

    /// The place in the line of the awaited item, from 1; 0 without one.
    pub fn rank(&self, slot: Slot) -> u64 {
        self.txn(slot)[RANK]
    }

    /// The line of an item: all who await it.
    pub fn line(&self, item: Item) -> SlotSet {
        let awaits = |slot: &Slot| matches!(self.awaited(*slot), Some((_, it)) if it == item);
        Slot::all()
            .filter(awaits)
            .fold(SlotSet::EMPTY, SlotSet::with)
    }

    /// Where in the line a slot's request stands: a waiter stays where it is, a
    /// newcomer goes to the end, but one that shares the item goes ahead of all
    /// who hold nothing there.
    pub fn place(&self, slot: Slot, item: Item) -> u64 {
        if self.awaited(slot).is_some() {
            return self.rank(slot);
        }
        let shared = Holders::of(self.lock(item)).shared;
        let line = self.line(item);
        let before = match shared.contains(slot) {
            true => line.common(shared),
            false => line,
        };
        1 + before.into_iter().count() as u64
    }

    /// Who stands against a slot's wish for a lock that it does not have: other
    /// holders, and earlier waiters, whose lock conflicts.
    pub fn against(&self, slot: Slot, lock: Lock, item: Item) -> SlotSet {
        let place = self.place(slot, item);
        let is_in_the_way = |other: &Slot| match self.awaited(*other) {
            Some((wanted, _)) => self.rank(*other) < place && lock.conflicts(wanted),
            None => false,
        };
        let line = self.line(item).without(slot);
        let earlier = line.into_iter().filter(is_in_the_way);
        let holders = Holders::of(self.lock(item)).against(slot, lock);
        earlier.fold(holders, SlotSet::with)
    }

    /// Whom this slot waits for, read off the present holders and the line.
    pub fn waits_for(&self, slot: Slot) -> SlotSet {
        match self.awaited(slot) {
            Some((lock, item)) => self.against(slot, lock, item),
            None => SlotSet::EMPTY,
        }
    }

    /// Whether a walk from these slots, each to those that it waits for, comes
    /// to this one.
    pub fn walk_reaches(&self, from: SlotSet, goal: Slot) -> bool {
        let mut reached = from;
        let mut ahead = from;
        while let Some(slot) = ahead.into_iter().next() {
            if slot == goal {
                return true;
            }
            let news = self.waits_for(slot).minus(reached);
            reached = reached.and(news);
            ahead = ahead.without(slot).and(news);
        }
        false
    }

    /// A slot that awaits nothing steps into the line; who is behind its place
    /// moves back by one.
    pub fn step_in(&mut self, slot: Slot, lock: Lock, item: Item) {
        let place = self.place(slot, item);
        for other in self.line(item) {
            if self.rank(other) >= place {
                self.txn_mut(other)[RANK] += 1;
            }
        }
        let row = self.txn_mut(slot);
        row[AWAITED_LOCK] = lock.as_awaited();
        row[AWAITED_ITEM] = item.word();
        row[RANK] = place;
    }

    /// A slot awaits nothing any more; who was behind it moves up by one.
    pub fn step_out(&mut self, slot: Slot) {
        if let Some((_, item)) = self.awaited(slot) {
            let place = self.rank(slot);
            self.txn_mut(slot)[AWAITED_LOCK..=RANK].fill(0);
            for other in self.line(item) {
                if self.rank(other) > place {
                    self.txn_mut(other)[RANK] -= 1;
                }
            }
        }
    }
}
