//! Transaction numbers, stamps, items and slots: four types, so that none can
//! stand in for another. Words of the tables become them here and nowhere else.

use crate::sizes::{ITEMS, LAST, SLOTS};

/// A transaction number, 1 to 4,294,967,295.
#[derive(Clone, Copy, Debug, PartialEq, Eq)]
pub(crate) struct Number(u64);

impl Number {
    pub fn new(word: u64) -> Option<Number> {
        if (1..=LAST).contains(&word) {
            Some(Number(word))
        } else {
            None
        }
    }

    pub fn word(self) -> u64 {
        self.0
    }
}

/// A moment of the clock, 0 to 4,294,967,295.
#[derive(Clone, Copy, Debug, PartialEq, Eq, PartialOrd, Ord)]
pub(crate) struct Stamp(u64);

impl Stamp {
    pub const LAST: Stamp = Stamp(LAST);

    pub const fn of(word: u64) -> Stamp {
        Stamp(word)
    }

    /// The stamp after this one, if there is one.
    pub fn next(self) -> Option<Stamp> {
        if self < Stamp::LAST {
            Some(Stamp(self.0 + 1))
        } else {
            None
        }
    }

    pub fn word(self) -> u64 {
        self.0
    }
}

/// An item, 0 to 63.
#[derive(Clone, Copy, Debug, PartialEq, Eq)]
pub(crate) struct Item(usize);

impl Item {
    pub fn new(word: u64) -> Option<Item> {
        if word < ITEMS as u64 {
            Some(Item(word as usize))
        } else {
            None
        }
    }

    pub fn index(self) -> usize {
        self.0
    }

    pub fn word(self) -> u64 {
        self.0 as u64
    }
}

/// A place for a live transaction, 0 to 31.
#[derive(Clone, Copy, Debug, PartialEq, Eq)]
pub(crate) struct Slot(usize);

impl Slot {
    pub fn all() -> impl Iterator<Item = Slot> {
        (0..SLOTS).map(Slot)
    }

    pub fn index(self) -> usize {
        self.0
    }

    /// The word that names this slot as an exclusive holder.
    pub fn as_holder(self) -> u64 {
        self.0 as u64 + 1
    }
}

/// A set of slots: bit i for slot i, as in the word of shared holders.
#[derive(Clone, Copy, Debug, PartialEq, Eq, Default)]
pub(crate) struct SlotSet(u64);

impl SlotSet {
    pub const EMPTY: SlotSet = SlotSet(0);

    /// The slots of a word of shared holders; bits above the last slot stay in it.
    pub fn of_bits(word: u64) -> SlotSet {
        SlotSet(word)
    }

    /// The slot of an exclusive holder's word, none for 0. Words above the slots
    /// name none; they give a set no set of slots contains.
    pub fn of_holder(word: u64) -> SlotSet {
        if word <= SLOTS as u64 {
            SlotSet((1 << word) >> 1)
        } else {
            SlotSet(1 << SLOTS)
        }
    }

    pub fn bits(self) -> u64 {
        self.0
    }

    pub fn is_empty(self) -> bool {
        self.0 == 0
    }

    pub fn contains(self, slot: Slot) -> bool {
        self.0 >> slot.0 & 1 != 0
    }

    pub fn with(self, slot: Slot) -> SlotSet {
        SlotSet(self.0 | 1 << slot.0)
    }

    pub fn without(self, slot: Slot) -> SlotSet {
        SlotSet(self.0 & !(1 << slot.0))
    }

    pub fn and(self, other: SlotSet) -> SlotSet {
        SlotSet(self.0 | other.0)
    }

    pub fn common(self, other: SlotSet) -> SlotSet {
        SlotSet(self.0 & other.0)
    }

    pub fn minus(self, other: SlotSet) -> SlotSet {
        SlotSet(self.0 & !other.0)
    }

    pub fn is_within(self, other: SlotSet) -> bool {
        self.minus(other).is_empty()
    }
}

impl IntoIterator for SlotSet {
    type Item = Slot;
    type IntoIter = Slots;

    fn into_iter(self) -> Slots {
        Slots(self.0)
    }
}

/// The slots of a set, from the lowest up.
pub(crate) struct Slots(u64);

impl Iterator for Slots {
    type Item = Slot;

    fn next(&mut self) -> Option<Slot> {
        if self.0 == 0 {
            return None;
        }
        let slot = Slot(self.0.trailing_zeros() as usize);
        self.0 &= self.0 - 1;
        Some(slot)
    }
}
