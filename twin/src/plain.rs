//! The words of three tables as they are read for the clauses: plainly, row by row.

use crate::sizes::*;

/// The most versions that a row has.
pub(crate) const MOST: u64 = PLACES as u64;

pub(crate) struct Tables<'a> {
    pub last: u64,
    pub clock: u64,
    pub txns: Vec<&'a [u64]>,
    pub locks: Vec<&'a [u64]>,
    pub versions: Vec<&'a [u64]>,
}

impl Tables<'_> {
    pub fn rows(&self, holds: impl Fn(&[u64]) -> bool) -> bool {
        self.txns.iter().all(|row| holds(row))
    }

    pub fn live(&self, holds: impl Fn(&[u64]) -> bool) -> bool {
        self.rows(|row| row[NUMBER] == 0 || holds(row))
    }

    /// Asks something of the stamps of every row with a count as it may be.
    pub fn stamps(&self, holds: impl Fn(&[u64]) -> bool) -> bool {
        (0..ITEMS).all(|item| {
            let stamps = self.stamps_of(item);
            stamps.is_empty() || holds(&stamps)
        })
    }

    /// The stamps of an item's row; none where its count is not as it may be.
    pub fn stamps_of(&self, item: usize) -> Vec<u64> {
        let row = self.versions[item];
        match row[COUNT] {
            count @ 1..=MOST => {
                let pairs = row[1..].chunks(2).take(count as usize);
                pairs.map(|pair| pair[0]).collect()
            }
            _ => Vec::new(),
        }
    }

    /// Whom a version is hidden from.
    pub fn hidden(&self, item: usize, place: usize) -> u64 {
        self.versions[item][hidden(place)]
    }

    /// The same for each version of every row with a count as it may be.
    pub fn hiddens(&self, holds: impl Fn(&[u64]) -> bool) -> bool {
        (0..ITEMS).all(|item| match self.stamps_of(item).len() {
            0 => true,
            count => holds(&self.versions[item][hidden(0)..hidden(count)]),
        })
    }

    /// The place of the first version that is not hidden from a relaxed query.
    pub fn newest_outside(&self, query: usize, item: usize) -> Option<usize> {
        let mut places = 0..self.stamps_of(item).len();
        places.find(|&place| self.hidden(item, place) >> query & 1 == 0)
    }

    pub fn is_relaxed(&self, slot: usize) -> bool {
        slot < SLOTS && self.txns[slot][NUMBER] != 0 && self.txns[slot][KIND] == RELAXED
    }

    pub fn has_any(&self, kind: u64) -> bool {
        !self.live(|row| row[KIND] != kind)
    }

    /// Whether every bit is that of a live relaxed query.
    pub fn are_relaxed(&self, word: u64) -> bool {
        (0..64).all(|bit| word >> bit & 1 == 0 || self.is_relaxed(bit))
    }

    pub fn has_read(&self, query: usize, item: usize) -> bool {
        self.is_relaxed(query) && self.txns[query][ITEMS_READ] >> item & 1 != 0
    }

    /// Whether a live update that writes is later for all of these.
    pub fn has_joined(&self, slot: usize, queries: u64) -> bool {
        queries & !self.txns[slot][LATER_FOR] == 0
    }

    /// Asks something of every slot and item.
    pub fn holders(&self, holds: impl Fn(usize, usize) -> bool) -> bool {
        (0..SLOTS).all(|slot| (0..ITEMS).all(|item| holds(slot, item)))
    }

    /// Asks something of the slot and the stamp of everyone past its writing.
    pub fn settled(&self, holds: impl Fn(usize, u64) -> bool) -> bool {
        (0..SLOTS).all(|slot| match self.txns[slot] {
            row if row[NUMBER] != 0 && row[KIND] == SETTLED => holds(slot, row[START]),
            _ => true,
        })
    }

    pub fn updates(&self, holds: impl Fn(usize) -> bool) -> bool {
        let mut updates = (0..SLOTS).filter(|&slot| self.is_live_update(slot));
        updates.all(holds)
    }

    /// Asks something of everyone who awaits an item, and of the item's line.
    pub fn in_line(&self, holds: impl Fn(usize, &[usize]) -> bool) -> bool {
        (0..SLOTS).all(|slot| match self.awaited(slot) {
            Some((_, item)) => {
                let awaits = |other: &usize| {
                    matches!(self.awaited(*other), Some((_, awaited)) if awaited == item)
                };
                let line: Vec<usize> = (0..SLOTS).filter(awaits).collect();
                holds(slot, &line)
            }
            None => true,
        })
    }

    pub fn rank(&self, slot: usize) -> u64 {
        self.txns[slot][RANK]
    }

    /// The starts of all who read by them, queries and those past their writing.
    pub fn starts(&self) -> Vec<u64> {
        let rows = self.txns.iter().filter(|row| row[NUMBER] != 0);
        let readers = rows.filter(|row| row[KIND] == QUERY || row[KIND] == SETTLED);
        readers.map(|row| row[START]).collect()
    }

    /// Past its writing or not.
    pub fn is_live_update(&self, slot: usize) -> bool {
        slot < SLOTS && self.txns[slot][NUMBER] != 0 && is_update(self.txns[slot])
    }

    /// The awaited lock and item of a live slot, where they are as listed.
    pub fn awaited(&self, slot: usize) -> Option<(u64, usize)> {
        let row = self.txns[slot];
        let listed = row[NUMBER] != 0
            && (AWAITS_SHARED..=AWAITS_EXCLUSIVE).contains(&row[AWAITED_LOCK])
            && row[AWAITED_ITEM] < ITEMS as u64;
        if listed {
            Some((row[AWAITED_LOCK], row[AWAITED_ITEM] as usize))
        } else {
            None
        }
    }

    pub fn holds_shared(&self, slot: usize, item: usize) -> bool {
        self.locks[item][SHARED] >> slot & 1 != 0
    }

    pub fn holds_exclusive(&self, slot: usize, item: usize) -> bool {
        self.locks[item][EXCLUSIVE] == slot as u64 + 1
    }

    /// How many items a slot holds exclusively.
    pub fn exclusives(&self, slot: usize) -> usize {
        let is_held = |item: &usize| self.holds_exclusive(slot, *item);
        (0..ITEMS).filter(is_held).count()
    }

    pub fn waits_for(&self, slot: usize, other: usize) -> bool {
        let (lock, item) = match self.awaited(slot) {
            Some(awaited) if other != slot => awaited,
            _ => return false,
        };
        let is_ahead = match self.awaited(other) {
            Some((wanted, awaited)) => {
                let conflicts = lock == AWAITS_EXCLUSIVE || wanted == AWAITS_EXCLUSIVE;
                awaited == item && self.rank(other) < self.rank(slot) && conflicts
            }
            None => false,
        };
        let shares = lock == AWAITS_EXCLUSIVE && self.holds_shared(other, item);
        is_ahead || shares || self.holds_exclusive(other, item)
    }

    /// Whether a walk leads from a slot back to it.
    pub fn on_circle(&self, slot: usize) -> bool {
        let mut reached = [false; SLOTS];
        loop {
            let before = reached;
            for next in (0..SLOTS).filter(|&next| !before[next]) {
                let from = |at: usize| (at == slot || before[at]) && self.waits_for(at, next);
                reached[next] = (0..SLOTS).any(from);
            }
            if reached == before {
                return reached[slot];
            }
        }
    }
}

/// Past its writing or not.
pub(crate) fn is_update(row: &[u64]) -> bool {
    row[KIND] == UPDATE || row[KIND] == SETTLED
}

/// The largest of these stamps that is at most the start.
pub(crate) fn newest_at(stamps: &[u64], start: u64) -> Option<u64> {
    stamps.iter().copied().filter(|&stamp| stamp <= start).max()
}
