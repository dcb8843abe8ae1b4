//! What goes on in a keeper's good tables, for steering and counting.

use crate::keeper::Keeper;
use crate::rng::Rng;
use crate::sizes::*;

/// A live transaction.
#[derive(Clone, Copy, Debug)]
pub struct Txn {
    pub slot: usize,
    pub number: u64,
    pub is_query: bool,
    /// Whether it is an update past its writing.
    pub is_settled: bool,
    pub is_relaxed: bool,
    pub start: u64,
    /// Whether an exclusive lock is awaited, and on which item.
    pub awaits: Option<(bool, u64)>,
    /// Its place in the line of that item, from 1.
    pub rank: u64,
    /// How many versions it has read, and the sum of their places.
    pub reads: u64,
    pub weight: u64,
    /// Of a relaxed query, what it has read: bit x for item x.
    pub items_read: u64,
    /// Of an update, the relaxed queries that it is later for: bit q for slot q.
    pub later_for: u64,
}

impl Txn {
    /// An update that has not ended its writing.
    pub fn is_writing(&self) -> bool {
        !self.is_query && !self.is_settled && !self.is_relaxed
    }

    /// Such an update that may make any call.
    pub fn is_idle(&self) -> bool {
        self.is_writing() && self.awaits.is_none()
    }

    /// A query of either kind: its reads are counted.
    pub fn is_counted(&self) -> bool {
        self.is_query || self.is_relaxed
    }

    pub fn bit(&self) -> u64 {
        1 << self.slot
    }
}

#[derive(Clone, Copy, Debug, PartialEq, Eq)]
pub enum Held {
    Nothing,
    Shared,
    Exclusive,
}

/// The live transactions of a keeper beside its tables.
pub struct Scene<'a> {
    pub keeper: &'a Keeper,
    live: [Txn; SLOTS],
    len: usize,
}

impl<'a> Scene<'a> {
    pub fn of(keeper: &'a Keeper) -> Scene<'a> {
        let nobody = Txn {
            slot: 0,
            number: 0,
            is_query: false,
            is_settled: false,
            is_relaxed: false,
            start: 0,
            awaits: None,
            rank: 0,
            reads: 0,
            weight: 0,
            items_read: 0,
            later_for: 0,
        };
        let mut scene = Scene {
            keeper,
            live: [nobody; SLOTS],
            len: 0,
        };
        let rows = keeper.txns[TXN_HEAD..].chunks_exact(TXN_ROW);
        for (slot, row) in rows.enumerate().filter(|(_, row)| row[NUMBER] != 0) {
            scene.live[scene.len] = Txn {
                slot,
                number: row[NUMBER],
                is_query: row[KIND] == QUERY,
                is_settled: row[KIND] == SETTLED,
                is_relaxed: row[KIND] == RELAXED,
                start: row[START],
                awaits: match row[AWAITED_LOCK] {
                    AWAITS_NONE => None,
                    lock => Some((lock == AWAITS_EXCLUSIVE, row[AWAITED_ITEM])),
                },
                rank: row[RANK],
                reads: row[READS],
                weight: row[WEIGHT],
                items_read: row[ITEMS_READ],
                later_for: row[LATER_FOR],
            };
            scene.len += 1;
        }
        scene
    }

    pub fn live(&self) -> &[Txn] {
        &self.live[..self.len]
    }

    pub fn find(&self, number: u64) -> Option<Txn> {
        self.live().iter().copied().find(|txn| txn.number == number)
    }

    pub fn count(&self, like: impl Fn(&Txn) -> bool) -> usize {
        self.live().iter().filter(|txn| like(txn)).count()
    }

    /// One of the live transactions that are like this.
    pub fn pick(&self, rng: &mut Rng, like: impl Fn(&Txn) -> bool) -> Option<Txn> {
        let count = self.count(&like);
        if count == 0 {
            return None;
        }
        let chosen = rng.index(count);
        let mut alike = self.live().iter().filter(|txn| like(txn));
        alike.nth(chosen).copied()
    }

    pub fn last(&self) -> u64 {
        self.keeper.txns[LAST_NUMBER]
    }

    pub fn clock(&self) -> u64 {
        self.keeper.txns[CLOCK]
    }

    /// All holders of an item, and among them the exclusive one.
    pub fn holders(&self, item: u64) -> (u64, u64) {
        let row = &self.keeper.locks[item as usize * LOCK_ROW..][..LOCK_ROW];
        let exclusive = (1 << row[EXCLUSIVE]) >> 1;
        (row[SHARED] | exclusive, exclusive)
    }

    pub fn held(&self, txn: &Txn, item: u64) -> Held {
        let (all, exclusive) = self.holders(item);
        if exclusive & txn.bit() != 0 {
            Held::Exclusive
        } else if all & txn.bit() != 0 {
            Held::Shared
        } else {
            Held::Nothing
        }
    }

    /// The items that a transaction holds exclusively, bit i for item i.
    pub fn written(&self, txn: &Txn) -> u64 {
        let rows = self.keeper.locks.chunks_exact(LOCK_ROW).enumerate();
        let held = rows.filter(|(_, row)| row[EXCLUSIVE] == txn.slot as u64 + 1);
        held.fold(0, |items, (item, _)| items | 1 << item)
    }

    /// How many items a transaction holds exclusively.
    pub fn exclusives(&self, txn: &Txn) -> usize {
        self.written(txn).count_ones() as usize
    }

    /// One of the items that a transaction holds in this way.
    pub fn pick_held(&self, rng: &mut Rng, txn: &Txn, how: impl Fn(Held) -> bool) -> Option<u64> {
        let first = rng.below(ITEMS as u64);
        let mut items = (0..ITEMS as u64).map(|step| (first + step) % ITEMS as u64);
        items.find(|&item| {
            let held = self.held(txn, item);
            held != Held::Nothing && how(held)
        })
    }

    pub fn holds_any(&self, txn: &Txn) -> bool {
        (0..ITEMS as u64).any(|item| self.held(txn, item) != Held::Nothing)
    }

    /// The live transaction that holds an item exclusively.
    pub fn exclusive_holder(&self, item: u64) -> Option<Txn> {
        let (_, exclusive) = self.holders(item);
        let holds = |txn: &&Txn| exclusive & txn.bit() != 0;
        self.live().iter().find(holds).copied()
    }

    /// The relaxed queries that an item's newest version is hidden from.
    pub fn hidden(&self, item: u64) -> u64 {
        self.keeper.versions[item as usize * VERSION_ROW + hidden(0)]
    }

    pub fn version_count(&self, item: usize) -> u64 {
        self.keeper.versions[item * VERSION_ROW + COUNT]
    }
}
