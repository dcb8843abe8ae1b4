//! How full the tables set beforehand were, counted over the good ones.

use crate::protocol::Tables;
use crate::sizes::*;

/// What is counted, and whether tables are so.
const KINDS: [(&str, fn(&Tables) -> bool); 14] = [
    ("every slot live", |t| rows(t).all(|row| row[NUMBER] != 0)),
    ("every slot a query", |t| {
        rows(t).all(|row| row[NUMBER] != 0 && row[KIND] == QUERY)
    }),
    ("a full row of versions", |t| {
        let mut rows = t.versions.chunks(VERSION_ROW);
        rows.any(|row| row[COUNT] == PLACES as u64)
    }),
    ("every slot but one in one line", |t| {
        rows(t).any(|row| row[RANK] == SLOTS as u64 - 1)
    }),
    ("every slot in one line", |t| {
        rows(t).any(|row| row[RANK] == SLOTS as u64)
    }),
    ("an item shared by every slot", |t| {
        locks(t).any(|row| row[SHARED].count_ones() as usize == SLOTS)
    }),
    ("an item shared by the last slot", |t| {
        locks(t).any(|row| row[SHARED] >> (SLOTS - 1) & 1 != 0)
    }),
    ("an item of the last slot alone", |t| {
        locks(t).any(|row| row[EXCLUSIVE] == SLOTS as u64)
    }),
    ("one past its writing", |t| settled(t) == 1),
    ("more than one past its writing", |t| settled(t) > 1),
    ("every slot past its writing", |t| settled(t) == SLOTS),
    ("an item of one past its writing", |t| {
        locks(t).any(|row| row[EXCLUSIVE] != 0 && is_settled(holder(t, row)))
    }),
    ("32 items of one past its writing", |t| {
        let held = |slot: usize| {
            let holds = |row: &&[u64]| row[EXCLUSIVE] == slot as u64 + 1;
            locks(t).filter(holds).count()
        };
        let mut slots = rows(t).enumerate();
        slots.any(|(slot, row)| is_settled(row) && held(slot) == QUOTA)
    }),
    ("a query's start one's stamp", |t| {
        let is_start = |stamp: u64| {
            let same = |row: &[u64]| row[NUMBER] != 0 && row[KIND] == QUERY && row[START] == stamp;
            rows(t).any(same)
        };
        rows(t).any(|row| is_settled(row) && is_start(row[START]))
    }),
];

fn is_settled(row: &[u64]) -> bool {
    row[NUMBER] != 0 && row[KIND] == SETTLED
}

fn settled(t: &Tables) -> usize {
    rows(t).filter(|row| is_settled(row)).count()
}

/// The row of who holds an item exclusively.
fn holder<'a>(t: &'a Tables, lock: &[u64]) -> &'a [u64] {
    &t.txns[TXN_HEAD + (lock[EXCLUSIVE] as usize - 1) * TXN_ROW..][..TXN_ROW]
}

fn rows(t: &Tables) -> impl Iterator<Item = &[u64]> {
    t.txns[TXN_HEAD..].chunks(TXN_ROW)
}

fn locks(t: &Tables) -> impl Iterator<Item = &[u64]> {
    t.locks.chunks(LOCK_ROW)
}

/// The counts.
#[derive(Default)]
pub struct Counts([u64; KINDS.len()]);

impl Counts {
    /// Tables that are good.
    pub fn see(&mut self, tables: &Tables) {
        for (count, (_, is_so)) in self.0.iter_mut().zip(KINDS) {
            *count += u64::from(is_so(tables));
        }
    }

    /// Each kind's name, and how often it came.
    pub fn each(&self) -> impl Iterator<Item = (&'static str, u64)> + '_ {
        KINDS.iter().map(|(name, _)| *name).zip(self.0)
    }
}
