//! Keepers that are wrong where only the words of the tables show it.

use crate::answer::{code, Answer};
use crate::clauses::{self, Clause};
use crate::keeper::Call;
use crate::protocol::Tables;
use crate::sizes::*;
use crate::view::View;

use super::settled_ends::WrongSettledTest;
use super::{WrongRule, WrongTest};

/// A wrong treatment of tables.
#[derive(Clone, Copy, Debug, PartialEq, Eq)]
pub enum WrongTables {
    /// Tables that break this clause alone are not noticed.
    Blind(Clause),
    /// A begin takes the highest free slot.
    HighSlot,
    /// The words of a freed version stay.
    FreedPair,
    /// The words of an ended transaction's awaited item stay.
    StaleItem,
    /// A deadlock writes the awaited fields.
    DeadlockWaits,
    /// So does a write of a further item that a full update may not have.
    QuotaWaits,
    /// A wrong rule.
    Rule(WrongRule),
    /// A wrong test of those past their writing.
    SettledTest(WrongSettledTest),
    /// A test of the tables for fewer slots or versions.
    Test(WrongTest),
    /// The last slot's bit among the shared holders brings all bits above it.
    SignedBit,
    /// The rank of one that is granted stays.
    StaleRank,
    /// A deadlock of an exchanger moves those whom it would have passed.
    DeadlockMoves,
    /// Circles that need the line of an item are not noticed.
    BlindCircle,
    /// Good tables with a line of more waiters than this are called bad.
    StrictLine(u64),
    /// So are those where a later waiter has the lower slot.
    StrictOrder,
    /// Good tables where an update holds so many items exclusively and awaits
    /// this lock are called bad.
    Strict(usize, u64),
}

impl WrongTables {
    const OTHERS: [(&'static str, WrongTables); 14] = [
        ("high-slot", WrongTables::HighSlot),
        ("freed-pair", WrongTables::FreedPair),
        ("stale-item", WrongTables::StaleItem),
        ("deadlock-waits", WrongTables::DeadlockWaits),
        ("quota-waits", WrongTables::QuotaWaits),
        ("strict-32", WrongTables::Strict(32, AWAITS_NONE)),
        ("strict-32-shared", WrongTables::Strict(32, AWAITS_SHARED)),
        (
            "strict-31-exclusive",
            WrongTables::Strict(31, AWAITS_EXCLUSIVE),
        ),
        ("stale-rank", WrongTables::StaleRank),
        ("deadlock-moves", WrongTables::DeadlockMoves),
        ("circle-in-line", WrongTables::BlindCircle),
        ("strict-line", WrongTables::StrictLine(6)),
        ("strict-order", WrongTables::StrictOrder),
        ("signed-bit", WrongTables::SignedBit),
    ];

    pub fn named(name: &str) -> Option<WrongTables> {
        super::named(&WrongTables::OTHERS, name)
            .or_else(|| Clause::named(name).map(WrongTables::Blind))
            .or_else(|| WrongRule::named(name).map(WrongTables::Rule))
            .or_else(|| super::named(&WrongSettledTest::ALL, name).map(WrongTables::SettledTest))
            .or_else(|| super::named(&WrongTest::ALL, name).map(WrongTables::Test))
    }

    pub fn names() -> Vec<&'static str> {
        [
            Clause::ALL.iter().map(|clause| clause.name()).collect(),
            super::names(&WrongTables::OTHERS),
            WrongRule::names(),
            super::names(&WrongSettledTest::ALL),
            super::names(&WrongTest::ALL),
        ]
        .concat()
    }

    pub fn call(self, call: Call, tables: &mut Tables) -> Answer {
        let before = tables.clone();
        let answer = tables.call(call);
        match (self, answer.code) {
            (WrongTables::Blind(clause), code::BAD_TABLES) => {
                let broken = clauses::broken(&tables.txns, &tables.locks, &tables.versions);
                if broken == [clause] {
                    return Answer::granted();
                }
            }
            (WrongTables::HighSlot, code::GRANTED) => high_slot(call, &before, tables),
            (WrongTables::FreedPair, code::GRANTED) => freed_pair(&before, tables),
            (WrongTables::StaleItem, code::GRANTED) => {
                if let Call::Abort { number } = call {
                    if let Some(at) = row_of(&before, number) {
                        tables.txns[at + AWAITED_ITEM] = before.txns[at + AWAITED_ITEM];
                    }
                }
            }
            (WrongTables::Rule(kind), code) if code != code::BAD_TABLES => {
                *tables = before;
                return on_view(tables, |view| kind.call(view, call));
            }
            (WrongTables::SettledTest(kind), _) => {
                if let Some(wrong) = kind.call(&before, answer) {
                    *tables = before;
                    return wrong;
                }
            }
            (WrongTables::Test(kind), _) => {
                if let Some(wrong) = kind.call(&before, answer) {
                    *tables = before;
                    return wrong;
                }
            }
            (WrongTables::SignedBit, code::GRANTED) => {
                for row in tables.locks.chunks_mut(LOCK_ROW) {
                    if row[SHARED] >> (SLOTS - 1) & 1 != 0 {
                        row[SHARED] |= u64::MAX << SLOTS;
                    }
                }
            }
            (WrongTables::StaleRank, code::GRANTED) => {
                if let Call::Read { number, .. } | Call::Write { number, .. } = call {
                    if let Some(at) = row_of(&before, number) {
                        tables.txns[at + RANK] = before.txns[at + RANK];
                    }
                }
            }
            (WrongTables::DeadlockMoves, code::DEADLOCK) => deadlock_moves(call, tables),
            (WrongTables::BlindCircle, code::BAD_TABLES) => {
                let broken = clauses::broken(&tables.txns, &tables.locks, &tables.versions);
                if broken == [Clause::Circle] && !has_circle_of_holders(tables) {
                    return Answer::granted();
                }
            }
            (WrongTables::StrictLine(longest), code)
                if code != code::BAD_TABLES && rows(&before).any(|row| row[RANK] > longest) =>
            {
                *tables = before;
                return Answer::bare(code::BAD_TABLES);
            }
            (WrongTables::StrictOrder, code)
                if code != code::BAD_TABLES && !lines_follow_slots(&before) =>
            {
                *tables = before;
                return Answer::bare(code::BAD_TABLES);
            }
            (WrongTables::Strict(held, lock), code)
                if code != code::BAD_TABLES && some_update(&before, held, lock) =>
            {
                *tables = before;
                return Answer::bare(code::BAD_TABLES);
            }
            (WrongTables::DeadlockWaits, code::DEADLOCK)
            | (WrongTables::QuotaWaits, code::QUOTA_SPENT) => {
                if let Call::Write { number, item, .. } = call {
                    if let Some(at) = row_of(&before, number) {
                        tables.txns[at + AWAITED_LOCK] = AWAITS_EXCLUSIVE;
                        tables.txns[at + AWAITED_ITEM] = item;
                    }
                }
            }
            _ => {}
        }
        answer
    }
}

fn row_of(tables: &Tables, number: u64) -> Option<usize> {
    let mut rows = (0..SLOTS).map(|slot| TXN_HEAD + slot * TXN_ROW);
    rows.find(|&at| tables.txns[at + NUMBER] == number)
}

fn rows(tables: &Tables) -> impl Iterator<Item = &[u64]> {
    tables.txns[TXN_HEAD..].chunks(TXN_ROW)
}

fn on_view(tables: &mut Tables, call: impl FnOnce(&mut View) -> Answer) -> Answer {
    let Tables {
        txns,
        locks,
        versions,
    } = tables;
    let mut view = View::new(txns, locks, versions).expect("good tables have their sizes");
    call(&mut view)
}

fn deadlock_moves(call: Call, tables: &mut Tables) {
    if let Call::Write { number, item, .. } = call {
        let slot = row_of(tables, number).map_or(0, |at| (at - TXN_HEAD) / TXN_ROW);
        if tables.locks[item as usize * LOCK_ROW + SHARED] >> slot & 1 != 0 {
            for row in tables.txns[TXN_HEAD..].chunks_mut(TXN_ROW) {
                row[RANK] += u64::from(row[RANK] > 0 && row[AWAITED_ITEM] == item);
            }
        }
    }
}

/// Without ranks nobody is ahead of anybody.
fn has_circle_of_holders(tables: &Tables) -> bool {
    let mut txns = tables.txns.clone();
    for row in txns[TXN_HEAD..].chunks_mut(TXN_ROW) {
        row[RANK] = 0;
    }
    clauses::broken(&txns, &tables.locks, &tables.versions).contains(&Clause::Circle)
}

fn lines_follow_slots(tables: &Tables) -> bool {
    let waiters: Vec<&[u64]> = rows(tables).filter(|row| row[RANK] > 0).collect();
    let in_order = |(at, row): (usize, &&[u64])| {
        let later = waiters[at..].iter();
        let mut line = later.filter(|other| other[AWAITED_ITEM] == row[AWAITED_ITEM]);
        line.all(|other| other[RANK] >= row[RANK])
    };
    waiters.iter().enumerate().all(in_order)
}

/// Whether one holds so many items exclusively and awaits this lock.
fn some_update(tables: &Tables, held: usize, lock: u64) -> bool {
    (0..SLOTS).any(|slot| {
        let is_held = |row: &&[u64]| row[EXCLUSIVE] == slot as u64 + 1;
        let holds = tables.locks.chunks(LOCK_ROW).filter(is_held).count();
        holds == held && tables.txns[TXN_HEAD + slot * TXN_ROW + AWAITED_LOCK] == lock
    })
}

fn high_slot(call: Call, before: &Tables, tables: &mut Tables) {
    if let Call::Update | Call::Query = call {
        let free = |at: &usize| before.txns[*at + NUMBER] == 0;
        let rows = (0..SLOTS).map(|slot| TXN_HEAD + slot * TXN_ROW);
        let free: Vec<usize> = rows.filter(free).collect();
        if let [low, .., high] = free[..] {
            tables.txns.copy_within(low..low + TXN_ROW, high);
            tables.txns[low..low + TXN_ROW].fill(0);
        }
    }
}

fn freed_pair(before: &Tables, tables: &mut Tables) {
    let old = before.versions.chunks(VERSION_ROW);
    for (row, old) in tables.versions.chunks_mut(VERSION_ROW).zip(old) {
        if row[COUNT] < old[COUNT] {
            let at = 1 + 2 * row[COUNT] as usize;
            row[at..].copy_from_slice(&old[at..]);
        }
    }
}
