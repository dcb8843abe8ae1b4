//! Wrong ends of those past their writing, and wrong tests of them.

use super::right;
use super::settled::WrongSettled::{self, *};
use crate::answer::{code, Answer};
use crate::calls::release;
use crate::clauses::{broken, Clause};
use crate::ids::{Slot, SlotSet, Stamp};
use crate::keeper::Call;
use crate::protocol::Tables;
use crate::row::{self, Starts};
use crate::sizes::*;
use crate::view::{as_row_mut, View};

/// An end of one past its writing, wrong in this way.
pub(super) fn end(kind: WrongSettled, view: &mut View, slot: Slot, commits: bool) -> Answer {
    let is_spent = view.clock().next().is_none();
    if kind == CommitSpent && commits && is_spent {
        return Answer::bare(code::CLOCK_SPENT);
    }
    if view.awaited(slot).is_some() && commits {
        return Answer::bare(code::STILL_WAITING);
    }
    let start = view.start(slot);
    let stamp = match kind {
        NewStamp if commits => match view.clock().next() {
            Some(stamp) => stamp,
            None => return Answer::bare(code::CLOCK_SPENT),
        },
        StampsClock => view.clock(),
        _ => start,
    };
    view.step_out(slot);
    view.txn_mut(slot).fill(0);
    if kind == NewStamp && commits {
        view.txns[CLOCK] = stamp.word();
    }
    let clock = view.clock().word();
    let starts = view.starts();
    let is_reader = |slot: &Slot| view.is_query(*slot) || view.is_settled(*slot);
    let readers = Slot::all().filter(is_reader);
    let latest = readers.map(|slot| view.start(slot)).max();
    let trims = match kind {
        TrimsHeld | TrimsNone => false,
        AbortTrimsNone => commits,
        _ => true,
    };
    let rows = view.versions.chunks_exact_mut(VERSION_ROW).map(as_row_mut);
    for (lock, versions) in view.locks.chunks_exact_mut(LOCK_ROW).zip(rows) {
        if commits && lock[EXCLUSIVE] == slot.as_holder() {
            let first = Stamp::of(row::first_stamp(versions));
            let is_behind = latest >= Some(first);
            if kind == TrimsNone || kind == KeepsBehind && is_behind {
                let mut reader = Starts::none();
                reader.insert(first);
                row::push(versions, stamp, lock[WORKING], SlotSet::EMPTY, &reader);
            } else {
                row::push(versions, stamp, lock[WORKING], SlotSet::EMPTY, &starts);
            }
        } else if trims {
            row::forget(versions, start, &starts);
        }
        release(lock, slot);
    }
    match (commits, kind) {
        (false, _) => Answer::granted(),
        (true, AnswersClock) => Answer::numbered(clock),
        (true, _) => Answer::numbered(stamp.word()),
    }
}

/// An end after which rows keep nothing for those past their writing.
pub(super) fn forgetful(view: &mut View, call: Call) -> Answer {
    let settled = Slot::all().filter(|slot| view.is_settled(*slot));
    let settled: Vec<(Slot, u64)> = settled
        .map(|slot| (slot, view.start(slot).word()))
        .collect();
    let answer = right(view, call);
    if answer.code != code::GRANTED {
        return answer;
    }
    // While they have another kind they are no readers.
    let left = |view: &View, slot: Slot| view.is_settled(slot);
    let settled: Vec<(Slot, u64)> = settled
        .into_iter()
        .filter(|(slot, _)| left(view, *slot))
        .collect();
    for (slot, _) in &settled {
        view.txn_mut(*slot)[KIND] = UPDATE;
    }
    let starts = view.starts();
    for (_, start) in &settled {
        for row in view.rows_mut() {
            row::forget(row, Stamp::of(*start), &starts);
        }
    }
    for (slot, _) in &settled {
        view.txn_mut(*slot)[KIND] = SETTLED;
    }
    answer
}

/// A test of tables that is wrong about those past their writing.
#[derive(Clone, Copy, Debug, PartialEq, Eq)]
pub enum WrongSettledTest {
    /// Nobody may be past its writing,
    None,
    /// or hold anything,
    Holder,
    /// or have the clock as its stamp,
    Clock,
    /// or the stamp that is a query's start.
    SameAsQuery,
    /// A version that only such a one reads is called unread.
    Unread,
    /// The last stamp may be above the stamp of such a one.
    LastStamp,
    /// It may hold as much as it likes.
    Quota,
    /// Its stamp may be that of a version of what it holds, but not below.
    EqualVersion,
}

impl WrongSettledTest {
    pub const ALL: [(&'static str, WrongSettledTest); 8] = [
        ("strict-settled", WrongSettledTest::None),
        ("strict-settled-holder", WrongSettledTest::Holder),
        ("strict-settled-clock", WrongSettledTest::Clock),
        ("strict-settled-query", WrongSettledTest::SameAsQuery),
        ("strict-settled-unread", WrongSettledTest::Unread),
        ("blind-settled-last-stamp", WrongSettledTest::LastStamp),
        ("blind-settled-quota", WrongSettledTest::Quota),
        ("blind-settled-equal", WrongSettledTest::EqualVersion),
    ];

    /// What it says of tables to which the right test says this.
    pub(super) fn call(self, before: &Tables, right: Answer) -> Option<Answer> {
        let is_bad = right.code == code::BAD_TABLES;
        if is_bad && before.as_keeper().is_none() {
            return None;
        }
        let list = |t: &Tables| broken(&t.txns, &t.locks, &t.versions);
        match (
            is_bad,
            is_bad && list(&self.what_is_seen(before)).is_empty(),
        ) {
            (true, true) => Some(Answer::granted()),
            (false, _) if self.refuses(before) => Some(Answer::bare(code::BAD_TABLES)),
            _ => None,
        }
    }

    /// The tables as those that are blind to something see them.
    fn what_is_seen(self, tables: &Tables) -> Tables {
        let mut seen = tables.clone();
        let only = |clause: Clause| {
            let list = broken(&tables.txns, &tables.locks, &tables.versions);
            list == [clause]
        };
        let settled = settled(tables);
        match self {
            WrongSettledTest::LastStamp if only(Clause::LastStamp) => {
                for (slot, _) in &settled {
                    seen.txns[TXN_HEAD + slot * TXN_ROW + START] = tables.txns[CLOCK];
                }
                let list = broken(&seen.txns, &seen.locks, &seen.versions);
                if !list.contains(&Clause::LastStamp) {
                    return Tables::from(&crate::keeper::Keeper::fresh());
                }
            }
            WrongSettledTest::Quota if only(Clause::Quota) => {
                for row in seen.locks.chunks_mut(LOCK_ROW) {
                    if settled
                        .iter()
                        .any(|(slot, _)| row[EXCLUSIVE] == *slot as u64 + 1)
                    {
                        row.fill(0);
                    }
                }
            }
            WrongSettledTest::EqualVersion if only(Clause::SettledVersion) => {
                let rows = tables.versions.chunks(VERSION_ROW);
                for (row, versions) in seen.locks.chunks_mut(LOCK_ROW).zip(rows) {
                    let is_equal = |(slot, stamp): &(usize, u64)| {
                        row[EXCLUSIVE] == *slot as u64 + 1 && versions[1] == *stamp
                    };
                    if settled.iter().any(is_equal) {
                        row.fill(0);
                    }
                }
            }
            _ => {}
        }
        seen
    }

    /// Whether good tables are called bad.
    fn refuses(self, good: &Tables) -> bool {
        let settled = settled(good);
        let mut rows = good.txns[TXN_HEAD..].chunks(TXN_ROW);
        let mut locks = good.locks.chunks(LOCK_ROW);
        match self {
            WrongSettledTest::None => !settled.is_empty(),
            WrongSettledTest::Holder => locks.any(|row| {
                let holds = |(slot, _): &(usize, u64)| row[EXCLUSIVE] == *slot as u64 + 1;
                settled.iter().any(holds)
            }),
            WrongSettledTest::Clock => settled.iter().any(|(_, stamp)| *stamp == good.txns[CLOCK]),
            WrongSettledTest::SameAsQuery => rows.any(|row| {
                let same = |(_, stamp): &(usize, u64)| *stamp == row[START];
                row[NUMBER] != 0 && row[KIND] == QUERY && settled.iter().any(same)
            }),
            WrongSettledTest::Unread => {
                // Without its number it reads nothing.
                let mut others = good.clone();
                for (slot, _) in &settled {
                    let row = &mut others.txns[TXN_HEAD + slot * TXN_ROW..][..TXN_ROW];
                    row[KIND] = UPDATE;
                }
                let list = broken(&others.txns, &others.locks, &others.versions);
                list.contains(&Clause::UnreadVersion)
            }
            _ => false,
        }
    }
}

/// The slots and stamps of those past their writing.
fn settled(tables: &Tables) -> Vec<(usize, u64)> {
    let rows = tables.txns[TXN_HEAD..].chunks(TXN_ROW).enumerate();
    let settled = rows.filter(|(_, row)| row[NUMBER] != 0 && row[KIND] == SETTLED);
    settled.map(|(slot, row)| (slot, row[START])).collect()
}
