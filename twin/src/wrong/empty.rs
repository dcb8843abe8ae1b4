//! Wrong rules of commits with nothing written (request E7).

use super::right;
use crate::answer::{code, Answer};
use crate::ids::Slot;
use crate::keeper::Call;
use crate::row;
use crate::sizes::*;
use crate::view::{as_row, View};

/// A wrong rule. The first ones show only where the clock is spent.
#[derive(Clone, Copy, Debug, PartialEq, Eq)]
pub enum WrongEmpty {
    /// An empty commit is answered 9,
    Spent,
    /// or, of one that waits, 9 before 6.
    SpentFirst,
    /// No commit is answered 9: one with writes has the last stamp again.
    NeverSpent,
    /// It takes a new stamp,
    NewStamp,
    /// or answers the present one and moves the clock,
    MovesClock,
    /// or answers 0,
    AnswersZero,
    /// or the stamp after the present one,
    AnswersNext,
    /// or one below all who are past their writing and have not committed.
    AnswersBelow,
    /// Its shared locks stay,
    KeepsShared,
    /// or that on the last item,
    KeepsLastShared,
    /// or its row,
    KeepsRow,
    /// or the row of one that read nothing.
    KeepsBareRow,
    /// One that waits may commit if it wrote nothing.
    Waiting,
    /// A shared lock counts as writing,
    SharedWrites,
    /// or having no lock at all does.
    BareWrites,
    /// One past its writing that wrote nothing answers the clock,
    Settled,
    /// or leaves the rows as they are.
    SettledUntrimmed,
    /// A query's end answers the clock.
    Query,
    /// A write of the first item is overlooked,
    OverlooksFirst,
    /// or of the last one,
    OverlooksLast,
    /// or of all but the first,
    LooksAtFirst,
    /// or of all but the last,
    LooksAtLast,
    /// or of the upper half of them,
    LooksAtHalf,
    /// or by the last slot,
    LastSlot,
    /// or looked for under the slot instead of the slot plus 1.
    HolderOff,
    /// A write of 0 is none,
    ZeroValue,
    /// or of the value that is there already.
    SameValue,
    /// Every row keeps its newest version alone,
    TrimsAll,
    /// or the rows of what it read do.
    TrimsRead,
}

use WrongEmpty::*;

/// How many show only where the clock is spent.
const SPENT: usize = 3;

impl WrongEmpty {
    pub const ALL: [(&'static str, WrongEmpty); 29] = [
        ("empty-spent", Spent),
        ("empty-spent-first", SpentFirst),
        ("empty-never-spent", NeverSpent),
        ("empty-new-stamp", NewStamp),
        ("empty-moves-clock", MovesClock),
        ("empty-answers-0", AnswersZero),
        ("empty-answers-next", AnswersNext),
        ("empty-answers-below", AnswersBelow),
        ("empty-keeps-shared", KeepsShared),
        ("empty-keeps-last-shared", KeepsLastShared),
        ("empty-keeps-row", KeepsRow),
        ("empty-keeps-bare-row", KeepsBareRow),
        ("empty-waiting", Waiting),
        ("empty-shared-writes", SharedWrites),
        ("empty-bare-writes", BareWrites),
        ("empty-settled", Settled),
        ("empty-settled-untrimmed", SettledUntrimmed),
        ("empty-query", Query),
        ("empty-overlooks-first", OverlooksFirst),
        ("empty-overlooks-last", OverlooksLast),
        ("empty-looks-at-first", LooksAtFirst),
        ("empty-looks-at-last", LooksAtLast),
        ("empty-looks-at-half", LooksAtHalf),
        ("empty-last-slot", LastSlot),
        ("empty-holder-off", HolderOff),
        ("empty-zero-value", ZeroValue),
        ("empty-same-value", SameValue),
        ("empty-trims-all", TrimsAll),
        ("empty-trims-read", TrimsRead),
    ];

    /// Those that a script from fresh tables shows.
    pub(super) fn names_shown() -> Vec<&'static str> {
        super::names(&WrongEmpty::ALL[SPENT..])
    }

    /// The call with this wrong rule, without the test of the tables.
    pub(crate) fn call(self, view: &mut View, call: Call) -> Answer {
        let number = match call {
            Call::Commit { number } => number,
            _ => return right(view, call),
        };
        let slot = match view.find(number) {
            Some(slot) => slot,
            None => return right(view, call),
        };
        if !view.is_writing(slot) {
            return self.reader(view, slot, call);
        }
        let is_empty = view.exclusives(slot) == 0;
        if view.awaited(slot).is_some() {
            return match self {
                SpentFirst if is_spent(view) => Answer::bare(code::CLOCK_SPENT),
                Waiting if is_empty => self.empty(view, slot, number),
                _ => right(view, call),
            };
        }
        match self.is_seen_writing(view, slot) {
            false => self.empty(view, slot, number),
            true if is_empty => stamped(view, number),
            true if self == NeverSpent && is_spent(view) => {
                view.txns[CLOCK] -= 1;
                right(view, call)
            }
            true => right(view, call),
        }
    }

    /// The commit of a query, or of one past its writing.
    fn reader(self, view: &mut View, slot: Slot, call: Call) -> Answer {
        let is_empty = view.exclusives(slot) == 0;
        let (clock, versions) = (view.clock().word(), *view.versions);
        let is_query = view.is_query(slot);
        let answer = right(view, call);
        match (self, is_query) {
            (Settled, false) if is_empty => Answer::numbered(clock),
            (SettledUntrimmed, false) if is_empty => {
                *view.versions = versions;
                answer
            }
            (Query, true) => Answer::numbered(clock),
            _ => answer,
        }
    }

    /// Whether it finds that this update wrote something.
    fn is_seen_writing(self, view: &View, slot: Slot) -> bool {
        let rows = || view.locks.chunks_exact(LOCK_ROW).enumerate();
        let is_own = |row: &[u64]| row[EXCLUSIVE] == slot.as_holder();
        let wrote = |like: &dyn Fn(usize) -> bool| rows().any(|(at, row)| is_own(row) && like(at));
        let value = |at: usize| view.locks[at * LOCK_ROW + WORKING];
        let newest =
            |at: usize| row::newest(as_row(&view.versions[at * VERSION_ROW..][..VERSION_ROW]));
        match self {
            NewStamp => true,
            SharedWrites => wrote(&|_| true) || shares(view, slot),
            BareWrites => wrote(&|_| true) || !shares(view, slot),
            OverlooksFirst => wrote(&|at| at != 0),
            OverlooksLast => wrote(&|at| at != ITEMS - 1),
            LooksAtFirst => wrote(&|at| at == 0),
            LooksAtLast => wrote(&|at| at == ITEMS - 1),
            LooksAtHalf => wrote(&|at| at < ITEMS / 2),
            LastSlot => wrote(&|_| slot.index() != SLOTS - 1),
            HolderOff => rows().any(|(_, row)| row[EXCLUSIVE] == slot.index() as u64),
            ZeroValue => wrote(&|at| value(at) != 0),
            SameValue => wrote(&|at| value(at) != newest(at)),
            _ => wrote(&|_| true),
        }
    }

    /// What it takes for an empty commit.
    fn empty(self, view: &mut View, slot: Slot, number: u64) -> Answer {
        if self == Spent && is_spent(view) {
            return Answer::bare(code::CLOCK_SPENT);
        }
        let (locks, is_bare) = (*view.locks, !shares(view, slot));
        let _ = view.abort(number);
        let clock = view.clock().word();
        let settled = Slot::all().filter(|slot| view.is_settled(*slot));
        let lowest = settled.map(|slot| view.start(slot).word()).min();
        let had = |at: usize| locks[at * LOCK_ROW + SHARED] >> slot.index() & 1 != 0;
        match self {
            MovesClock => view.txns[CLOCK] += u64::from(clock < LAST),
            AnswersZero => return Answer::granted(),
            AnswersNext => return Answer::numbered(clock + 1),
            AnswersBelow => return Answer::numbered(lowest.map_or(clock, |lowest| lowest - 1)),
            KeepsShared => *view.locks = locks,
            KeepsLastShared => {
                let last = (ITEMS - 1) * LOCK_ROW;
                view.locks[last..].copy_from_slice(&locks[last..]);
            }
            KeepsRow => view.txn_mut(slot)[NUMBER] = number,
            KeepsBareRow if is_bare => view.txn_mut(slot)[NUMBER] = number,
            TrimsAll => alone(view, |_| true),
            TrimsRead => alone(view, had),
            _ => {}
        }
        Answer::numbered(clock)
    }
}

fn is_spent(view: &View) -> bool {
    view.clock().next().is_none()
}

fn shares(view: &View, slot: Slot) -> bool {
    let mut rows = view.locks.chunks_exact(LOCK_ROW);
    rows.any(|row| row[SHARED] >> slot.index() & 1 != 0)
}

/// A commit with nothing written that takes a stamp.
fn stamped(view: &mut View, number: u64) -> Answer {
    let stamp = match view.clock().next() {
        Some(stamp) => stamp.word(),
        None => return Answer::bare(code::CLOCK_SPENT),
    };
    let _ = view.abort(number);
    view.txns[CLOCK] = stamp;
    Answer::numbered(stamp)
}

/// Of these rows the newest version alone is left.
fn alone(view: &mut View, is_one: impl Fn(usize) -> bool) {
    for (at, row) in view.rows_mut().enumerate() {
        if is_one(at) {
            row[COUNT] = 1;
            row[3..].fill(0);
        }
    }
}
