//! Wrong rules of those past their writing (request E6).

use super::settled_ends::{end, forgetful};
use super::{right, without_locks};
use crate::answer::{code, Answer};
use crate::ids::{Item, Slot, SlotSet};
use crate::keeper::Call;
use crate::row;
use crate::sizes::*;
use crate::view::View;

/// A wrong rule. The first ones show only where the clock is spent.
#[derive(Clone, Copy, Debug, PartialEq, Eq)]
pub enum WrongSettled {
    /// The commit of one past its writing is answered 9.
    CommitSpent,
    /// A settle asks for the clock before all else,
    ClockFirst,
    /// or before "still waiting".
    ClockBeforeWait,
    /// An end of one past its writing trims only the rows that it held,
    TrimsHeld,
    /// or none,
    TrimsNone,
    /// or an abort none.
    AbortTrimsNone,
    /// Its commit keeps what was newest if anybody began since, also who began
    /// after the settle.
    KeepsBehind,
    /// It takes a new stamp,
    NewStamp,
    /// or puts its versions under the present clock,
    StampsClock,
    /// or answers the present clock.
    AnswersClock,
    /// Readers wait for larger stamps too,
    WaitsLarger,
    /// or not for an equal one,
    WaitsSmaller,
    /// or for nobody,
    NoWait,
    /// or for everyone who holds the item exclusively.
    WaitsWriting,
    /// The wait of a reader is noted, with a rank.
    NotesWait,
    /// A settle leaves the shared locks,
    KeepsShared,
    /// or the kind,
    KeepsKind,
    /// or the clock.
    KeepsClock,
    /// With nothing written it takes no stamp.
    IdleSettle,
    /// It may come twice.
    Twice,
    /// A query that settles is past its writing.
    QueryPast,
    /// Code 11 comes before 12,
    QuotaFirst,
    /// and 12 before 4.
    BeforeItem,
    /// One past its writing may take what nobody holds,
    WritesFree,
    /// or write nothing any more.
    WritesNothing,
    /// It reads the newest values,
    ReadsNewest,
    /// and of its own items what was committed.
    ReadsCommitted,
    /// It is no reader: rows keep nothing for it.
    NoReader,
    /// A query begins below every stamp of one past its writing.
    BeginsBelow,
    /// What one past its writing holds is in no update's way.
    Unseen,
}

use WrongSettled::*;

/// How many show only where the clock is spent.
const SPENT: usize = 3;

impl WrongSettled {
    pub const ALL: [(&'static str, WrongSettled); 30] = [
        ("settled-commit-spent", CommitSpent),
        ("settle-clock-first", ClockFirst),
        ("settle-clock-before-wait", ClockBeforeWait),
        ("settled-trims-held", TrimsHeld),
        ("settled-trims-none", TrimsNone),
        ("settled-abort-trims-none", AbortTrimsNone),
        ("settled-keeps-behind", KeepsBehind),
        ("settled-new-stamp", NewStamp),
        ("settled-stamps-clock", StampsClock),
        ("settled-answers-clock", AnswersClock),
        ("settled-waits-larger", WaitsLarger),
        ("settled-waits-smaller", WaitsSmaller),
        ("settled-no-wait", NoWait),
        ("settled-waits-writing", WaitsWriting),
        ("settled-notes-wait", NotesWait),
        ("settle-keeps-shared", KeepsShared),
        ("settle-keeps-kind", KeepsKind),
        ("settle-keeps-clock", KeepsClock),
        ("settle-idle", IdleSettle),
        ("settle-twice", Twice),
        ("settle-query-past", QueryPast),
        ("settled-quota-first", QuotaFirst),
        ("settled-before-item", BeforeItem),
        ("settled-writes-free", WritesFree),
        ("settled-writes-nothing", WritesNothing),
        ("settled-reads-newest", ReadsNewest),
        ("settled-reads-committed", ReadsCommitted),
        ("settled-no-reader", NoReader),
        ("settled-begins-below", BeginsBelow),
        ("settled-unseen", Unseen),
    ];

    /// Those that a script from fresh tables shows.
    pub(super) fn names_shown() -> Vec<&'static str> {
        super::names(&WrongSettled::ALL[SPENT..])
    }

    /// The call with this wrong rule, without the test of the tables.
    pub(crate) fn call(self, view: &mut View, call: Call) -> Answer {
        let caller = call.number().and_then(|number| view.find(number));
        match (call, caller) {
            (Call::Query, _) if self == BeginsBelow => begins_below(view),
            (Call::Settle { .. }, Some(slot)) => self.settle(view, slot, call),
            (Call::Commit { .. } | Call::Abort { .. }, Some(_)) if self == NoReader => {
                forgetful(view, call)
            }
            (Call::Commit { .. }, Some(slot)) if view.is_settled(slot) => {
                end(self, view, slot, true)
            }
            (Call::Abort { .. }, Some(slot)) if view.is_settled(slot) => {
                end(self, view, slot, false)
            }
            (Call::Read { item, .. }, Some(slot)) if !view.is_writing(slot) => {
                match Item::new(item) {
                    Some(item) => self.read(view, slot, item, call),
                    None => right(view, call),
                }
            }
            (Call::Write { item, value, .. }, Some(slot)) if view.is_settled(slot) => {
                match Item::new(item) {
                    Some(item) => self.write(view, slot, item, value, call),
                    None if self == BeforeItem => Answer::bare(code::PAST_WRITING),
                    None => right(view, call),
                }
            }
            (Call::Read { .. } | Call::Write { .. }, Some(_)) if self == Unseen => {
                unseen(view, call)
            }
            _ => right(view, call),
        }
    }

    fn settle(self, view: &mut View, slot: Slot, call: Call) -> Answer {
        let is_spent = view.clock().next().is_none();
        let before = *view.locks;
        match self {
            ClockFirst if is_spent => return Answer::bare(code::CLOCK_SPENT),
            ClockBeforeWait if is_spent && view.is_writing(slot) => {
                return Answer::bare(code::CLOCK_SPENT);
            }
            Twice if view.is_settled(slot) => view.txn_mut(slot)[KIND] = UPDATE,
            QueryPast if view.is_query(slot) => return Answer::bare(code::PAST_WRITING),
            _ => {}
        }
        let answer = right(view, call);
        if answer.code != code::GRANTED {
            return answer;
        }
        match self {
            KeepsShared => *view.locks = before,
            KeepsKind => view.txn_mut(slot)[KIND] = UPDATE,
            KeepsClock => view.txns[CLOCK] -= 1,
            IdleSettle if view.exclusives(slot) == 0 => {
                view.txns[CLOCK] -= 1;
                let clock = view.clock().word();
                view.txn_mut(slot)[START] = clock;
                return Answer::numbered(clock);
            }
            _ => {}
        }
        answer
    }

    fn read(self, view: &mut View, slot: Slot, item: Item, call: Call) -> Answer {
        let holder = view.exclusive_holder(item);
        let is_own = holder == Some(slot);
        let by_start = |view: &View| {
            let (value, place) = row::read_at(view.row(item), view.start(slot));
            Answer::found(value, place)
        };
        let other = holder.filter(|holder| *holder != slot);
        let past = other.filter(|holder| view.is_settled(*holder));
        match (self, past) {
            (WaitsLarger, Some(_)) => Answer::bare(code::WAIT),
            (WaitsSmaller, Some(holder)) if view.start(holder) == view.start(slot) => {
                by_start(view)
            }
            (NoWait, Some(_)) => by_start(view),
            (WaitsWriting, None) if other.is_some() => Answer::bare(code::WAIT),
            (ReadsNewest, None) if view.is_settled(slot) && !is_own => {
                Answer::found(row::newest(view.row(item)), 1)
            }
            (ReadsCommitted, None) if is_own => by_start(view),
            _ => {
                let answer = right(view, call);
                if self == NotesWait && answer.code == code::WAIT {
                    let rank = 1 + view.line(item).into_iter().count() as u64;
                    let awaited = [AWAITS_SHARED, item.word(), rank];
                    view.txn_mut(slot)[AWAITED_LOCK..=RANK].copy_from_slice(&awaited);
                }
                answer
            }
        }
    }

    fn write(self, view: &mut View, slot: Slot, item: Item, value: u64, call: Call) -> Answer {
        let holder = view.exclusive_holder(item);
        let is_own = holder == Some(slot);
        match self {
            QuotaFirst if !is_own && view.exclusives(slot) >= QUOTA => {
                Answer::bare(code::QUOTA_SPENT)
            }
            WritesNothing if is_own => Answer::bare(code::PAST_WRITING),
            WritesFree if holder.is_none() && view.lock(item)[SHARED] == 0 => {
                let words = [slot.as_holder(), value];
                view.lock_mut(item)[EXCLUSIVE..].copy_from_slice(&words);
                Answer::granted()
            }
            _ => right(view, call),
        }
    }
}

/// A query whose start is below the stamps of all that are past their writing.
fn begins_below(view: &mut View) -> Answer {
    let answer = right(view, Call::Query);
    if let Some(slot) = view.find(answer.number) {
        let settled = Slot::all().filter(|slot| view.is_settled(*slot));
        let lowest = settled.map(|slot| view.start(slot).word()).min();
        if let Some(lowest) = lowest {
            view.txn_mut(slot)[START] = lowest - 1;
        }
    }
    answer
}

/// The call of an update as if nobody past its writing held anything.
fn unseen(view: &mut View, call: Call) -> Answer {
    let settled = Slot::all().filter(|slot| view.is_settled(*slot));
    let settled = settled.fold(SlotSet::EMPTY, SlotSet::with);
    without_locks(view, call, |holder| {
        let holder = SlotSet::of_holder(holder);
        !holder.is_empty() && holder.is_within(settled)
    })
}
