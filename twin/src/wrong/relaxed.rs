//! Wrong rules of relaxed queries (request E11).

use super::right;
use crate::answer::{code, Answer};
use crate::ids::{Item, Slot, SlotSet};
use crate::keeper::Call;
use crate::sizes::*;
use crate::view::{Holders, View};

/// A wrong rule. The first ones show only in the words of the tables.
#[derive(Clone, Copy, Debug, PartialEq, Eq)]
pub enum WrongRelaxed {
    /// Who waits to write what was read has not joined.
    WaitsOutside,
    /// A relaxed query's start is the clock.
    Start,
    /// Who holds what a query reads does not join,
    ReadOutside,
    /// or who writes what it has read,
    WritesOutside,
    /// or who reads from a member,
    FollowsNoRead,
    /// or who overwrites what a member wrote.
    FollowsNoWrite,
    /// Who would have closed a circle joins,
    DeadlockJoins,
    /// or whose quota is spent,
    QuotaJoins,
    /// or who reads what the query has read,
    ReadJoins,
    /// or who only shares what it reads,
    SharerJoins,
    /// or who holds it joins all sets.
    JoinsAll,
    /// A relaxed query reads the newest version,
    ReadsNewest,
    /// or the oldest there is,
    ReadsOldest,
    /// or what is being written,
    ReadsWorking,
    /// or waits for who writes it.
    WaitsForHolder,
    /// Its reads are not counted,
    Uncounted,
    /// or only the last item is known to be read,
    LastItem,
    /// or none above 31.
    FewItems,
    /// What a member commits is hidden from nobody,
    NothingHidden,
    /// or what it hides is not kept.
    NotKept,
    /// Its end leaves something hidden from its slot,
    EndHides,
    /// or leaves updates in its set,
    EndKeepsSet,
    /// or trims nothing.
    EndKeepsVersions,
    /// One may begin beside one past its writing,
    BeginsBeside,
    /// or an update may settle beside one.
    SettlesBeside,
    /// 13 comes before what else speaks against a begin,
    BeginFirst,
    /// or against a settle,
    SettleFirst,
    /// or only before the spent clock.
    SettleBeforeClock,
    /// A write of its own is 12,
    WriteIsPast,
    /// and so is a settle.
    SettleIsPast,
}

/// How many show only in the words.
const HIDDEN: usize = 2;

use WrongRelaxed::*;

impl WrongRelaxed {
    pub const ALL: [(&'static str, WrongRelaxed); 30] = [
        ("relaxed-waits-outside", WaitsOutside),
        ("relaxed-start", Start),
        ("relaxed-read-outside", ReadOutside),
        ("relaxed-writes-outside", WritesOutside),
        ("relaxed-follows-no-read", FollowsNoRead),
        ("relaxed-follows-no-write", FollowsNoWrite),
        ("relaxed-deadlock-joins", DeadlockJoins),
        ("relaxed-quota-joins", QuotaJoins),
        ("relaxed-read-joins", ReadJoins),
        ("relaxed-sharer-joins", SharerJoins),
        ("relaxed-joins-all", JoinsAll),
        ("relaxed-reads-newest", ReadsNewest),
        ("relaxed-reads-oldest", ReadsOldest),
        ("relaxed-reads-working", ReadsWorking),
        ("relaxed-waits-for-holder", WaitsForHolder),
        ("relaxed-uncounted", Uncounted),
        ("relaxed-last-item", LastItem),
        ("relaxed-few-items", FewItems),
        ("relaxed-nothing-hidden", NothingHidden),
        ("relaxed-not-kept", NotKept),
        ("relaxed-end-hides", EndHides),
        ("relaxed-end-keeps-set", EndKeepsSet),
        ("relaxed-end-keeps-versions", EndKeepsVersions),
        ("relaxed-begins-beside", BeginsBeside),
        ("relaxed-settles-beside", SettlesBeside),
        ("relaxed-begin-first", BeginFirst),
        ("relaxed-settle-first", SettleFirst),
        ("relaxed-settle-before-clock", SettleBeforeClock),
        ("relaxed-write-is-past", WriteIsPast),
        ("relaxed-settle-is-past", SettleIsPast),
    ];

    /// Those that a script from fresh tables shows.
    pub(super) fn names_shown() -> Vec<&'static str> {
        let mut names = super::names(&WrongRelaxed::ALL[HIDDEN..]);
        names.retain(|name| *name != "relaxed-settle-before-clock");
        names
    }

    /// The call with this wrong rule, without the test of the tables.
    pub(crate) fn call(self, view: &mut View, call: Call) -> Answer {
        let slot = call.number().and_then(|number| view.find(number));
        match (call, slot) {
            (Call::Relaxed, _) => self.begin(view, call),
            (Call::Settle { .. }, _) => self.settle(view, slot, call),
            (Call::Read { item, .. }, Some(slot)) if view.is_relaxed(slot) => {
                self.read(view, slot, item, call)
            }
            (Call::Write { item, .. }, Some(slot)) if view.is_relaxed(slot) => match self {
                WriteIsPast if Item::new(item).is_some() => Answer::bare(code::PAST_WRITING),
                _ => right(view, call),
            },
            (Call::Read { item, .. } | Call::Write { item, .. }, Some(slot)) => {
                self.asked(view, slot, item, call)
            }
            (Call::Commit { .. } | Call::Abort { .. }, Some(slot)) => self.end(view, slot, call),
            _ => right(view, call),
        }
    }

    fn begin(self, view: &mut View, call: Call) -> Answer {
        let is_beside = view.has_any(SETTLED);
        match self {
            BeginFirst if is_beside => return Answer::bare(code::NOT_BESIDE),
            _ => {}
        }
        let clock = view.clock().word();
        let mut answer = right(view, call);
        if let (BeginsBeside, code::NOT_BESIDE, Some(slot)) = (self, answer.code, view.free_slot())
        {
            answer = view.take_slot(slot, RELAXED);
        }
        if let (Start, Some(slot)) = (self, view.find(answer.number)) {
            view.txn_mut(slot)[START] = clock;
        }
        answer
    }

    fn settle(self, view: &mut View, slot: Option<Slot>, call: Call) -> Answer {
        let is_beside = view.has_any(RELAXED);
        let is_own = slot.map_or(false, |slot| view.is_relaxed(slot));
        let answer = right(view, call);
        match (self, answer.code) {
            (SettleFirst, _) if is_beside => Answer::bare(code::NOT_BESIDE),
            (SettleBeforeClock, code::CLOCK_SPENT) if is_beside => Answer::bare(code::NOT_BESIDE),
            (SettleIsPast, _) if is_own => Answer::bare(code::PAST_WRITING),
            (SettlesBeside, code::NOT_BESIDE) => {
                let kinds: Vec<u64> = Slot::all().map(|slot| view.txn(slot)[KIND]).collect();
                for slot in Slot::all().filter(|slot| kinds[slot.index()] == RELAXED) {
                    view.txn_mut(slot)[KIND] = QUERY;
                }
                let answer = right(view, call);
                for slot in Slot::all().filter(|slot| kinds[slot.index()] == RELAXED) {
                    view.txn_mut(slot)[KIND] = RELAXED;
                }
                answer
            }
            _ => answer,
        }
    }

    /// A relaxed query reads.
    fn read(self, view: &mut View, slot: Slot, item: u64, call: Call) -> Answer {
        let known = match Item::new(item) {
            Some(known) => known,
            None => return right(view, call),
        };
        let Holders { shared, exclusive } = Holders::of(view.lock(known));
        if self == WaitsForHolder && !exclusive.is_empty() {
            return Answer::bare(code::WAIT);
        }
        let before = *view.txns;
        let mut answer = right(view, call);
        let row = *view.row(known);
        let at = TXN_HEAD + slot.index() * TXN_ROW;
        match self {
            ReadOutside | JoinsAll => {
                for holder in exclusive {
                    let place = TXN_HEAD + holder.index() * TXN_ROW + LATER_FOR;
                    view.txns[place] = match self {
                        ReadOutside => before[place],
                        _ => relaxed(view).bits(),
                    };
                }
            }
            SharerJoins => {
                for sharer in shared {
                    view.join(sharer, SlotSet::EMPTY.with(slot));
                }
            }
            ReadsNewest => answer = Answer::found(row[pair(0) + 1], 1),
            ReadsOldest => {
                let count = row[COUNT];
                answer = Answer::found(row[pair(count as usize - 1) + 1], count);
            }
            ReadsWorking if !exclusive.is_empty() => {
                answer = Answer::found(view.lock(known)[WORKING], answer.looked);
            }
            Uncounted => view.txns[at + READS..=at + WEIGHT]
                .copy_from_slice(&before[at + READS..=at + WEIGHT]),
            LastItem => view.txns[at + ITEMS_READ] = 1 << item,
            FewItems if item > 31 => view.txns[at + ITEMS_READ] = before[at + ITEMS_READ],
            _ => {}
        }
        if let ReadsNewest | ReadsOldest = self {
            view.txns[at + WEIGHT] = LAST.min(before[at + WEIGHT] + answer.looked);
        }
        answer
    }

    /// Another reads or writes.
    fn asked(self, view: &mut View, slot: Slot, item: u64, call: Call) -> Answer {
        let known = match (Item::new(item), view.is_writing(slot)) {
            (Some(known), true) => known,
            _ => return right(view, call),
        };
        let (seen, hidden) = (view.seen(known), view.hidden(known));
        let before = SlotSet::of_bits(view.txn(slot)[LATER_FOR]);
        let is_further = view.is_further(slot, known);
        let is_write = matches!(call, Call::Write { .. });
        let answer = right(view, call);
        let is_granted = answer.code == code::GRANTED;
        let now = match (self, answer.code, is_write) {
            (WaitsOutside, code::WAIT, true) => before,
            (WritesOutside, code::WAIT, true) => before,
            (WritesOutside, code::GRANTED, true) if is_further => before.and(hidden),
            (WritesOutside, code::GRANTED, true) => before,
            (FollowsNoRead, code::GRANTED, false) => before,
            (FollowsNoWrite, code::GRANTED, true) => before.and(seen),
            (DeadlockJoins, code::DEADLOCK, true) => before.and(seen),
            (QuotaJoins, code::QUOTA_SPENT, true) => before.and(seen),
            (ReadJoins, code::GRANTED, false) => before.and(seen).and(hidden),
            (JoinsAll, code::GRANTED, true) if is_granted && !seen.is_empty() => relaxed(view),
            _ => return answer,
        };
        view.txn_mut(slot)[LATER_FOR] = now.bits();
        answer
    }

    /// Somebody ends.
    fn end(self, view: &mut View, slot: Slot, call: Call) -> Answer {
        let was_relaxed = view.is_relaxed(slot);
        let wrote = view.exclusives(slot) > 0 && view.is_writing(slot);
        match self {
            NothingHidden if wrote => view.txn_mut(slot)[LATER_FOR] = 0,
            _ => {}
        }
        let (before, versions) = (*view.txns, *view.versions);
        let answer = right(view, call);
        match self {
            NotKept if wrote => {
                // The row as if nothing were hidden: the newest alone, but for starts.
                let starts = view.starts();
                for row in view.rows_mut() {
                    if row[hidden(0)] != 0 && starts.is_none() {
                        let newest = [1, row[pair(0)], row[pair(0) + 1]];
                        row.fill(0);
                        row[..3].copy_from_slice(&newest);
                    }
                }
            }
            EndHides if was_relaxed => {
                for (row, old) in view.rows_mut().zip(versions.chunks_exact(VERSION_ROW)) {
                    if row[COUNT] == old[COUNT] {
                        row[hidden(0)..].copy_from_slice(&old[hidden(0)..]);
                    }
                }
            }
            EndKeepsSet if was_relaxed => {
                for other in Slot::all().filter(|other| *other != slot) {
                    let place = TXN_HEAD + other.index() * TXN_ROW + LATER_FOR;
                    view.txns[place] = before[place];
                }
            }
            EndKeepsVersions if was_relaxed => {
                *view.versions = versions;
                for row in view.rows_mut() {
                    for place in 0..PLACES {
                        let from = SlotSet::of_bits(row[hidden(place)]);
                        row[hidden(place)] = from.without(slot).bits();
                    }
                }
            }
            _ => {}
        }
        answer
    }
}

/// All relaxed queries.
fn relaxed(view: &View) -> SlotSet {
    let those = Slot::all().filter(|slot| view.is_relaxed(*slot));
    those.fold(SlotSet::EMPTY, SlotSet::with)
}
