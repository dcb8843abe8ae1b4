//! Wrong rules of who stands in line, and where.

use super::right;
use crate::answer::{code, Answer};
use crate::calls::Access;
use crate::ids::{Item, Slot, SlotSet};
use crate::keeper::Call;
use crate::sizes::*;
use crate::view::{Holders, Lock, View};

/// A wrong rule of lines.
#[derive(Clone, Copy, Debug, PartialEq, Eq)]
pub enum WrongWait {
    /// Nobody queues: earlier waiters stand against nobody.
    Overtake,
    /// A writer overtakes waiting readers.
    OvertakeReaders,
    /// A reader waits for earlier readers too.
    ReadersQueue,
    /// Later waiters stand against a request too.
    LaterOnes,
    /// An earlier waiter that itself waits for nobody is overtaken.
    OvertakeStale,
    /// A call that needs no further lock asks the line too.
    NoLockQueues,
    /// An exchanger goes to the end of the line.
    ExchangerLast,
    /// It goes ahead, but who is behind it does not move.
    NobodyMoves,
    /// Ranks behind one that is aborted stay.
    GapAfterAbort,
    /// Ranks behind one that is granted stay.
    GapAfterGrant,
    /// Who asks again goes to the end.
    RankAnew,
    /// Circles are judged on the graph before the wait.
    CircleBefore,
    /// Only waits for holders count for circles.
    CircleOfHolders,
}

impl WrongWait {
    pub const ALL: [(&'static str, WrongWait); 13] = [
        ("overtake", WrongWait::Overtake),
        ("overtake-readers", WrongWait::OvertakeReaders),
        ("readers-queue", WrongWait::ReadersQueue),
        ("later-ones", WrongWait::LaterOnes),
        ("overtake-stale", WrongWait::OvertakeStale),
        ("no-lock-queues", WrongWait::NoLockQueues),
        ("exchanger-last", WrongWait::ExchangerLast),
        ("nobody-moves", WrongWait::NobodyMoves),
        ("gap-after-abort", WrongWait::GapAfterAbort),
        ("gap-after-grant", WrongWait::GapAfterGrant),
        ("rank-anew", WrongWait::RankAnew),
        ("circle-before", WrongWait::CircleBefore),
        ("circle-of-holders", WrongWait::CircleOfHolders),
    ];

    /// The call with this wrong rule, without the test of the tables.
    pub(crate) fn call(self, view: &mut View, call: Call) -> Answer {
        let before = *view.txns;
        let (slot, item, access) = match asked(view, call) {
            Some(asked) => asked,
            None => {
                let answer = right(view, call);
                if let (WrongWait::GapAfterAbort, Call::Abort { .. }) = (self, call) {
                    put_back_ranks(view, &before);
                }
                return answer;
            }
        };
        let lock = access.wants();
        let needs = self == WrongWait::NoLockQueues || view.needs(slot, item, lock);
        let against = self.against(view, slot, lock, item);
        if needs && !against.is_empty() {
            return self.conflict(view, slot, lock, item, against);
        }
        let answer = view.grant(slot, item, access);
        if self == WrongWait::GapAfterGrant {
            put_back_ranks(view, &before);
        }
        answer
    }

    fn against(self, view: &View, slot: Slot, lock: Lock, item: Item) -> SlotSet {
        let line = view.line(item).without(slot);
        let place = match self {
            WrongWait::LaterOnes => u64::MAX,
            WrongWait::ExchangerLast if view.awaited(slot).is_none() => u64::MAX,
            _ => view.place(slot, item),
        };
        let stands_against = |other: &Slot| {
            let wanted = match view.awaited(*other) {
                Some((wanted, _)) if view.rank(*other) < place => wanted,
                _ => return false,
            };
            match self {
                WrongWait::Overtake => false,
                WrongWait::OvertakeReaders => wanted == Lock::Exclusive,
                WrongWait::ReadersQueue => true,
                WrongWait::OvertakeStale => {
                    lock.conflicts(wanted) && !view.waits_for(*other).is_empty()
                }
                _ => lock.conflicts(wanted),
            }
        };
        let holders = Holders::of(view.lock(item)).against(slot, lock);
        let earlier = line.into_iter().filter(stands_against);
        earlier.fold(holders, SlotSet::with)
    }

    fn conflict(
        self,
        view: &mut View,
        slot: Slot,
        lock: Lock,
        item: Item,
        against: SlotSet,
    ) -> Answer {
        let before = *view.txns;
        let closed_before = view.walk_reaches(against, slot);
        if self == WrongWait::RankAnew {
            view.step_out(slot);
        }
        if view.awaited(slot).is_none() {
            view.step_in(slot, lock, item);
            let last = view.line(item).into_iter().count() as u64;
            match self {
                WrongWait::ExchangerLast => {
                    put_back_ranks(view, &before);
                    view.txn_mut(slot)[RANK] = last;
                }
                WrongWait::NobodyMoves => {
                    let rank = view.rank(slot);
                    put_back_ranks(view, &before);
                    view.txn_mut(slot)[RANK] = rank;
                }
                _ => {}
            }
        }
        let closes = match self {
            WrongWait::CircleBefore => closed_before,
            WrongWait::Overtake | WrongWait::CircleOfHolders => walks_back(view, slot),
            _ => view.walk_reaches(view.waits_for(slot), slot),
        };
        if closes {
            *view.txns = before;
            return Answer::bare(code::DEADLOCK);
        }
        Answer::bare(code::WAIT)
    }
}

/// Who asks for what, if the locks and the line are to decide.
fn asked(view: &View, call: Call) -> Option<(Slot, Item, Access)> {
    let (number, item, access) = match call {
        Call::Read { number, item } => (number, item, Access::Read),
        Call::Write {
            number,
            item,
            value,
        } => (number, item, Access::Write(value)),
        _ => return None,
    };
    let (slot, item) = (view.find(number)?, Item::new(item)?);
    let lock = access.wants();
    let may_ask = match view.awaited(slot) {
        Some(awaited) => awaited == (lock, item),
        None => view.is_writing(slot),
    };
    let is_further = lock == Lock::Exclusive && view.is_further(slot, item);
    let is_refused = is_further && view.exclusives(slot) >= QUOTA;
    match may_ask && !is_refused {
        true => Some((slot, item, access)),
        false => None,
    }
}

/// Who still waits gets the rank that it had.
fn put_back_ranks(view: &mut View, before: &[u64; TXN_WORDS]) {
    for slot in Slot::all() {
        if view.awaited(slot).is_some() {
            view.txn_mut(slot)[RANK] = before[TXN_HEAD + slot.index() * TXN_ROW + RANK];
        }
    }
}

/// Whether a walk over waits for holders leads from a slot back to it.
fn walks_back(view: &View, slot: Slot) -> bool {
    let waits_for = |slot: Slot| match view.awaited(slot) {
        Some((lock, item)) => Holders::of(view.lock(item)).against(slot, lock),
        None => SlotSet::EMPTY,
    };
    let mut reached = waits_for(slot);
    loop {
        let next = |all: SlotSet, slot: Slot| all.and(waits_for(slot));
        let further = reached.into_iter().fold(reached, next);
        if further == reached {
            return reached.contains(slot);
        }
        reached = further;
    }
}
