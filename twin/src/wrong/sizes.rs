//! Keepers that are wrong about how many slots and versions there are (request
//! E5), and right as long as there are few.

use super::settled::WrongSettled;
use super::settled_ends::end;
use super::{right, without_locks};
use crate::answer::{code, Answer};
use crate::ids::{Item, Slot, SlotSet};
use crate::keeper::Call;
use crate::sizes::*;
use crate::view::{Lock, View};

/// What there were before request E5.
pub(super) const FEW: usize = 16;

/// A wrong size, or a word that is too short for it.
#[derive(Clone, Copy, Debug, PartialEq, Eq)]
pub enum WrongSize {
    /// Code 7 comes where so many are live.
    Slots(usize),
    /// A row keeps so many versions at most, the newest ones.
    Places(usize),
    /// Readers in slots from 16 on keep no version.
    Readers,
    /// Shared locks of slots from this one on are not noted.
    Shared(usize),
    /// Those of slots from 16 on are noted as another slot's.
    SharedWraps,
    /// Nobody else sees what the last slot holds exclusively.
    LastHolder,
    /// A walk does not go on from slots from 16 on.
    CircleSlots,
    /// A walk has so many steps at most.
    CircleSteps(usize),
    /// Ranks go so far at most.
    Ranks(u64),
    /// Waiters in slots from 16 on never move in their line.
    Moves,
}

impl WrongSize {
    pub const ALL: [(&'static str, WrongSize); 15] = [
        ("slots-16", WrongSize::Slots(FEW)),
        ("slots-31", WrongSize::Slots(SLOTS - 1)),
        ("places-16", WrongSize::Places(FEW)),
        ("places-31", WrongSize::Places(PLACES - 1)),
        ("readers-16", WrongSize::Readers),
        ("shared-16", WrongSize::Shared(FEW)),
        ("shared-31", WrongSize::Shared(SLOTS - 1)),
        ("shared-wraps", WrongSize::SharedWraps),
        ("last-holder", WrongSize::LastHolder),
        ("circle-slots-16", WrongSize::CircleSlots),
        ("circle-steps-16", WrongSize::CircleSteps(FEW)),
        ("circle-steps-31", WrongSize::CircleSteps(SLOTS - 1)),
        ("ranks-16", WrongSize::Ranks(FEW as u64)),
        ("ranks-31", WrongSize::Ranks(SLOTS as u64 - 1)),
        ("moves-16", WrongSize::Moves),
    ];

    /// The call with this wrong size, without the test of the tables.
    pub(crate) fn call(self, view: &mut View, call: Call) -> Answer {
        match self {
            WrongSize::Slots(slots) => {
                let is_live = |slot: &Slot| view.txn(*slot)[NUMBER] != 0;
                match call {
                    Call::Update | Call::Query if Slot::all().filter(is_live).count() >= slots => {
                        Answer::bare(code::NO_SLOT)
                    }
                    _ => right(view, call),
                }
            }
            WrongSize::Places(places) => trimmed(view, call, SLOTS, places),
            WrongSize::Readers => trimmed(view, call, FEW, PLACES),
            WrongSize::Shared(slots) => {
                let answer = right(view, call);
                for row in view.locks.chunks_exact_mut(LOCK_ROW) {
                    row[SHARED] &= (1 << slots) - 1;
                }
                answer
            }
            WrongSize::SharedWraps => {
                let answer = right(view, call);
                for row in view.locks.chunks_exact_mut(LOCK_ROW) {
                    row[SHARED] = (row[SHARED] | row[SHARED] >> FEW) & ((1 << FEW) - 1);
                }
                answer
            }
            WrongSize::LastHolder => unseen(view, call),
            WrongSize::CircleSlots => {
                let few = Slot::all().take(FEW).fold(SlotSet::EMPTY, SlotSet::with);
                missed(view, call, |view, slot| comes_back(view, slot, few, SLOTS))
            }
            WrongSize::CircleSteps(steps) => {
                let all = Slot::all().fold(SlotSet::EMPTY, SlotSet::with);
                missed(view, call, |view, slot| comes_back(view, slot, all, steps))
            }
            WrongSize::Ranks(last) => {
                let answer = right(view, call);
                for row in view.txns[TXN_HEAD..].chunks_exact_mut(TXN_ROW) {
                    row[RANK] = row[RANK].min(last);
                }
                answer
            }
            WrongSize::Moves => {
                let before = *view.txns;
                let answer = right(view, call);
                for slot in Slot::all().skip(FEW) {
                    let rank = before[TXN_HEAD + slot.index() * TXN_ROW + RANK];
                    if rank > 0 && view.awaited(slot).is_some() {
                        view.txn_mut(slot)[RANK] = rank;
                    }
                }
                answer
            }
        }
    }
}

/// After an end each row keeps its newest version and those that a reader in one
/// of the first slots reads, and of these so many.
fn trimmed(view: &mut View, call: Call, readers: usize, places: usize) -> Answer {
    let number = match call {
        Call::Commit { number } | Call::Abort { number } => number,
        _ => return right(view, call),
    };
    let answer = match view.find(number) {
        Some(slot) if view.is_query(slot) => {
            view.txn_mut(slot).fill(0);
            Answer::granted()
        }
        Some(slot) if view.is_settled(slot) => {
            let commits = matches!(call, Call::Commit { .. });
            end(WrongSettled::TrimsHeld, view, slot, commits)
        }
        _ => right(view, call),
    };
    let reads = |slot: &Slot| view.is_query(*slot) || view.is_settled(*slot);
    let readers = Slot::all().take(readers).filter(reads);
    let starts: Vec<u64> = readers.map(|slot| view.start(slot).word()).collect();
    for row in view.rows_mut() {
        let used = row[1..].chunks(2).take(row[COUNT] as usize);
        let pairs: Vec<(u64, u64)> = used.map(|pair| (pair[0], pair[1])).collect();
        let read_by = |start: &u64| pairs.iter().find(|pair| pair.0 <= *start);
        let is_kept = |pair: &(u64, u64)| {
            let is_read = starts.iter().any(|start| read_by(start) == Some(pair));
            *pair == pairs[0] || is_read
        };
        let kept: Vec<(u64, u64)> = pairs.iter().copied().filter(is_kept).take(places).collect();
        row.fill(0);
        row[COUNT] = kept.len() as u64;
        for (words, pair) in row[1..].chunks_mut(2).zip(kept) {
            words.copy_from_slice(&[pair.0, pair.1]);
        }
    }
    answer
}

/// The call as if the last slot held nothing exclusively, unless it calls.
fn unseen(view: &mut View, call: Call) -> Answer {
    let last = SLOTS as u64;
    match call.number().and_then(|number| view.find(number)) {
        Some(slot) if slot.as_holder() == last => return right(view, call),
        _ => {}
    }
    without_locks(view, call, |holder| holder == last)
}

/// The right call, but of the circles only these are found; else the caller waits.
fn missed(view: &mut View, call: Call, is_found: impl Fn(&View, Slot) -> bool) -> Answer {
    let answer = right(view, call);
    let (number, item, lock) = match call {
        Call::Read { number, item } => (number, item, Lock::Shared),
        Call::Write { number, item, .. } => (number, item, Lock::Exclusive),
        _ => return answer,
    };
    match (answer.code, view.find(number), Item::new(item)) {
        (code::DEADLOCK, Some(slot), Some(item)) => {
            let is_new = view.awaited(slot).is_none();
            if is_new {
                view.step_in(slot, lock, item);
            }
            if !is_found(view, slot) {
                return Answer::bare(code::WAIT);
            }
            if is_new {
                view.step_out(slot);
            }
            answer
        }
        _ => answer,
    }
}

/// Whether a walk over these slots comes back in so many steps.
fn comes_back(view: &View, slot: Slot, over: SlotSet, steps: usize) -> bool {
    let mut reached = SlotSet::EMPTY.with(slot);
    for _ in 0..steps {
        let next = reached.into_iter().map(|slot| view.waits_for(slot));
        let further = next.fold(SlotSet::EMPTY, SlotSet::and);
        if further.contains(slot) {
            return true;
        }
        reached = reached.and(further.common(over));
    }
    false
}
