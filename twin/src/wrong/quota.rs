//! Wrong rules of how many items an update may hold exclusively.

use super::right;
use crate::answer::{code, Answer};
use crate::calls::Access;
use crate::ids::{Item, Slot, SlotSet};
use crate::keeper::Call;
use crate::sizes::*;
use crate::view::{Holders, Lock, View};

/// A wrong rule of code 11.
#[derive(Clone, Copy, Debug, PartialEq, Eq)]
pub enum WrongQuota {
    /// It comes after the conflict, so a full update may await an exclusive lock.
    AfterConflict,
    /// It comes before "still waiting".
    BeforeWaiting,
    /// It comes before "unknown item".
    BeforeItem,
    /// A 33rd item is granted.
    OneMore,
    /// A 32nd item is refused.
    OneLess,
    /// Shared locks count.
    Shared,
    /// A write of an item that the update holds exclusively is refused too.
    Rewrite,
    /// An exchange of the update's own shared lock is granted.
    Exchange,
    /// A read that would take a shared lock is refused too.
    Read,
}

impl WrongQuota {
    pub const ALL: [(&'static str, WrongQuota); 9] = [
        ("quota-after-conflict", WrongQuota::AfterConflict),
        ("quota-before-waiting", WrongQuota::BeforeWaiting),
        ("quota-before-item", WrongQuota::BeforeItem),
        ("quota-33", WrongQuota::OneMore),
        ("quota-31", WrongQuota::OneLess),
        ("quota-shared", WrongQuota::Shared),
        ("quota-rewrite", WrongQuota::Rewrite),
        ("quota-exchange", WrongQuota::Exchange),
        ("quota-read", WrongQuota::Read),
    ];

    /// The call with this wrong rule, without the test of the tables.
    pub(crate) fn call(self, view: &mut View, call: Call) -> Answer {
        let (number, item, access) = match call {
            Call::Read { number, item } => (number, item, Access::Read),
            Call::Write {
                number,
                item,
                value,
            } => (number, item, Access::Write(value)),
            _ => return right(view, call),
        };
        let slot = match view.find(number) {
            Some(slot) if view.is_writing(slot) => slot,
            _ => return right(view, call),
        };
        let lock = access.wants();
        let is_full = view.exclusives(slot) >= QUOTA;
        let refused = Answer::bare(code::QUOTA_SPENT);
        let item = match Item::new(item) {
            Some(item) => item,
            None if self == WrongQuota::BeforeItem && is_full && lock == Lock::Exclusive => {
                return refused;
            }
            None => return right(view, call),
        };
        let is_early = self == WrongQuota::BeforeWaiting;
        let may_ask = match view.awaited(slot) {
            Some(awaited) => awaited == (lock, item),
            None => true,
        };
        if (may_ask || is_early) && self.refuses(view, slot, item, lock) {
            refused
        } else if may_ask {
            view.ask(slot, item, access)
        } else {
            right(view, call)
        }
    }

    fn refuses(self, view: &View, slot: Slot, item: Item, lock: Lock) -> bool {
        let held = view.exclusives(slot);
        let holders = Holders::of(view.lock(item));
        let is_write = lock == Lock::Exclusive;
        let is_further = is_write && view.is_further(slot, item);
        match self {
            WrongQuota::AfterConflict => {
                is_further && held >= QUOTA && view.against(slot, lock, item).is_empty()
            }
            WrongQuota::BeforeWaiting | WrongQuota::BeforeItem => is_further && held >= QUOTA,
            WrongQuota::OneMore => is_further && held > QUOTA,
            WrongQuota::OneLess => is_further && held + 1 >= QUOTA,
            WrongQuota::Shared => is_further && held + shares(view, slot) >= QUOTA,
            WrongQuota::Rewrite => is_write && held >= QUOTA,
            WrongQuota::Exchange => is_further && held >= QUOTA && holders.held_by(slot).is_none(),
            WrongQuota::Read => {
                let takes = is_further || holders.held_by(slot).is_none();
                takes && held >= QUOTA
            }
        }
    }
}

/// How many items a slot holds shared.
fn shares(view: &View, slot: Slot) -> usize {
    let rows = view.locks.chunks_exact(LOCK_ROW);
    let is_held = |row: &&[u64]| SlotSet::of_bits(row[SHARED]).contains(slot);
    rows.filter(is_held).count()
}
