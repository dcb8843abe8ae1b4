//! What occurred at the limit of 32 items, counted.

use super::scene::{Held, Scene, Txn};
use crate::answer::{code, Answer};
use crate::keeper::Call;
use crate::sizes::*;

#[derive(Clone, Copy)]
enum Event {
    MadeFull,
    RefusedFree,
    RefusedExchange,
    RefusedConflict,
    RefusedCircle,
    RefusedBesideFull,
    Rewritten,
    Read,
    WaitsShared,
    WaitsExclusive,
    StillWaiting,
    UnknownItem,
    Committed,
    Aborted,
    TakenOver,
}

/// What the events are printed as, in their order.
const EVENTS: [&str; 15] = [
    "writes of the 32nd item",
    "further writes refused, item free",
    "further writes refused, own shared lock",
    "further writes refused, conflict",
    "further writes refused, circle",
    "refused beside another full job",
    "rewrites with 32",
    "reads with 32",
    "waits for shared with 32",
    "waits for exclusive with 31",
    "still waiting with 32, for a write",
    "unknown item with 32, for a write",
    "commits of 32",
    "aborts of 32",
    "items of an ended full job written",
];

/// What these events need of the state before a call.
#[derive(Clone, Copy)]
pub struct Standing {
    /// The items that the caller holds exclusively, bit i for item i.
    written: u64,
    /// How it holds the item of the call.
    held: Held,
    /// Whether others stand against its write of that item, and whether a
    /// circle would close.
    conflict: bool,
    circle: bool,
    /// Whether another update is full.
    beside_full: bool,
}

impl Standing {
    /// Of an update that makes this call, on an item that it holds so.
    pub fn of(scene: &Scene, txn: &Txn, call: Call, held: Held) -> Standing {
        let full = |other: &Txn| other.slot != txn.slot && scene.exclusives(other) == QUOTA;
        let mut standing = Standing {
            written: scene.written(txn),
            held,
            conflict: false,
            circle: false,
            beside_full: false,
        };
        match call {
            Call::Write { item, .. } if standing.is_full() && item < ITEMS as u64 => {
                let against = scene.against(txn, true, item);
                standing.conflict = against != 0;
                standing.circle = scene.circle(txn, true, item).is_some();
                standing.beside_full = scene.count(full) > 0;
            }
            _ => {}
        }
        standing
    }

    fn exclusives(&self) -> usize {
        self.written.count_ones() as usize
    }

    fn is_full(&self) -> bool {
        self.exclusives() == QUOTA
    }
}

/// The counts.
#[derive(Default)]
pub struct Counts {
    events: [u64; EVENTS.len()],
    /// Items that a full job wrote before it ended, and nobody since.
    left_behind: u64,
}

impl Counts {
    /// What an earlier script left behind is gone.
    pub fn new_script(&mut self) {
        self.left_behind = 0;
    }

    fn event(&mut self, event: Event) {
        self.events[event as usize] += 1;
    }

    /// A call of an update was answered.
    pub fn see(&mut self, call: Call, before: Standing, answer: Answer) {
        let would_be = before.exclusives() + 1;
        let event = match (call, answer.code) {
            (Call::Write { .. }, code::QUOTA_SPENT) => {
                if before.beside_full {
                    self.event(Event::RefusedBesideFull);
                }
                match before.held {
                    _ if before.circle => Event::RefusedCircle,
                    _ if before.conflict => Event::RefusedConflict,
                    Held::Shared => Event::RefusedExchange,
                    _ => Event::RefusedFree,
                }
            }
            (Call::Write { item, .. }, code::GRANTED) => {
                if self.left_behind >> item & 1 != 0 {
                    self.left_behind &= !(1 << item);
                    self.event(Event::TakenOver);
                }
                match before.held {
                    Held::Exclusive if before.is_full() => Event::Rewritten,
                    Held::Nothing | Held::Shared if would_be == QUOTA => Event::MadeFull,
                    _ => return,
                }
            }
            (Call::Write { .. }, code::WAIT) if would_be == QUOTA => Event::WaitsExclusive,
            _ if !before.is_full() => return,
            (Call::Write { .. }, code::STILL_WAITING) => Event::StillWaiting,
            (Call::Write { .. }, code::UNKNOWN_ITEM) => Event::UnknownItem,
            (Call::Read { .. }, code::GRANTED) => Event::Read,
            (Call::Read { .. }, code::WAIT) => Event::WaitsShared,
            (Call::Commit { .. }, code::GRANTED) => {
                self.left_behind |= before.written;
                Event::Committed
            }
            (Call::Abort { .. }, code::GRANTED) => {
                self.left_behind |= before.written;
                Event::Aborted
            }
            _ => return,
        };
        self.event(event);
    }

    /// Each event's name, and how often it came.
    pub fn each(&self) -> impl Iterator<Item = (&'static str, u64)> + '_ {
        EVENTS.into_iter().zip(self.events)
    }
}
