//! What occurred in lines of waiters, counted.

use super::scene::{Held, Scene, Txn};
use crate::answer::{code, Answer};
use crate::keeper::Call;
use crate::sizes::*;

#[derive(Clone, Copy)]
enum Event {
    Behind,
    BehindAlone,
    BesideReader,
    ExchangerPasses,
    ExchangePast,
    NeedsNone,
    OutOfMiddle,
    OutOfFront,
    StaleBlocks,
    AbortFirst,
    AbortMiddle,
    AbortLast,
    CircleInLine,
    CircleAfter,
}

/// What the events are printed as, in their order.
const EVENTS: [&str; 14] = [
    "waits behind an earlier waiter",
    "of them for earlier waiters alone",
    "reads in line behind a waiting reader",
    "exchangers that pass waiters",
    "exchanges granted past waiters",
    "calls that need no lock past waiters",
    "grants to one that is not the first",
    "grants to the first, others behind it",
    "waits for one that nobody stands against",
    "aborts of the first, others behind it",
    "aborts in the middle of a line",
    "aborts of the last, others ahead of it",
    "deadlocks only through earlier waiters",
    "deadlocks only through who is passed",
];

/// What these events need of the state before a call.
#[derive(Clone, Copy)]
pub struct Standing {
    held: Held,
    needs: bool,
    rank: u64,
    /// How many stand in the line of the item, the caller among them or not.
    line: u64,
    /// Who stands against the caller, and how many waiters ahead do not.
    holders: u64,
    waiters: u64,
    is_beside: bool,
    has_stale: bool,
    /// Whether a circle would close without what the lines add to it.
    of_holders: bool,
    of_before: bool,
}

impl Standing {
    /// Of an update that makes this call.
    pub fn of(scene: &Scene, txn: &Txn, call: Call) -> Option<Standing> {
        let (is_write, item) = match (call, txn.awaits) {
            (Call::Read { item, .. }, _) if item < ITEMS as u64 => (false, item),
            (Call::Write { item, .. }, _) if item < ITEMS as u64 => (true, item),
            (Call::Abort { .. }, Some(awaited)) => awaited,
            _ => return None,
        };
        let line = scene.line(item);
        let waiters = scene.waiters_against(txn, is_write, item);
        let place = scene.place(txn, item);
        let is_beside = |other: &Txn| other.rank < place && waiters & other.bit() == 0;
        let is_stale = |other: &Txn| waiters & other.bit() != 0 && scene.waits_for(other) == 0;
        Some(Standing {
            held: scene.held(txn, item),
            needs: scene.needs(txn, is_write, item),
            rank: txn.rank,
            line: line.len() as u64,
            holders: scene.holders_against(txn, is_write, item),
            waiters,
            is_beside: line.iter().any(is_beside),
            has_stale: line.iter().any(is_stale),
            of_holders: scene.circle_of_holders(txn, is_write, item).is_some(),
            of_before: scene.circle_before(txn, is_write, item).is_some(),
        })
    }
}

/// The counts.
#[derive(Default)]
pub struct Counts {
    events: [u64; EVENTS.len()],
    /// New waits by the length of the line with them.
    lengths: [u64; SLOTS],
}

impl Counts {
    fn event(&mut self, event: Event, happened: bool) {
        self.events[event as usize] += u64::from(happened);
    }

    /// A call of an update was answered.
    pub fn see(&mut self, call: Call, before: Standing, answer: Answer) {
        let waited = before.rank > 0;
        // One that waits for another item is answered 6, and stands in no line here.
        let others = before.line.saturating_sub(u64::from(waited));
        let is_first = before.rank == 1 && others > 0;
        match (call, answer.code) {
            (Call::Abort { .. }, code::GRANTED) => {
                let is_last = before.rank == before.line;
                self.event(Event::AbortFirst, is_first);
                self.event(Event::AbortMiddle, before.rank > 1 && !is_last);
                self.event(Event::AbortLast, before.rank > 1 && is_last);
            }
            (_, code::GRANTED) if !before.needs => self.event(Event::NeedsNone, others > 0),
            (_, code::GRANTED) => {
                let exchanges = before.held == Held::Shared;
                self.event(Event::ExchangePast, exchanges && others > 0);
                self.event(Event::OutOfMiddle, before.rank > 1);
                self.event(Event::OutOfFront, is_first);
            }
            (_, code::WAIT) if !waited => {
                let passes = before.held == Held::Shared && others > 0;
                self.event(Event::Behind, before.waiters != 0);
                self.event(
                    Event::BehindAlone,
                    before.waiters != 0 && before.holders == 0,
                );
                self.event(Event::BesideReader, before.is_beside);
                self.event(Event::ExchangerPasses, passes);
                self.event(Event::StaleBlocks, before.has_stale);
                self.lengths[before.line as usize] += 1;
            }
            (_, code::DEADLOCK) => {
                self.event(Event::CircleInLine, !before.of_holders);
                self.event(Event::CircleAfter, !before.of_before);
            }
            _ => {}
        }
    }

    /// Each event's name, and how often it came.
    pub fn each(&self) -> impl Iterator<Item = (&'static str, u64)> + '_ {
        EVENTS.into_iter().zip(self.events)
    }

    /// Each length of a line, and how often a new wait made one so long.
    pub fn lengths(&self) -> impl Iterator<Item = (usize, u64)> + '_ {
        (1..).zip(self.lengths)
    }
}
