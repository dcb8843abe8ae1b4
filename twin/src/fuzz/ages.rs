//! How old what queries read was (request E8): their reads and ends, counted, and calls
//! that show the counts.

use std::fmt;

use super::director::{abort, commit, read};
use super::scene::{Scene, Txn};
use super::shown::{each_but, show_all, Counted};
use crate::answer::{code, Answer};
use crate::keeper::Call;
use crate::rng::Rng;
use crate::sizes::*;

#[derive(Clone, Copy)]
enum Event {
    Newest,
    Older,
    Waits,
    SettledReads,
    UpdateReads,
    EndNone,
    EndNewest,
    EndOlder,
    EndAborted,
    ReadsReach,
    ReadsHeld,
    WeightReaches,
    WeightJumps,
    WeightHeld,
    EndHeld,
}

/// What the events are printed as, in their order.
const EVENTS: [&str; 15] = [
    "reads of a newest version",
    "reads of an older one",
    "reads that wait, and count for nothing",
    "reads by one past its writing, nor these",
    "reads by an update that writes, nor these",
    "ends with nothing read",
    "ends with newest versions read alone",
    "ends with older versions read",
    "of these ends, aborts",
    "the count comes to the limit",
    "the count is held there",
    "the sum comes to the limit",
    "the sum would go past it",
    "the sum is held there",
    "ends with one of them at the limit",
];

/// What a script cannot come to: that would take more than four milliard reads.
const NOT_IN_SCRIPTS: &[Event] = &[
    Event::ReadsReach,
    Event::ReadsHeld,
    Event::WeightReaches,
    Event::WeightJumps,
    Event::WeightHeld,
    Event::EndHeld,
];

/// Where an event stands among them all.
fn place(event: &Event) -> usize {
    *event as usize
}

/// The counts.
#[derive(Default)]
pub struct Counts {
    events: [u64; EVENTS.len()],
}

impl Counts {
    fn event(&mut self, event: Event, happened: bool) {
        self.events[event as usize] += u64::from(happened);
    }

    /// A call of a live transaction, as it was before, was answered.
    pub fn see(&mut self, call: Call, txn: &Txn, answer: Answer) {
        let is_granted = answer.code == code::GRANTED;
        match call {
            Call::Read { .. } if txn.is_counted() => {
                self.event(Event::Waits, answer.code == code::WAIT);
                if is_granted {
                    self.see_read(txn, answer.looked);
                }
            }
            Call::Read { .. } => {
                self.event(Event::SettledReads, is_granted && txn.is_settled);
                self.event(Event::UpdateReads, is_granted && txn.is_writing());
            }
            Call::Commit { .. } | Call::Abort { .. } if txn.is_counted() => {
                let is_bare = txn.reads == 0 && txn.weight == 0;
                self.event(Event::EndNone, is_bare);
                self.event(Event::EndNewest, !is_bare && txn.reads == txn.weight);
                self.event(Event::EndOlder, txn.reads < txn.weight);
                self.event(Event::EndAborted, matches!(call, Call::Abort { .. }));
                self.event(Event::EndHeld, txn.reads == LAST || txn.weight == LAST);
            }
            _ => {}
        }
    }

    fn see_read(&mut self, txn: &Txn, place: u64) {
        self.event(Event::Newest, place == 1);
        self.event(Event::Older, place > 1);
        self.event(Event::ReadsReach, txn.reads == LAST - 1);
        self.event(Event::ReadsHeld, txn.reads == LAST);
        let is_held = txn.weight == LAST;
        self.event(Event::WeightReaches, !is_held && txn.weight + place == LAST);
        self.event(Event::WeightJumps, !is_held && txn.weight + place > LAST);
        self.event(Event::WeightHeld, is_held);
    }

    pub fn in_scripts(&self) -> Counted {
        each_but(&EVENTS, &self.events, NOT_IN_SCRIPTS.iter().map(place))
    }

    pub fn in_cases(&self) -> Counted {
        each_but(&EVENTS, &self.events, [])
    }

    pub fn show(&self, out: &mut fmt::Formatter, events: Counted) -> fmt::Result {
        show_all(out, "how old what queries read was", events)
    }
}

/// A query reads, an old version by preference, or ends; one whose counts are near the
/// limit by preference.
pub fn telling(rng: &mut Rng, scene: &Scene) -> Option<Call> {
    let is_near =
        |txn: &Txn| txn.is_counted() && txn.reads.max(txn.weight) > LAST - 2 * PLACES as u64;
    let query = match scene.pick(rng, is_near) {
        Some(txn) if rng.percent(80) => txn,
        _ => scene.pick(rng, Txn::is_counted)?,
    };
    Some(match rng.below(8) {
        0 => commit(query),
        1 => abort(query),
        2..=3 => read(query, rng.below(ITEMS as u64)),
        _ => read(query, oldest(rng, scene)),
    })
}

/// An item with as many versions as any of a few have.
fn oldest(rng: &mut Rng, scene: &Scene) -> u64 {
    let few: Vec<usize> = (0..8).map(|_| rng.index(ITEMS)).collect();
    let longest = few.iter().max_by_key(|item| scene.version_count(**item));
    longest.map_or(0, |item| *item as u64)
}
