//! Commits with nothing written, and what others did before and after, counted.

use std::fmt;

use super::scene::{Scene, Txn};
use super::shown::{each_but, show_all, Counted};
use crate::answer::{code, Answer};
use crate::keeper::Call;
use crate::sizes::*;

#[derive(Clone, Copy)]
enum Event {
    Read,
    Bare,
    ClockZero,
    OlderVersions,
    BesideSettled,
    BesideNewest,
    SettledCommits,
    LaterSettles,
    LeavesItem,
    WriterGranted,
    Waiting,
    Spent,
    Written,
    WrittenSpent,
}

/// What the events are printed as, in their order.
const EVENTS: [&str; 14] = [
    "with items read",
    "with nothing read",
    "at clock 0",
    "beside older versions",
    "with one past its writing live",
    "with one of the clock's stamp live",
    "past their writing then, commit later",
    "writing then, settle and commit later",
    "leave an item to a writer that waits",
    "such a writer is then granted",
    "refused, it waits (6)",
    "granted with the clock spent",
    "else, with something written",
    "else, refused with the clock spent (9)",
];

/// What a script from fresh tables cannot come to, and what a single call cannot.
const NOT_IN_SCRIPTS: &[Event] = &[Event::Spent, Event::WrittenSpent];
const NOT_IN_CASES: &[Event] = &[
    Event::SettledCommits,
    Event::LaterSettles,
    Event::WriterGranted,
];

/// What these events need of the state before an update's commit.
pub struct Standing {
    wrote: bool,
    has_read: bool,
    clock: u64,
    has_older: bool,
    /// Slots and numbers: who is past its writing with a stamp up to the clock, and
    /// who is writing.
    settled: Vec<(usize, u64)>,
    writing: Vec<(usize, u64)>,
    has_newest: bool,
    /// Writers that wait for the caller, which only reads, and for nobody else.
    let_in: Vec<(usize, u64)>,
}

impl Standing {
    /// None for any other call than the commit of an update that is writing.
    pub fn of(scene: &Scene, txn: &Txn, call: Call) -> Option<Standing> {
        if !matches!(call, Call::Commit { .. }) || !txn.is_writing() {
            return None;
        }
        let list = |like: &dyn Fn(&Txn) -> bool| {
            let some = scene.live().iter().filter(|other| like(other));
            some.map(|other| (other.slot, other.number)).collect()
        };
        let clock = scene.clock();
        let wrote = scene.exclusives(txn) > 0;
        let is_let_in = |other: &Txn| {
            !wrote && matches!(other.awaits, Some((true, _))) && scene.waits_for(other) == txn.bit()
        };
        Some(Standing {
            wrote,
            has_read: scene.holds_any(txn),
            clock,
            has_older: (0..ITEMS).any(|item| scene.version_count(item) > 1),
            settled: list(&|other| other.is_settled && other.start <= clock),
            writing: list(&|other| other.is_writing() && other.slot != txn.slot),
            has_newest: scene.count(|other| other.is_settled && other.start == clock) > 0,
            let_in: list(&is_let_in),
        })
    }
}

/// Where an event stands among them all.
fn place(event: &Event) -> usize {
    *event as usize
}

/// The counts.
#[derive(Default)]
pub struct Counts {
    events: [u64; EVENTS.len()],
    /// Who was there at such a commit, by slot: past its writing, writing, let in.
    settled: [Option<u64>; SLOTS],
    writing: [Option<u64>; SLOTS],
    let_in: [Option<u64>; SLOTS],
}

impl Counts {
    /// Who was there in an earlier script, or case, is gone.
    pub fn begin_anew(&mut self) {
        self.settled = [None; SLOTS];
        self.writing = [None; SLOTS];
        self.let_in = [None; SLOTS];
    }

    fn event(&mut self, event: Event, happened: bool) {
        self.events[event as usize] += u64::from(happened);
    }

    /// A call of a live transaction was answered.
    pub fn see(&mut self, call: Call, txn: &Txn, before: Option<&Standing>, answer: Answer) {
        let is_granted = answer.code == code::GRANTED;
        let was_in = |list: &[Option<u64>; SLOTS]| list[txn.slot] == Some(txn.number);
        match call {
            Call::Commit { .. } if txn.is_settled && is_granted => {
                let (then, later) = (was_in(&self.settled), was_in(&self.writing));
                self.event(Event::SettledCommits, then);
                self.event(Event::LaterSettles, later);
            }
            Call::Write { .. } if txn.awaits.is_some() && is_granted => {
                let was_let_in = was_in(&self.let_in);
                self.event(Event::WriterGranted, was_let_in);
                self.let_in[txn.slot] = None;
            }
            _ => {}
        }
        match before {
            Some(before) if before.wrote => {
                self.event(Event::Written, is_granted);
                self.event(Event::WrittenSpent, answer.code == code::CLOCK_SPENT);
            }
            Some(before) if is_granted => self.see_empty(before),
            Some(_) => self.event(Event::Waiting, answer.code == code::STILL_WAITING),
            None => {}
        }
    }

    fn see_empty(&mut self, before: &Standing) {
        self.event(Event::Read, before.has_read);
        self.event(Event::Bare, !before.has_read);
        self.event(Event::ClockZero, before.clock == 0);
        self.event(Event::OlderVersions, before.has_older);
        self.event(Event::BesideSettled, !before.settled.is_empty());
        self.event(Event::BesideNewest, before.has_newest);
        self.event(Event::LeavesItem, !before.let_in.is_empty());
        self.event(Event::Spent, before.clock == LAST);
        let lists = [
            (&mut self.settled, &before.settled),
            (&mut self.writing, &before.writing),
            (&mut self.let_in, &before.let_in),
        ];
        for (list, there) in lists {
            for &(slot, number) in there {
                list[slot] = Some(number);
            }
        }
    }

    pub fn in_scripts(&self) -> Counted {
        each_but(&EVENTS, &self.events, NOT_IN_SCRIPTS.iter().map(place))
    }

    pub fn in_cases(&self) -> Counted {
        each_but(&EVENTS, &self.events, NOT_IN_CASES.iter().map(place))
    }

    pub fn show(&self, out: &mut fmt::Formatter, events: Counted) -> fmt::Result {
        show_all(out, "commits of updates that wrote nothing", events)
    }
}
