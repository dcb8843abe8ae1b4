//! What relaxed queries did, and who joined their sets in which way, counted.

use std::fmt;

use super::scene::{Held, Scene, Txn};
use super::shown::{each_but, show_all, Counted};
use crate::answer::{code, Answer};
use crate::keeper::{Call, Keeper};
use crate::sizes::*;

#[derive(Clone, Copy)]
enum Event {
    Begins,
    BeginRefused,
    SettleRefused,
    ReadNewest,
    ReadOlder,
    ReadPastHolder,
    ReadAgain,
    JoinsRead,
    JoinsWriting,
    JoinsWaiting,
    JoinsWaitingAgain,
    JoinsReading,
    JoinsOverwriting,
    Deadlock,
    CommitHidden,
    CommitOutside,
    EndFrees,
    EndFreesNone,
    EndClears,
    WriteRefused,
    OwnSettleRefused,
}

/// What the events are printed as, in their order.
const EVENTS: [&str; 21] = [
    "begins",
    "begins refused (13)",
    "settles refused (13)",
    "reads of a newest version",
    "reads of an older one",
    "reads of what another writes",
    "reads of what was read before",
    "joined: what it writes is read",
    "joined: writes what was read",
    "joined: waits to write what was read",
    "joined: waits so again",
    "joined: reads from a member",
    "joined: overwrites a member's version",
    "not joined: deadlocks",
    "commits of members, with something written",
    "commits of others",
    "ends that free a version",
    "ends that free none",
    "ends of sets with members",
    "writes of theirs (5)",
    "settles of theirs (5)",
];

/// How many are live at once, counted in these steps.
const CROWDS: [(&str, usize); 6] = [
    ("1", 1),
    ("2", 2),
    ("3 to 4", 4),
    ("5 to 8", 8),
    ("9 to 16", 16),
    ("17 and more", SLOTS),
];

/// What these events need of the state before a call.
pub struct Standing {
    has_relaxed: bool,
    has_settled: bool,
    held: Held,
    holder: Option<Txn>,
    exclusives: usize,
    /// Whether the item's newest version is hidden, and the readers of the item.
    hidden: u64,
    seen: u64,
    versions: u64,
    has_members: bool,
}

impl Standing {
    /// None where no relaxed query lives, unless one begins.
    pub fn of(scene: &Scene, txn: Option<&Txn>, call: Call) -> Option<Standing> {
        let has_relaxed = scene.count(|txn| txn.is_relaxed) > 0;
        if !has_relaxed && call != Call::Relaxed {
            return None;
        }
        let item = match call {
            Call::Read { item, .. } | Call::Write { item, .. } if item < ITEMS as u64 => Some(item),
            _ => None,
        };
        let readers = |item: u64| {
            let readers = scene
                .live()
                .iter()
                .filter(|txn| txn.items_read >> item & 1 != 0);
            readers.fold(0, |slots, txn| slots | txn.bit())
        };
        let is_ended = |other: &Txn| txn.map_or(false, |txn| other.later_for & txn.bit() != 0);
        Some(Standing {
            has_relaxed,
            has_settled: scene.count(|txn| txn.is_settled) > 0,
            held: txn
                .and_then(|txn| Some(scene.held(txn, item?)))
                .unwrap_or(Held::Nothing),
            holder: item.and_then(|item| scene.exclusive_holder(item)),
            exclusives: txn.map_or(0, |txn| scene.exclusives(txn)),
            hidden: item.map_or(0, |item| scene.hidden(item)),
            seen: item.map_or(0, readers),
            versions: (0..ITEMS).map(|item| scene.version_count(item)).sum(),
            has_members: scene.count(is_ended) > 0,
        })
    }
}

/// The counts.
#[derive(Default)]
pub struct Counts {
    events: [u64; EVENTS.len()],
    crowds: [u64; CROWDS.len()],
}

impl Counts {
    fn event(&mut self, event: Event, happened: bool) {
        self.events[event as usize] += u64::from(happened);
    }

    /// A call was answered; its transaction was so before, where there is one.
    pub fn see(
        &mut self,
        call: Call,
        txn: Option<&Txn>,
        before: &Standing,
        answer: Answer,
        after: &Keeper,
    ) {
        let scene = Scene::of(after);
        let is_granted = answer.code == code::GRANTED;
        let is_refused = answer.code == code::NOT_BESIDE;
        let txn = match (call, txn) {
            (Call::Relaxed, _) => {
                self.event(Event::Begins, is_granted);
                self.event(Event::BeginRefused, is_refused && before.has_settled);
                let crowd = scene.count(|txn| txn.is_relaxed);
                let step = CROWDS.iter().position(|(_, most)| crowd <= *most);
                self.crowds[step.unwrap_or(0)] += u64::from(is_granted);
                return;
            }
            (_, Some(txn)) => txn,
            (_, None) => return,
        };
        let may_not = answer.code == code::QUERY_MAY_NOT_WRITE;
        match call {
            Call::Settle { .. } => {
                self.event(Event::SettleRefused, is_refused && before.has_relaxed);
                self.event(Event::OwnSettleRefused, may_not && txn.is_relaxed);
            }
            Call::Write { .. } if txn.is_relaxed => self.event(Event::WriteRefused, may_not),
            Call::Read { item, .. } if txn.is_relaxed && is_granted => {
                self.see_read(item, txn, before, answer, &scene);
            }
            Call::Commit { .. } | Call::Abort { .. } if txn.is_relaxed => {
                let left: u64 = (0..ITEMS).map(|item| scene.version_count(item)).sum();
                self.event(Event::EndFrees, left < before.versions);
                self.event(Event::EndFreesNone, left == before.versions);
                self.event(Event::EndClears, before.has_members);
            }
            Call::Commit { .. } if is_granted && before.exclusives > 0 => {
                self.event(Event::CommitHidden, txn.later_for != 0);
                self.event(Event::CommitOutside, txn.later_for == 0);
            }
            Call::Read { .. } | Call::Write { .. } if txn.is_writing() => {
                self.see_update(call, txn, before, answer, &scene);
            }
            _ => {}
        }
    }

    fn see_read(&mut self, item: u64, txn: &Txn, before: &Standing, answer: Answer, after: &Scene) {
        self.event(Event::ReadNewest, answer.looked == 1);
        self.event(Event::ReadOlder, answer.looked > 1);
        self.event(Event::ReadAgain, txn.items_read >> item & 1 != 0);
        if let Some(holder) = before.holder {
            self.event(Event::ReadPastHolder, true);
            let now = after.find(holder.number).map_or(0, |txn| txn.later_for);
            self.event(Event::JoinsRead, now & !holder.later_for != 0);
        }
    }

    fn see_update(
        &mut self,
        call: Call,
        txn: &Txn,
        before: &Standing,
        answer: Answer,
        after: &Scene,
    ) {
        let now = after.find(txn.number).map_or(0, |txn| txn.later_for);
        let joined = now & !txn.later_for;
        let is_write = matches!(call, Call::Write { .. });
        let is_granted = answer.code == code::GRANTED;
        let (by_seen, by_hidden) = (joined & before.seen != 0, joined & before.hidden != 0);
        let waits = is_write && answer.code == code::WAIT && by_seen;
        self.event(Event::JoinsWriting, is_write && is_granted && by_seen);
        self.event(Event::JoinsWaiting, waits && txn.awaits.is_none());
        self.event(Event::JoinsWaitingAgain, waits && txn.awaits.is_some());
        self.event(Event::JoinsReading, !is_write && is_granted && by_hidden);
        self.event(Event::JoinsOverwriting, is_write && is_granted && by_hidden);
        let would = is_write && before.seen & !txn.later_for != 0 && before.held != Held::Exclusive;
        self.event(Event::Deadlock, would && answer.code == code::DEADLOCK);
    }

    pub fn each(&self) -> Counted {
        each_but(&EVENTS, &self.events, [])
    }

    /// After begins: how many were live at once, and how often.
    pub fn crowds(&self) -> Counted {
        let names = CROWDS.iter().map(|(name, _)| *name);
        names.zip(self.crowds).collect()
    }

    pub fn show(&self, out: &mut fmt::Formatter) -> fmt::Result {
        show_all(out, "relaxed queries", self.each())?;
        show_all(out, "relaxed queries at once, after a begin", self.crowds())
    }
}
