//! What occurred, counted.

use super::scene::{Held, Scene, Txn};
use super::{
    ages, cuts, damage, empty, fines, fullness, in_line, journals, limit, odd_cases, relaxed,
    settled, spoil,
};
use crate::answer::{code, Answer};
use crate::clauses::Clause;
use crate::keeper::{Call, Keeper};
use crate::sizes::*;

/// Events of scripts worth counting.
#[derive(Clone, Copy)]
enum Event {
    WaitBegun,
    WaitRepeated,
    GrantAfterWait,
    GrantWithOtherValue,
    Upgrade,
    WaitToUpgrade,
    DeadlockUpgrading,
    ReadBesideReaders,
    ReadAheadOfWriter,
    OwnValueRead,
    StillWaitingRead,
    StillWaitingWrite,
    StillWaitingCommit,
    AbortWaiting,
    AbortWritten,
    CommitNone,
    CommitOne,
    CommitMore,
    EndFrees,
    EndFreesNone,
}

/// What the events are printed as, in their order.
pub(super) const EVENTS: [&str; 20] = [
    "waits begun",
    "waits repeated",
    "grants after a wait",
    "grants after a wait, other value",
    "upgrades",
    "waits to upgrade",
    "deadlocks when upgrading",
    "reads beside other readers",
    "reads ahead of a waiting writer",
    "own working values read",
    "still waiting: read",
    "still waiting: write",
    "still waiting: commit",
    "aborts of waiting updates",
    "aborts that drop a written value",
    "commits without a write",
    "commits of one item",
    "commits of more items",
    "query ends that free a version",
    "query ends that free none",
];

/// The state before a call, as far as the events need it.
pub struct Before {
    caller: Option<Txn>,
    held: Held,
    readers: u64,
    writer_waits: bool,
    written: usize,
    versions: u64,
    value: Option<u64>,
    at_limit: Option<limit::Standing>,
    in_line: Option<in_line::Standing>,
    settled: Option<settled::Standing>,
    empty: Option<empty::Standing>,
    relaxed: Option<relaxed::Standing>,
}

impl Before {
    pub fn of(keeper: &Keeper, call: Call, waited_value: &[u64; SLOTS]) -> Before {
        let scene = Scene::of(keeper);
        let caller = call.number().and_then(|number| scene.find(number));
        let mut before = Before {
            caller,
            held: Held::Nothing,
            readers: 0,
            writer_waits: false,
            written: 0,
            versions: 0,
            value: caller.map(|txn| waited_value[txn.slot]),
            at_limit: None,
            in_line: None,
            settled: caller.map(|txn| settled::Standing::of(&scene, &txn, call)),
            empty: caller.and_then(|txn| empty::Standing::of(&scene, &txn, call)),
            relaxed: relaxed::Standing::of(&scene, caller.as_ref(), call),
        };
        let item = match call {
            Call::Read { item, .. } | Call::Write { item, .. } => item,
            _ => u64::MAX,
        };
        if let (Some(txn), true) = (caller, item < ITEMS as u64) {
            before.held = scene.held(&txn, item);
            before.readers = scene.holders(item).0 & !txn.bit();
            let awaits = |other: &Txn| other.awaits == Some((true, item));
            before.writer_waits = scene.count(awaits) > 0;
        }
        if let (Some(txn), Call::Commit { .. } | Call::Abort { .. }) = (caller, call) {
            before.written = scene.exclusives(&txn);
            before.versions = (0..ITEMS).map(|item| scene.version_count(item)).sum();
        }
        if let Some(txn) = caller.filter(Txn::is_writing) {
            before.at_limit = Some(limit::Standing::of(&scene, &txn, call, before.held));
            before.in_line = in_line::Standing::of(&scene, &txn, call);
        }
        before
    }
}

/// All the counts.
pub struct Stats {
    pub rounds: u64,
    pub lines: u64,
    pub calls: u64,
    pub codes: [u64; code::NAMES.len()],
    pub(super) events: [u64; EVENTS.len()],
    pub(super) at_limit: limit::Counts,
    pub in_line: in_line::Counts,
    pub settled: settled::Counts,
    pub empty: empty::Counts,
    pub ages: ages::Counts,
    pub relaxed: relaxed::Counts,
    pub looked: [u64; PLACES + 1],
    pub circles: [u64; SLOTS + 1],
    pub(super) full_rows: u64,
    /// For each kind of odd line: how many, and how many of them bad.
    pub(super) odd_lines: [(u64, u64); spoil::KINDS.len()],
    pub unended_scripts: u64,
    pub empty_scripts: u64,
    pub cases: u64,
    pub case_codes: [u64; code::NAMES.len()],
    pub fullness: fullness::Counts,
    pub case_settled: settled::Counts,
    pub case_empty: empty::Counts,
    pub case_ages: ages::Counts,
    pub case_relaxed: relaxed::Counts,
    /// For each kind of odd case line: how many, and how many of them bad.
    pub(super) odd_cases: [(u64, u64); odd_cases::KINDS.len()],
    /// For each kind of damage: how many, and how many of them answered 10.
    pub damages: [(u64, u64); damage::KINDS.len()],
    /// For each clause: in how many cases broken, and broken alone.
    pub clauses: [(u64, u64); Clause::ALL.len()],
    pub journals: journals::Counts,
    pub cuts: cuts::Counts,
    pub fines: fines::Counts,
    waited_value: [u64; SLOTS],
}

impl Stats {
    pub fn new() -> Stats {
        Stats {
            rounds: 0,
            lines: 0,
            calls: 0,
            codes: [0; code::NAMES.len()],
            events: [0; EVENTS.len()],
            at_limit: limit::Counts::default(),
            in_line: in_line::Counts::default(),
            settled: settled::Counts::default(),
            empty: empty::Counts::default(),
            ages: ages::Counts::default(),
            relaxed: relaxed::Counts::default(),
            looked: [0; PLACES + 1],
            circles: [0; SLOTS + 1],
            full_rows: 0,
            odd_lines: [(0, 0); spoil::KINDS.len()],
            unended_scripts: 0,
            empty_scripts: 0,
            cases: 0,
            case_codes: [0; code::NAMES.len()],
            fullness: fullness::Counts::default(),
            case_settled: settled::Counts::default(),
            case_empty: empty::Counts::default(),
            case_ages: ages::Counts::default(),
            case_relaxed: relaxed::Counts::default(),
            odd_cases: [(0, 0); odd_cases::KINDS.len()],
            damages: [(0, 0); damage::KINDS.len()],
            clauses: [(0, 0); Clause::ALL.len()],
            journals: journals::Counts::default(),
            cuts: cuts::Counts::default(),
            fines: fines::Counts::default(),
            waited_value: [0; SLOTS],
        }
    }

    /// A script begins, from fresh tables.
    pub fn new_script(&mut self) {
        self.waited_value = [0; SLOTS];
        self.at_limit.new_script();
        self.settled.begin_anew();
        self.empty.begin_anew();
    }

    pub fn before(&self, keeper: &Keeper, call: Call) -> Before {
        Before::of(keeper, call, &self.waited_value)
    }

    pub fn see_odd_line(&mut self, kind: usize, is_bad: bool) {
        self.odd_lines[kind].0 += 1;
        self.odd_lines[kind].1 += u64::from(is_bad);
    }

    pub fn see_odd_case(&mut self, kind: usize, is_bad: bool) {
        self.odd_cases[kind].0 += 1;
        self.odd_cases[kind].1 += u64::from(is_bad);
    }

    fn event(&mut self, event: Event) {
        self.events[event as usize] += 1;
    }

    /// Counts what a call did, given the state before and the keeper after.
    pub fn see(&mut self, call: Call, before: &Before, answer: Answer, after: &Keeper) {
        self.calls += 1;
        self.codes[answer.code as usize] += 1;
        if let Some(standing) = &before.relaxed {
            let caller = before.caller.as_ref();
            self.relaxed.see(call, caller, standing, answer, after);
        }
        let txn = match before.caller {
            Some(txn) => txn,
            None => return,
        };
        if let Some(standing) = before.at_limit {
            self.at_limit.see(call, standing, answer);
        }
        if let Some(standing) = before.in_line {
            self.in_line.see(call, standing, answer);
        }
        if let Some(standing) = &before.settled {
            self.settled.see(call, standing, answer, after);
        }
        self.empty.see(call, &txn, before.empty.as_ref(), answer);
        self.ages.see(call, &txn, answer);
        match (call, answer.code) {
            (Call::Read { .. }, code::GRANTED) => self.see_read(&txn, before, answer),
            // Of those past their writing the counts above tell.
            _ if txn.is_settled || txn.is_relaxed => {}
            (Call::Write { value, .. }, code::GRANTED) => self.see_write(&txn, before, value),
            (Call::Read { .. }, code::WAIT) if txn.is_query => {}
            (Call::Read { item, .. }, code::WAIT | code::DEADLOCK) => {
                self.see_conflict(&txn, before, answer, Scene::of(after), (false, item));
            }
            (Call::Write { item, value, .. }, code::WAIT | code::DEADLOCK) => {
                if answer.code == code::WAIT {
                    self.waited_value[txn.slot] = value;
                }
                self.see_conflict(&txn, before, answer, Scene::of(after), (true, item));
            }
            (Call::Read { .. }, code::STILL_WAITING) => self.event(Event::StillWaitingRead),
            (Call::Write { .. }, code::STILL_WAITING) => self.event(Event::StillWaitingWrite),
            (Call::Commit { .. }, code::STILL_WAITING) => self.event(Event::StillWaitingCommit),
            (Call::Commit { .. } | Call::Abort { .. }, code::GRANTED) if txn.is_query => {
                let versions = after.versions.chunks_exact(VERSION_ROW);
                let left: u64 = versions.map(|row| row[COUNT]).sum();
                let freed = left < before.versions;
                self.event(if freed {
                    Event::EndFrees
                } else {
                    Event::EndFreesNone
                });
            }
            (Call::Commit { .. }, code::GRANTED) => {
                self.event(match before.written {
                    0 => Event::CommitNone,
                    1 => Event::CommitOne,
                    _ => Event::CommitMore,
                });
                let mut versions = after.versions.chunks_exact(VERSION_ROW);
                self.full_rows += u64::from(versions.any(|row| row[COUNT] == PLACES as u64));
            }
            (Call::Abort { .. }, code::GRANTED) => {
                if txn.awaits.is_some() {
                    self.event(Event::AbortWaiting);
                }
                if before.written > 0 {
                    self.event(Event::AbortWritten);
                }
            }
            _ => {}
        }
    }

    fn see_read(&mut self, txn: &Txn, before: &Before, answer: Answer) {
        self.looked[answer.looked as usize] += 1;
        if !txn.is_writing() {
            return;
        }
        if txn.awaits.is_some() {
            self.event(Event::GrantAfterWait);
        }
        match before.held {
            Held::Exclusive => self.event(Event::OwnValueRead),
            Held::Nothing if before.writer_waits => self.event(Event::ReadAheadOfWriter),
            Held::Nothing if before.readers != 0 => self.event(Event::ReadBesideReaders),
            _ => {}
        }
    }

    fn see_write(&mut self, txn: &Txn, before: &Before, value: u64) {
        if txn.awaits.is_some() {
            self.event(Event::GrantAfterWait);
            if before.value != Some(value) {
                self.event(Event::GrantWithOtherValue);
            }
        }
        if before.held == Held::Shared {
            self.event(Event::Upgrade);
        }
    }

    fn see_conflict(
        &mut self,
        txn: &Txn,
        before: &Before,
        answer: Answer,
        scene: Scene,
        (is_write, item): (bool, u64),
    ) {
        let upgrading = before.held == Held::Shared;
        if answer.code == code::DEADLOCK {
            self.circles[scene.circle(txn, is_write, item).unwrap_or(0)] += 1;
            if upgrading {
                self.event(Event::DeadlockUpgrading);
            }
        } else if txn.awaits.is_some() {
            self.event(Event::WaitRepeated);
        } else {
            self.event(Event::WaitBegun);
            if upgrading {
                self.event(Event::WaitToUpgrade);
            }
        }
    }
}

impl Default for Stats {
    fn default() -> Stats {
        Stats::new()
    }
}
