//! What those past their writing did, and others beside them, counted.

use std::fmt;

use super::scene::{Held, Scene, Txn};
use super::shown::{each_but, show_all, Counted};
use crate::answer::{code, Answer};
use crate::keeper::{Call, Keeper};
use crate::sizes::*;

#[derive(Clone, Copy)]
enum Event {
    SettleBoth,
    SettleWritten,
    SettleRead,
    SettleBare,
    SettleLetsIn,
    SettleQuery,
    SettleTwice,
    SettleWaiting,
    SettleSpent,
    ReadOwn,
    WaitSmaller,
    ReadPastLarger,
    ReadPastWriting,
    ReadOlder,
    QueryWaitsEqual,
    QueryWaitsLater,
    QueryReadsPast,
    Released,
    OtherCall,
    Rewritten,
    RefusedFree,
    RefusedShared,
    RefusedHeld,
    RefusedFull,
    UnknownItem,
    UpdateWaits,
    CommitBare,
    CommitWritten,
    CommitOutOfOrder,
    CommitForLater,
    CommitFrees,
    CommitKeeps,
    CommitSpent,
    AbortBare,
    AbortWritten,
    AbortFrees,
}

/// What the events are printed as, in their order.
const EVENTS: [&str; 36] = [
    "settles with written and read items",
    "settles with written items alone",
    "settles with read items alone",
    "settles with nothing held",
    "settles that give up what a writer awaits",
    "settles of a query (5)",
    "settles of one that is settled (12)",
    "settles of one that waits (6)",
    "settles with the clock spent (9)",
    "own working values read",
    "waits for a smaller stamp",
    "reads past a larger stamp",
    "reads past an update that is writing",
    "reads of an older version",
    "queries wait for the stamp of their start",
    "queries wait for a smaller stamp",
    "queries read past a larger stamp",
    "reads granted after such a wait",
    "other calls after such a wait",
    "writes of what is held",
    "writes refused (12), nobody holds it",
    "writes refused (12), it is shared",
    "writes refused (12), another's alone",
    "writes refused (12) with 32 held",
    "writes of an unknown item (4)",
    "updates wait for one that is settled",
    "commits with nothing written",
    "commits with something written",
    "commits with a smaller stamp open",
    "commits of items, with a reader at or after it",
    "commits that free a version",
    "commits that leave an older version",
    "commits with the clock spent",
    "aborts with nothing written",
    "aborts with something written",
    "aborts that free a version",
];

/// What a script from fresh tables cannot come to, and what a single call cannot.
const NOT_IN_SCRIPTS: [Event; 2] = [Event::SettleSpent, Event::CommitSpent];
const NOT_IN_CASES: [Event; 2] = [Event::Released, Event::OtherCall];

/// How many are past their writing at once, counted in these steps.
const CROWDS: [(&str, usize); 7] = [
    ("1", 1),
    ("2", 2),
    ("3 to 4", 4),
    ("5 to 8", 8),
    ("9 to 16", 16),
    ("17 to 31", SLOTS - 1),
    ("32", SLOTS),
];

/// What these events need of the state before a call.
pub struct Standing {
    caller: Txn,
    /// How it holds the item of the call, and who holds that exclusively.
    held: Held,
    holder: Option<Txn>,
    is_shared: bool,
    exclusives: usize,
    shares: bool,
    lets_in: bool,
    has_smaller: bool,
    has_later: bool,
    /// The rows that it does not hold exclusively: how many versions they have.
    versions: u64,
    written: u64,
    is_spent: bool,
}

impl Standing {
    pub fn of(scene: &Scene, txn: &Txn, call: Call) -> Standing {
        let item = match call {
            Call::Read { item, .. } | Call::Write { item, .. } => Some(item),
            _ => None,
        };
        let item = item.filter(|item| *item < ITEMS as u64);
        let written = scene.written(txn);
        let shared = |item: &u64| scene.held(txn, *item) == Held::Shared;
        let is_awaited = |item: &u64| {
            let writes = |other: &Txn| other.awaits == Some((true, *item));
            shared(item) && scene.count(writes) > 0
        };
        let is_settle = matches!(call, Call::Settle { .. });
        let mut items = 0..ITEMS as u64;
        Standing {
            caller: *txn,
            held: item.map_or(Held::Nothing, |item| scene.held(txn, item)),
            holder: item.and_then(|item| scene.exclusive_holder(item)),
            is_shared: item.map_or(false, |item| scene.holders(item).0 != 0),
            exclusives: written.count_ones() as usize,
            shares: is_settle && items.clone().any(|item| shared(&item)),
            lets_in: is_settle && items.any(|item| is_awaited(&item)),
            has_smaller: scene.count(|other| other.is_settled && other.start < txn.start) > 0,
            has_later: scene.count(|other| {
                !other.is_writing() && other.slot != txn.slot && other.start >= txn.start
            }) > 0,
            versions: versions(scene.keeper, written),
            written,
            is_spent: scene.clock() == LAST,
        }
    }
}

/// How many versions the rows have that are not among these items.
fn versions(keeper: &Keeper, written: u64) -> u64 {
    let rows = keeper.versions.chunks_exact(VERSION_ROW).enumerate();
    let others = rows.filter(|(item, _)| written >> item & 1 == 0);
    others.map(|(_, row)| row[COUNT]).sum()
}

/// Where an event stands among them all.
fn place(event: &Event) -> usize {
    *event as usize
}

/// The counts.
pub struct Counts {
    events: [u64; EVENTS.len()],
    crowds: [u64; CROWDS.len()],
    /// Whose read of which item was answered 1 last, of those that read by start.
    waited: [Option<(u64, u64)>; SLOTS],
}

impl Default for Counts {
    fn default() -> Counts {
        Counts {
            events: [0; EVENTS.len()],
            crowds: [0; CROWDS.len()],
            waited: [None; SLOTS],
        }
    }
}

impl Counts {
    /// What was waited for in an earlier script, or case, is gone.
    pub fn begin_anew(&mut self) {
        self.waited = [None; SLOTS];
    }

    fn event(&mut self, event: Event, happened: bool) {
        self.events[event as usize] += u64::from(happened);
    }

    /// A call of a live transaction was answered.
    pub fn see(&mut self, call: Call, before: &Standing, answer: Answer, after: &Keeper) {
        let txn = before.caller;
        if !txn.is_writing() {
            self.see_waits(call, &txn, answer);
        }
        match call {
            Call::Settle { .. } => self.see_settle(before, answer, after),
            Call::Read { .. } if txn.is_query => self.see_query(before, answer),
            Call::Read { .. } if txn.is_settled => self.see_read(before, answer),
            Call::Write { .. } if txn.is_settled => self.see_write(before, answer),
            Call::Read { .. } | Call::Write { .. } => {
                let is_settled = before.holder.map_or(false, |holder| holder.is_settled);
                let waits = txn.is_writing() && answer.code == code::WAIT && is_settled;
                self.event(Event::UpdateWaits, waits);
            }
            Call::Commit { .. } if txn.is_settled => self.see_commit(before, answer, after),
            Call::Abort { .. } if txn.is_settled => {
                let left = versions(after, before.written);
                self.event(Event::AbortBare, before.exclusives == 0);
                self.event(Event::AbortWritten, before.exclusives > 0);
                self.event(Event::AbortFrees, left < before.versions);
            }
            _ => {}
        }
    }

    /// Such a wait binds nobody: whatever comes next is answered as without it.
    fn see_waits(&mut self, call: Call, txn: &Txn, answer: Answer) {
        let waited = self.waited[txn.slot].filter(|(number, _)| *number == txn.number);
        match (call, waited) {
            (Call::Read { item, .. }, Some((_, awaited))) if item == awaited => {
                self.event(Event::Released, answer.code == code::GRANTED);
            }
            (_, Some(_)) => self.event(Event::OtherCall, true),
            (_, None) => {}
        }
        self.waited[txn.slot] = match call {
            Call::Read { item, .. } if answer.code == code::WAIT => Some((txn.number, item)),
            _ => None,
        };
    }

    fn see_settle(&mut self, before: &Standing, answer: Answer, after: &Keeper) {
        match answer.code {
            code::GRANTED => {
                let wrote = before.exclusives > 0;
                self.event(Event::SettleBoth, wrote && before.shares);
                self.event(Event::SettleWritten, wrote && !before.shares);
                self.event(Event::SettleRead, !wrote && before.shares);
                self.event(Event::SettleBare, !wrote && !before.shares);
                self.event(Event::SettleLetsIn, before.lets_in);
                let crowd = Scene::of(after).count(|txn| txn.is_settled);
                let step = CROWDS.iter().position(|(_, most)| crowd <= *most);
                self.crowds[step.unwrap_or(0)] += 1;
            }
            code::QUERY_MAY_NOT_WRITE => self.event(Event::SettleQuery, true),
            code::PAST_WRITING => self.event(Event::SettleTwice, true),
            code::STILL_WAITING => self.event(Event::SettleWaiting, true),
            code::CLOCK_SPENT => self.event(Event::SettleSpent, true),
            _ => {}
        }
    }

    fn see_query(&mut self, before: &Standing, answer: Answer) {
        let holder = match before.holder {
            Some(holder) if holder.is_settled => holder,
            _ => return,
        };
        let is_equal = holder.start == before.caller.start;
        let waits = answer.code == code::WAIT;
        self.event(Event::QueryWaitsEqual, waits && is_equal);
        self.event(Event::QueryWaitsLater, waits && !is_equal);
        self.event(Event::QueryReadsPast, answer.code == code::GRANTED);
    }

    fn see_read(&mut self, before: &Standing, answer: Answer) {
        let is_granted = answer.code == code::GRANTED;
        let other = before.holder.filter(|_| before.held == Held::Nothing);
        let past = other.map(|other| other.is_settled);
        self.event(Event::ReadOwn, before.held == Held::Exclusive);
        self.event(Event::WaitSmaller, answer.code == code::WAIT);
        self.event(Event::ReadPastLarger, is_granted && past == Some(true));
        self.event(Event::ReadPastWriting, is_granted && past == Some(false));
        self.event(Event::ReadOlder, answer.looked > 1);
    }

    fn see_write(&mut self, before: &Standing, answer: Answer) {
        let is_refused = answer.code == code::PAST_WRITING;
        let holder = before.holder.is_some();
        self.event(Event::Rewritten, answer.code == code::GRANTED);
        self.event(Event::RefusedFree, is_refused && !before.is_shared);
        self.event(
            Event::RefusedShared,
            is_refused && before.is_shared && !holder,
        );
        self.event(Event::RefusedHeld, is_refused && holder);
        self.event(Event::RefusedFull, is_refused && before.exclusives == QUOTA);
        self.event(Event::UnknownItem, answer.code == code::UNKNOWN_ITEM);
    }

    fn see_commit(&mut self, before: &Standing, answer: Answer, after: &Keeper) {
        if answer.code != code::GRANTED {
            return;
        }
        let wrote = before.exclusives > 0;
        let left = versions(after, before.written);
        let rows = after.versions.chunks_exact(VERSION_ROW).enumerate();
        let mut held = rows.filter(|(item, _)| before.written >> item & 1 != 0);
        self.event(Event::CommitBare, !wrote);
        self.event(Event::CommitWritten, wrote);
        self.event(Event::CommitOutOfOrder, before.has_smaller);
        self.event(Event::CommitForLater, wrote && before.has_later);
        self.event(Event::CommitFrees, left < before.versions);
        self.event(Event::CommitKeeps, held.any(|(_, row)| row[COUNT] > 1));
        self.event(Event::CommitSpent, before.is_spent);
    }

    pub fn in_scripts(&self) -> Counted {
        each_but(&EVENTS, &self.events, NOT_IN_SCRIPTS.iter().map(place))
    }

    pub fn in_cases(&self) -> Counted {
        each_but(&EVENTS, &self.events, NOT_IN_CASES.iter().map(place))
    }

    /// After settles: how many were past their writing at once, and how often.
    pub fn crowds(&self) -> Counted {
        CROWDS
            .iter()
            .map(|(name, _)| *name)
            .zip(self.crowds)
            .collect()
    }

    pub fn show(&self, out: &mut fmt::Formatter, events: Counted) -> fmt::Result {
        show_all(out, "past their writing", events)?;
        show_all(
            out,
            "past their writing at once, after a settle",
            self.crowds(),
        )
    }
}
