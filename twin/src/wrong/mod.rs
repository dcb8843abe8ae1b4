//! Keepers that are wrong on purpose, to show that the fuzzer catches them.
//!
//! The right keeper knows nothing of this module. A wrong one makes the right
//! calls without the test of the tables and goes wrong around them.

mod ages;
mod calls;
mod cut_lines;
mod cuts;
mod empty;
mod fines;
mod judges;
mod lines;
mod quota;
mod relaxed;
mod settled;
mod settled_ends;
mod sizes;
mod tables;
mod tests_of_few;
mod waits;

pub use ages::WrongAge;
pub use calls::{WrongCall, WrongKeeper};
pub use cuts::WrongCut;
pub use empty::WrongEmpty;
pub use fines::WrongFine;
pub use judges::WrongJudge;
pub use lines::{run, WrongLine};
pub use quota::WrongQuota;
pub use relaxed::WrongRelaxed;
pub use settled::WrongSettled;
pub use sizes::WrongSize;
pub use tables::WrongTables;
pub use tests_of_few::WrongTest;
pub use waits::WrongWait;

use std::io::{self, BufRead, Write};

use crate::answer::Answer;
use crate::calls::Access;
use crate::keeper::{Call, Keeper};
use crate::script;
use crate::sizes::{EXCLUSIVE, LOCK_ROW, QUERY, RELAXED, UPDATE};
use crate::view::View;

/// The one of this name.
fn named<T: Copy>(all: &[(&'static str, T)], name: &str) -> Option<T> {
    let known = all.iter().find(|(known, _)| *known == name);
    known.map(|(_, kind)| *kind)
}

/// All names.
fn names<T>(all: &[(&'static str, T)]) -> Vec<&'static str> {
    all.iter().map(|(name, _)| *name).collect()
}

fn view(keeper: &mut Keeper) -> View<'_> {
    View {
        txns: &mut keeper.txns,
        locks: &mut keeper.locks,
        versions: &mut keeper.versions,
    }
}

/// The right call, without the test of the tables.
fn right(view: &mut View, call: Call) -> Answer {
    match call {
        Call::Update => view.begin(UPDATE),
        Call::Query => view.begin(QUERY),
        Call::Read { number, item } => view.access(number, item, Access::Read),
        Call::Write {
            number,
            item,
            value,
        } => view.access(number, item, Access::Write(value)),
        Call::Commit { number } => view.commit(number),
        Call::Abort { number } => view.abort(number),
        Call::Settle { number } => view.settle(number),
        Call::Relaxed => view.begin(RELAXED),
    }
}

/// The right call as if these held nothing exclusively; what nobody takes meanwhile
/// is theirs again.
fn without_locks(view: &mut View, call: Call, is_unseen: impl Fn(u64) -> bool) -> Answer {
    let before = *view.locks;
    for row in view.locks.chunks_exact_mut(LOCK_ROW) {
        if is_unseen(row[EXCLUSIVE]) {
            row.fill(0);
        }
    }
    let answer = right(view, call);
    let rows = view.locks.chunks_exact_mut(LOCK_ROW);
    for (row, old) in rows.zip(before.chunks_exact(LOCK_ROW)) {
        if is_unseen(old[EXCLUSIVE]) && row[EXCLUSIVE] == 0 {
            row[EXCLUSIVE..].copy_from_slice(&old[EXCLUSIVE..]);
        }
    }
    answer
}

/// A wrong rule of one of the requests.
#[derive(Clone, Copy, Debug, PartialEq, Eq)]
pub enum WrongRule {
    Quota(WrongQuota),
    Wait(WrongWait),
    Settled(WrongSettled),
    Empty(WrongEmpty),
    Age(WrongAge),
    Relaxed(WrongRelaxed),
    Size(WrongSize),
}

impl WrongRule {
    pub fn named(name: &str) -> Option<WrongRule> {
        named(&WrongQuota::ALL, name)
            .map(WrongRule::Quota)
            .or_else(|| named(&WrongWait::ALL, name).map(WrongRule::Wait))
            .or_else(|| named(&WrongSettled::ALL, name).map(WrongRule::Settled))
            .or_else(|| named(&WrongEmpty::ALL, name).map(WrongRule::Empty))
            .or_else(|| named(&WrongAge::ALL, name).map(WrongRule::Age))
            .or_else(|| named(&WrongRelaxed::ALL, name).map(WrongRule::Relaxed))
            .or_else(|| named(&WrongSize::ALL, name).map(WrongRule::Size))
    }

    pub fn names() -> Vec<&'static str> {
        [
            names(&WrongQuota::ALL),
            names(&WrongWait::ALL),
            names(&WrongSettled::ALL),
            names(&WrongEmpty::ALL),
            names(&WrongAge::ALL),
            names(&WrongRelaxed::ALL),
            names(&WrongSize::ALL),
        ]
        .concat()
    }

    /// Those that a script from fresh tables shows.
    fn names_shown() -> Vec<&'static str> {
        [
            names(&WrongQuota::ALL),
            names(&WrongWait::ALL),
            WrongSettled::names_shown(),
            WrongEmpty::names_shown(),
            WrongAge::names_shown(),
            WrongRelaxed::names_shown(),
            names(&WrongSize::ALL),
        ]
        .concat()
    }

    /// The call with this wrong rule, without the test of the tables.
    pub(crate) fn call(self, view: &mut View, call: Call) -> Answer {
        match self {
            WrongRule::Quota(kind) => kind.call(view, call),
            WrongRule::Wait(kind) => kind.call(view, call),
            WrongRule::Settled(kind) => kind.call(view, call),
            WrongRule::Empty(kind) => kind.call(view, call),
            WrongRule::Age(kind) => kind.call(view, call),
            WrongRule::Relaxed(kind) => kind.call(view, call),
            WrongRule::Size(kind) => kind.call(view, call),
        }
    }
}

/// A way for a runner to be wrong.
#[derive(Clone, Copy, Debug, PartialEq, Eq)]
pub enum WrongRunner {
    Call(WrongCall),
    Rule(WrongRule),
    Line(WrongLine),
}

impl WrongRunner {
    pub fn named(name: &str) -> Option<WrongRunner> {
        let is_shown = |name: &str| WrongRule::names_shown().contains(&name);
        let rule = Some(name).filter(|name| is_shown(name));
        named(&WrongCall::ALL, name)
            .map(WrongRunner::Call)
            .or_else(|| rule.and_then(WrongRule::named).map(WrongRunner::Rule))
            .or_else(|| named(&WrongLine::ALL, name).map(WrongRunner::Line))
    }

    pub fn names() -> Vec<&'static str> {
        [
            names(&WrongCall::ALL),
            WrongRule::names_shown(),
            names(&WrongLine::ALL),
        ]
        .concat()
    }

    /// Runs a script wrongly.
    pub fn run<R: BufRead, W: Write>(self, input: R, output: W) -> io::Result<()> {
        match self {
            WrongRunner::Call(kind) => {
                let mut keeper = WrongKeeper::fresh(kind);
                script::run(input, output, |call| keeper.call(call))
            }
            WrongRunner::Rule(kind) => {
                let mut keeper = Keeper::fresh();
                script::run(input, output, |call| {
                    kind.call(&mut view(&mut keeper), call)
                })
            }
            WrongRunner::Line(kind) => {
                let mut keeper = Keeper::fresh();
                run(kind, input, output, |call| keeper.call(call))
            }
        }
    }
}
