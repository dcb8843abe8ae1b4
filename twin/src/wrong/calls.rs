//! Wrong rules of locks, waits and versions.

use crate::answer::{code, Answer};
use crate::ids::{Item, Slot};
use crate::keeper::{Call, Keeper};
use crate::sizes::*;
use crate::view::{Holders, Lock, View};

/// A wrong rule. The first six are the shortcuts document 01 lists.
#[derive(Clone, Copy, Debug, PartialEq, Eq)]
pub enum WrongCall {
    /// A query's start is the clock at its first read.
    LateSnapshot,
    /// A shared lock goes when its read returns.
    ShortLocks,
    /// Only circles of two are found.
    CirclesOfTwo,
    /// The caller's own shared lock counts against its write.
    OwnLock,
    /// Everything younger than the oldest query is kept.
    KeepYounger,
    /// Rows are trimmed when written; a query's end frees nothing.
    NoTrim,
    /// The number of an aborted transaction is given again.
    NumberAgain,
    /// A granted write keeps the value it first waited with.
    FirstValue,
    /// An update may make 32 writes, of whatever items.
    CountedWrites,
}

impl WrongCall {
    pub const ALL: [(&'static str, WrongCall); 9] = [
        ("late-snapshot", WrongCall::LateSnapshot),
        ("short-locks", WrongCall::ShortLocks),
        ("circles-of-two", WrongCall::CirclesOfTwo),
        ("own-lock", WrongCall::OwnLock),
        ("keep-younger", WrongCall::KeepYounger),
        ("no-trim", WrongCall::NoTrim),
        ("number-again", WrongCall::NumberAgain),
        ("first-value", WrongCall::FirstValue),
        ("counted-writes", WrongCall::CountedWrites),
    ];
}

/// A keeper of fresh tables with one wrong rule.
pub struct WrongKeeper {
    kind: WrongCall,
    keeper: Keeper,
    has_read: [bool; SLOTS],
    first_value: [u64; SLOTS],
    writes: [usize; SLOTS],
}

type Pair = (u64, u64);

impl WrongKeeper {
    pub fn fresh(kind: WrongCall) -> WrongKeeper {
        WrongKeeper {
            kind,
            keeper: Keeper::fresh(),
            has_read: [false; SLOTS],
            first_value: [0; SLOTS],
            writes: [0; SLOTS],
        }
    }

    pub fn call(&mut self, call: Call) -> Answer {
        match self.kind {
            WrongCall::LateSnapshot => self.late_snapshot(call),
            WrongCall::ShortLocks => self.short_locks(call),
            WrongCall::CirclesOfTwo => self.circles_of_two(call),
            WrongCall::OwnLock => self.own_lock(call),
            WrongCall::KeepYounger => self.with_rows(call, keep_younger),
            WrongCall::NoTrim => self.with_rows(call, keep_unless_written),
            WrongCall::NumberAgain => self.number_again(call),
            WrongCall::FirstValue => self.first_value(call),
            WrongCall::CountedWrites => self.counted_writes(call),
        }
    }

    fn view(&mut self) -> View<'_> {
        super::view(&mut self.keeper)
    }

    /// The right call, without the test of the tables.
    fn right(&mut self, call: Call) -> Answer {
        super::right(&mut self.view(), call)
    }

    fn caller(&mut self, call: Call) -> Option<Slot> {
        let number = call.number()?;
        self.view().find(number)
    }

    fn late_snapshot(&mut self, call: Call) -> Answer {
        let caller = self.caller(call);
        if let (Call::Read { .. }, Some(slot)) = (call, caller) {
            if self.view().is_query(slot) && !self.has_read[slot.index()] {
                self.has_read[slot.index()] = true;
                let mut view = self.view();
                view.txn_mut(slot)[START] = view.clock().word();
                let starts = starts(&self.keeper);
                for item in 0..ITEMS {
                    let row = pairs(&self.keeper, item);
                    set_pairs(&mut self.keeper, item, &trimmed(&row, &starts));
                }
            }
        }
        let answer = self.right(call);
        if let (Call::Query, code::GRANTED) = (call, answer.code) {
            if let Some(slot) = self.view().find(answer.number) {
                self.has_read[slot.index()] = false;
            }
        }
        answer
    }

    fn short_locks(&mut self, call: Call) -> Answer {
        let answer = self.right(call);
        let caller = self.caller(call);
        if let (Call::Read { item, .. }, Some(slot), code::GRANTED) = (call, caller, answer.code) {
            if let Some(item) = Item::new(item) {
                let mut view = self.view();
                let shared = Holders::of(view.lock(item)).shared.without(slot);
                view.lock_mut(item)[SHARED] = shared.bits();
            }
        }
        answer
    }

    fn circles_of_two(&mut self, call: Call) -> Answer {
        let answer = self.right(call);
        let (item, lock) = match call {
            Call::Read { item, .. } => (item, Lock::Shared),
            Call::Write { item, .. } => (item, Lock::Exclusive),
            _ => return answer,
        };
        let caller = self.caller(call);
        if let (code::DEADLOCK, Some(slot), Some(item)) = (answer.code, caller, Item::new(item)) {
            let mut view = self.view();
            let against = view.against(slot, lock, item);
            let waits_back = |other: Slot| view.waits_for(other).contains(slot);
            if !against.into_iter().any(waits_back) {
                view.step_in(slot, lock, item);
                return Answer::bare(code::WAIT);
            }
        }
        answer
    }

    fn own_lock(&mut self, call: Call) -> Answer {
        let caller = self.caller(call);
        if let (Call::Write { item, .. }, Some(slot)) = (call, caller) {
            if let Some(item) = Item::new(item) {
                let view = self.view();
                let held = Holders::of(view.lock(item)).held_by(slot);
                if held == Some(Lock::Shared) && view.awaited(slot).is_none() {
                    return Answer::bare(code::DEADLOCK); // it waits for itself
                }
            }
        }
        self.right(call)
    }

    /// Makes the call and then decides anew what the rows keep: `keep` gets the
    /// row with everything in it, the starts, and whether it was written.
    fn with_rows(&mut self, call: Call, keep: fn(&[Pair], &[u64], bool) -> Vec<Pair>) -> Answer {
        let before = self.keeper.clone();
        let caller = self.caller(call);
        let answer = match (call, caller) {
            (Call::Commit { .. } | Call::Abort { .. }, Some(slot))
                if self.view().is_query(slot) =>
            {
                self.view().txn_mut(slot).fill(0);
                Answer::granted()
            }
            _ => self.right(call),
        };
        if let Call::Commit { .. } | Call::Abort { .. } = call {
            let starts = starts(&self.keeper);
            for item in 0..ITEMS {
                let mut row = pairs(&before, item);
                let newest = pairs(&self.keeper, item)[0];
                let written = newest.0 != row[0].0;
                if written {
                    row.insert(0, newest);
                }
                set_pairs(&mut self.keeper, item, &keep(&row, &starts, written));
            }
        }
        answer
    }

    fn number_again(&mut self, call: Call) -> Answer {
        let answer = self.right(call);
        if let (Call::Abort { number }, code::GRANTED) = (call, answer.code) {
            if self.keeper.txns[LAST_NUMBER] == number {
                self.keeper.txns[LAST_NUMBER] -= 1;
            }
        }
        answer
    }

    fn first_value(&mut self, call: Call) -> Answer {
        let caller = self.caller(call);
        if let (
            Call::Write {
                number,
                item,
                value,
            },
            Some(slot),
        ) = (call, caller)
        {
            let value = match self.view().awaited(slot) {
                Some((Lock::Exclusive, _)) => self.first_value[slot.index()],
                _ => value,
            };
            self.first_value[slot.index()] = value;
            return self.right(Call::Write {
                number,
                item,
                value,
            });
        }
        self.right(call)
    }

    fn counted_writes(&mut self, call: Call) -> Answer {
        let caller = self.caller(call);
        if let (Call::Write { item, .. }, Some(slot)) = (call, caller) {
            let view = self.view();
            let is_idle = view.is_writing(slot) && view.awaited(slot).is_none();
            if is_idle && item < ITEMS as u64 && self.writes[slot.index()] >= QUOTA {
                return Answer::bare(code::QUOTA_SPENT);
            }
        }
        let answer = self.right(call);
        match (call, caller, answer.code) {
            (Call::Write { .. }, Some(slot), code::GRANTED) => self.writes[slot.index()] += 1,
            (Call::Update, _, code::GRANTED) => {
                if let Some(slot) = self.view().find(answer.number) {
                    self.writes[slot.index()] = 0;
                }
            }
            _ => {}
        }
        answer
    }
}

fn starts(keeper: &Keeper) -> Vec<u64> {
    let rows = keeper.txns[TXN_HEAD..].chunks(TXN_ROW);
    let readers = rows.filter(|row| row[NUMBER] != 0 && row[KIND] != UPDATE);
    readers.map(|row| row[START]).collect()
}

fn pairs(keeper: &Keeper, item: usize) -> Vec<Pair> {
    let row = &keeper.versions[item * VERSION_ROW..][..VERSION_ROW];
    let used = row[1..].chunks(2).take(row[COUNT] as usize);
    used.map(|pair| (pair[0], pair[1])).collect()
}

/// Writes as many of the pairs as have room.
fn set_pairs(keeper: &mut Keeper, item: usize, pairs: &[Pair]) {
    let row = &mut keeper.versions[item * VERSION_ROW..][..VERSION_ROW];
    row.fill(0);
    row[COUNT] = pairs.len().min(PLACES) as u64;
    for (words, pair) in row[1..].chunks_mut(2).zip(pairs) {
        words[0] = pair.0;
        words[1] = pair.1;
    }
}

/// The newest, and those that some reader reads.
fn trimmed(row: &[Pair], starts: &[u64]) -> Vec<Pair> {
    let read_by = |start: &u64| row.iter().find(|pair| pair.0 <= *start);
    let is_read = |pair: &Pair| starts.iter().any(|start| read_by(start) == Some(pair));
    let kept = row.iter().enumerate();
    kept.filter(|(place, pair)| *place == 0 || is_read(pair))
        .map(|(_, pair)| *pair)
        .collect()
}

fn keep_younger(row: &[Pair], starts: &[u64], _written: bool) -> Vec<Pair> {
    let oldest = match starts.iter().min() {
        Some(oldest) => *oldest,
        None => return row[..1].to_vec(),
    };
    let read = row.iter().position(|pair| pair.0 <= oldest);
    row[..read.map_or(row.len(), |place| place + 1)].to_vec()
}

fn keep_unless_written(row: &[Pair], starts: &[u64], written: bool) -> Vec<Pair> {
    if written {
        trimmed(row, starts)
    } else {
        row.to_vec()
    }
}
