//! A call as a value, and a keeper that owns its tables.

use crate::answer::Answer;
use crate::calls;
use crate::sizes::*;

/// One of the eight calls with its numbers.
#[derive(Clone, Copy, Debug, PartialEq, Eq)]
pub enum Call {
    Update,
    Query,
    Read { number: u64, item: u64 },
    Write { number: u64, item: u64, value: u64 },
    Commit { number: u64 },
    Abort { number: u64 },
    Settle { number: u64 },
    Relaxed,
}

impl Call {
    /// Makes the call on any three slices.
    pub fn on(self, txns: &mut [u64], locks: &mut [u64], versions: &mut [u64]) -> Answer {
        match self {
            Call::Update => calls::begin_update(txns, locks, versions),
            Call::Query => calls::begin_query(txns, locks, versions),
            Call::Read { number, item } => calls::read(txns, locks, versions, number, item),
            Call::Write {
                number,
                item,
                value,
            } => calls::write(txns, locks, versions, number, item, value),
            Call::Commit { number } => calls::commit(txns, locks, versions, number),
            Call::Abort { number } => calls::abort(txns, locks, versions, number),
            Call::Settle { number } => calls::settle(txns, locks, versions, number),
            Call::Relaxed => calls::begin_relaxed(txns, locks, versions),
        }
    }

    /// The number of the transaction that calls; none for a begin.
    pub fn number(self) -> Option<u64> {
        match self {
            Call::Update | Call::Query | Call::Relaxed => None,
            Call::Read { number, .. }
            | Call::Write { number, .. }
            | Call::Commit { number }
            | Call::Abort { number }
            | Call::Settle { number } => Some(number),
        }
    }

    /// Call kind, number, item and value; what the call does not have is 0.
    pub fn words(self) -> [u64; 4] {
        match self {
            Call::Update => [1, 0, 0, 0],
            Call::Query => [2, 0, 0, 0],
            Call::Read { number, item } => [3, number, item, 0],
            Call::Write {
                number,
                item,
                value,
            } => [4, number, item, value],
            Call::Commit { number } => [5, number, 0, 0],
            Call::Abort { number } => [6, number, 0, 0],
            Call::Settle { number } => [7, number, 0, 0],
            Call::Relaxed => [8, 0, 0, 0],
        }
    }

    /// The call of these words, whatever stands where it has none; none for
    /// another kind.
    pub fn of_words([kind, number, item, value]: [u64; 4]) -> Option<Call> {
        let at = usize::try_from(kind).ok()?.checked_sub(1)?;
        Call::each(number, item, value).get(at).copied()
    }

    /// Each of the eight calls with these numbers, in the order of their kinds.
    pub fn each(number: u64, item: u64, value: u64) -> [Call; 8] {
        [
            Call::Update,
            Call::Query,
            Call::Read { number, item },
            Call::Write {
                number,
                item,
                value,
            },
            Call::Commit { number },
            Call::Abort { number },
            Call::Settle { number },
            Call::Relaxed,
        ]
    }

    /// The same call by another transaction; a begin stays as it is.
    pub fn with_number(self, number: u64) -> Call {
        match self {
            Call::Update | Call::Query | Call::Relaxed => self,
            Call::Read { item, .. } => Call::Read { number, item },
            Call::Write { item, value, .. } => Call::Write {
                number,
                item,
                value,
            },
            Call::Commit { .. } => Call::Commit { number },
            Call::Abort { .. } => Call::Abort { number },
            Call::Settle { .. } => Call::Settle { number },
        }
    }
}

/// Three tables and nothing else.
#[derive(Clone, Debug, PartialEq, Eq)]
pub struct Keeper {
    pub txns: [u64; TXN_WORDS],
    pub locks: [u64; LOCK_WORDS],
    pub versions: [u64; VERSION_WORDS],
}

impl Keeper {
    /// A keeper of fresh tables.
    pub fn fresh() -> Keeper {
        let mut keeper = Keeper {
            txns: [0; TXN_WORDS],
            locks: [0; LOCK_WORDS],
            versions: [0; VERSION_WORDS],
        };
        calls::fresh(&mut keeper.txns, &mut keeper.locks, &mut keeper.versions);
        keeper
    }

    pub fn call(&mut self, call: Call) -> Answer {
        call.on(&mut self.txns, &mut self.locks, &mut self.versions)
    }

    pub fn is_good(&self) -> bool {
        crate::good(&self.txns, &self.locks, &self.versions)
    }
}
