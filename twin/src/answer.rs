//! What comes back from a call.

/// The answer's first number.
pub mod code {
    pub const GRANTED: u64 = 0;
    pub const WAIT: u64 = 1;
    pub const DEADLOCK: u64 = 2;
    pub const UNKNOWN_TRANSACTION: u64 = 3;
    pub const UNKNOWN_ITEM: u64 = 4;
    pub const QUERY_MAY_NOT_WRITE: u64 = 5;
    pub const STILL_WAITING: u64 = 6;
    pub const NO_SLOT: u64 = 7;
    pub const NUMBERS_SPENT: u64 = 8;
    pub const CLOCK_SPENT: u64 = 9;
    pub const BAD_TABLES: u64 = 10;
    pub const QUOTA_SPENT: u64 = 11;
    pub const PAST_WRITING: u64 = 12;
    pub const NOT_BESIDE: u64 = 13;

    /// The codes in words, by number.
    pub const NAMES: [&str; 14] = [
        "granted",
        "wait",
        "deadlock",
        "unknown transaction",
        "unknown item",
        "query may not write",
        "still waiting",
        "no slot",
        "numbers spent",
        "clock spent",
        "bad tables",
        "quota spent",
        "past its writing",
        "not beside the other kind",
    ];
}

/// Four numbers; what a rule does not name is 0.
#[derive(Clone, Copy, Debug, Default, PartialEq, Eq)]
pub struct Answer {
    pub code: u64,
    pub value: u64,
    pub number: u64,
    pub looked: u64,
}

impl Answer {
    /// Any of the codes that come without a further number.
    pub(crate) const fn bare(code: u64) -> Answer {
        Answer {
            code,
            value: 0,
            number: 0,
            looked: 0,
        }
    }

    /// Granted, and nothing to tell.
    pub(crate) const fn granted() -> Answer {
        Answer::bare(code::GRANTED)
    }

    /// A begin with its new number, or an update's settle or commit with its stamp.
    pub(crate) const fn numbered(number: u64) -> Answer {
        Answer {
            number,
            ..Answer::granted()
        }
    }

    /// A read with its value and where it was found; or a query's end with its weight
    /// sum and its read count, which stand there (request E8).
    pub(crate) const fn found(value: u64, looked: u64) -> Answer {
        Answer {
            value,
            looked,
            ..Answer::granted()
        }
    }

    /// The four numbers in the order in which they are printed.
    pub const fn words(self) -> [u64; 4] {
        [self.code, self.value, self.number, self.looked]
    }
}
