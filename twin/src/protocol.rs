//! Calls on tables set beforehand, one case a line.
//!
//! In: call kind 1 to 8, number, item, value, the three lengths, then the words
//! of the three tables. Out: the four numbers of the answer, the three lengths,
//! then all words as the call left them. Single spaces, decimal numbers. A line
//! that is no case is answered `bad`.

use std::io::{self, BufRead, Write};

use crate::answer::Answer;
use crate::decimal;
use crate::keeper::{Call, Keeper};

/// The answer to a line that is no case, without its end.
pub const BAD: &[u8] = b"bad";

/// Tables of any lengths.
#[derive(Clone, Debug, PartialEq, Eq)]
pub struct Tables {
    pub txns: Vec<u64>,
    pub locks: Vec<u64>,
    pub versions: Vec<u64>,
}

impl Tables {
    pub fn good(&self) -> bool {
        crate::good(&self.txns, &self.locks, &self.versions)
    }

    pub fn call(&mut self, call: Call) -> Answer {
        call.on(&mut self.txns, &mut self.locks, &mut self.versions)
    }

    /// A keeper of these tables, if their sizes are exact.
    pub fn as_keeper(&self) -> Option<Keeper> {
        Some(Keeper {
            txns: self.txns[..].try_into().ok()?,
            locks: self.locks[..].try_into().ok()?,
            versions: self.versions[..].try_into().ok()?,
        })
    }

    fn push(&self, out: &mut Vec<u8>) {
        let tables = [&self.txns, &self.locks, &self.versions];
        for table in tables {
            out.push(b' ');
            decimal::push(out, table.len() as u64);
        }
        for &word in tables.into_iter().flatten() {
            out.push(b' ');
            decimal::push(out, word);
        }
    }
}

impl From<&Keeper> for Tables {
    fn from(keeper: &Keeper) -> Tables {
        Tables {
            txns: keeper.txns.to_vec(),
            locks: keeper.locks.to_vec(),
            versions: keeper.versions.to_vec(),
        }
    }
}

/// One call on tables set beforehand.
#[derive(Clone, Debug, PartialEq, Eq)]
pub struct Case {
    pub call: Call,
    pub tables: Tables,
}

impl Case {
    /// Reads one line without its end.
    pub fn parse(line: &[u8]) -> Option<Case> {
        let numbers: Option<Vec<u64>> = line
            .split(|&byte| byte == b' ')
            .map(decimal::parse)
            .collect();
        let numbers = numbers?;
        if numbers.len() < 7 {
            return None;
        }
        let (head, mut words) = numbers.split_at(7);
        let call = Call::of_words([head[0], head[1], head[2], head[3]])?;
        let mut cut = |len: u64| {
            let len = usize::try_from(len).ok()?;
            if len > words.len() {
                return None;
            }
            let (table, rest) = words.split_at(len);
            words = rest;
            Some(table.to_vec())
        };
        let tables = Tables {
            txns: cut(head[4])?,
            locks: cut(head[5])?,
            versions: cut(head[6])?,
        };
        if words.is_empty() {
            Some(Case { call, tables })
        } else {
            None
        }
    }

    /// Appends the case as a line with its end.
    pub fn push(&self, out: &mut Vec<u8>) {
        let [kind, rest @ ..] = self.call.words();
        decimal::push(out, kind);
        for word in rest {
            out.push(b' ');
            decimal::push(out, word);
        }
        self.tables.push(out);
        out.push(b'\n');
    }
}

/// Appends an answer and the tables after it as a line with its end.
pub fn push_outcome(out: &mut Vec<u8>, answer: Answer, after: &Tables) {
    let [code, rest @ ..] = answer.words();
    decimal::push(out, code);
    for word in rest {
        out.push(b' ');
        decimal::push(out, word);
    }
    after.push(out);
    out.push(b'\n');
}

/// Answers every line of the input.
pub fn run<R, W, F>(input: R, mut output: W, mut call: F) -> io::Result<()>
where
    R: BufRead,
    W: Write,
    F: FnMut(Call, &mut Tables) -> Answer,
{
    let mut out = Vec::new();
    for line in input.split(b'\n') {
        out.clear();
        match Case::parse(&line?) {
            Some(mut case) => {
                let answer = call(case.call, &mut case.tables);
                push_outcome(&mut out, answer, &case.tables);
            }
            None => {
                out.extend_from_slice(BAD);
                out.push(b'\n');
            }
        }
        output.write_all(&out)?;
    }
    output.flush()
}
