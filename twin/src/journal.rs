//! Journals: a run on file, and the judge that replays one.
//!
//! A journal is a count of calls, so many records of four words (kind, number,
//! item, value), a count of answers and so many records of four words (code,
//! value, number, looked). A word has eight bytes, the lowest first.

use std::fmt;

use crate::answer::Answer;
use crate::keeper::{Call, Keeper};

const WORD: usize = 8;
const RECORD: usize = 4 * WORD;

/// What is said of a file: accepted, or the first point that fails.
#[derive(Clone, Copy, Debug, PartialEq, Eq)]
pub enum Verdict {
    Accepted,
    /// Point 1: a section is short.
    Short,
    /// Point 2: the counts differ.
    Unequal,
    /// Point 3: bytes are left over.
    LeftOver,
    /// Point 4: the first wrong call, from 1.
    Wrong(u64),
}

impl fmt::Display for Verdict {
    fn fmt(&self, out: &mut fmt::Formatter) -> fmt::Result {
        match self {
            Verdict::Accepted => write!(out, "accepted"),
            Verdict::Short => write!(out, "1"),
            Verdict::Unequal => write!(out, "2"),
            Verdict::LeftOver => write!(out, "3"),
            Verdict::Wrong(call) => write!(out, "4 {}", call),
        }
    }
}

/// The calls and the answers of a journal as they stand there, right or not.
#[derive(Clone, Debug, Default, PartialEq, Eq)]
pub struct Journal {
    pub calls: Vec<[u64; 4]>,
    pub answers: Vec<[u64; 4]>,
}

impl Journal {
    /// The journal of calls from fresh tables.
    pub fn of_run(calls: impl IntoIterator<Item = Call>) -> Journal {
        let mut keeper = Keeper::fresh();
        let mut journal = Journal::default();
        for call in calls {
            journal.calls.push(call.words());
            journal.answers.push(keeper.call(call).words());
        }
        journal
    }

    pub fn bytes(&self) -> Vec<u8> {
        let sections = [&self.calls, &self.answers];
        let mut bytes = Vec::new();
        for section in sections {
            bytes.extend_from_slice(&(section.len() as u64).to_le_bytes());
            for word in section.iter().flatten() {
                bytes.extend_from_slice(&word.to_le_bytes());
            }
        }
        bytes
    }
}

/// One section taken off the front of the bytes; none if it is short.
fn section<'b>(bytes: &mut &'b [u8]) -> Option<Vec<[u64; 4]>> {
    let take = |bytes: &mut &'b [u8], len: usize| {
        if bytes.len() < len {
            return None;
        }
        let (front, rest) = bytes.split_at(len);
        *bytes = rest;
        Some(front)
    };
    let count = u64::from_le_bytes(take(bytes, WORD)?.try_into().ok()?);
    let len = usize::try_from(count).ok()?.checked_mul(RECORD)?;
    let records = take(bytes, len)?.chunks_exact(RECORD);
    let word = |record: &[u8], at: usize| {
        let bytes = &record[at * WORD..][..WORD];
        u64::from_le_bytes(bytes.try_into().expect("eight bytes"))
    };
    Some(
        records
            .map(|record| [0, 1, 2, 3].map(|at| word(record, at)))
            .collect(),
    )
}

/// The two sections and how many bytes are left; none if a section is short.
pub fn read(mut bytes: &[u8]) -> Option<(Journal, usize)> {
    let calls = section(&mut bytes)?;
    let answers = section(&mut bytes)?;
    Some((Journal { calls, answers }, bytes.len()))
}

/// The call of four words, if its kind is known and what it does not use is 0.
pub fn known(words: [u64; 4]) -> Option<Call> {
    Call::of_words(words).filter(|call| call.words() == words)
}

/// The first wrong call, from 1, when the calls are made from fresh tables.
pub fn first_wrong(journal: &Journal, known: impl Fn([u64; 4]) -> Option<Call>) -> Option<u64> {
    let mut keeper = Keeper::fresh();
    let mut right = |words, answer| {
        let made: Option<Answer> = known(words).map(|call| keeper.call(call));
        made.map(Answer::words) == Some(answer)
    };
    let pairs = journal.calls.iter().zip(&journal.answers);
    let wrong = (1..)
        .zip(pairs)
        .find(|(_, (call, answer))| !right(**call, **answer));
    wrong.map(|(at, _)| at)
}

/// The verdict on a whole file.
pub fn judge(bytes: &[u8]) -> Verdict {
    let (journal, left) = match read(bytes) {
        Some(read) => read,
        None => return Verdict::Short,
    };
    if journal.calls.len() != journal.answers.len() {
        return Verdict::Unequal;
    }
    if left > 0 {
        return Verdict::LeftOver;
    }
    first_wrong(&journal, known).map_or(Verdict::Accepted, Verdict::Wrong)
}
