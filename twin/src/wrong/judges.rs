//! Judges that are wrong on purpose.

use crate::journal::{first_wrong, judge, known, read, Journal, Verdict};
use crate::keeper::{Call, Keeper};

/// A way for a judge to be wrong.
#[derive(Clone, Copy, Debug, PartialEq, Eq)]
pub enum WrongJudge {
    /// It speaks at the first wrong call, whatever the file's end is like.
    StopsEarly,
    /// It multiplies a count by the size of a record in 64 bits.
    Wraps,
    /// It does not look at unused fields.
    UnusedFields,
    /// It counts calls from 0.
    FromZero,
    /// It names the last wrong call.
    LastWrong,
    /// It does not compare looked.
    Looked,
    /// It does not ask whether the counts are equal.
    Counts,
    /// It does not ask for what is left over.
    LeftOver,
}

impl WrongJudge {
    pub const ALL: [(&'static str, WrongJudge); 8] = [
        ("stops-early", WrongJudge::StopsEarly),
        ("wraps", WrongJudge::Wraps),
        ("unused-fields", WrongJudge::UnusedFields),
        ("from-zero", WrongJudge::FromZero),
        ("last-wrong", WrongJudge::LastWrong),
        ("looked", WrongJudge::Looked),
        ("counts", WrongJudge::Counts),
        ("left-over", WrongJudge::LeftOver),
    ];

    pub fn named(name: &str) -> Option<WrongJudge> {
        super::named(&WrongJudge::ALL, name)
    }

    pub fn names() -> Vec<&'static str> {
        super::names(&WrongJudge::ALL)
    }

    pub fn judge(self, bytes: &[u8]) -> Verdict {
        let right = judge(bytes);
        let (mut journal, left) = match read(bytes) {
            Some(read) => read,
            None if self == WrongJudge::Wraps => return wrapped(bytes),
            None => return right,
        };
        match (self, right) {
            (WrongJudge::StopsEarly, Verdict::Unequal | Verdict::LeftOver) => {
                first_wrong(&journal, known).map_or(right, Verdict::Wrong)
            }
            (WrongJudge::UnusedFields, Verdict::Accepted | Verdict::Wrong(_)) => {
                first_wrong(&journal, Call::of_words).map_or(Verdict::Accepted, Verdict::Wrong)
            }
            (WrongJudge::FromZero, Verdict::Wrong(at)) => Verdict::Wrong(at - 1),
            (WrongJudge::LastWrong, Verdict::Wrong(at)) => {
                let mut last = at;
                let calls = journal.calls.iter().map(|words| Call::of_words(*words));
                let mut keeper = Keeper::fresh();
                for (at, (call, answer)) in (1..).zip(calls.zip(&journal.answers)) {
                    let made = call.map(|call| keeper.call(call).words());
                    if made != Some(*answer) {
                        last = at;
                    }
                }
                Verdict::Wrong(last)
            }
            (WrongJudge::Looked, Verdict::Wrong(_)) => {
                let calls = journal.calls.iter().map_while(|words| known(*words));
                let made = Journal::of_run(calls);
                for (answer, made) in journal.answers.iter_mut().zip(made.answers) {
                    answer[3] = made[3];
                }
                first_wrong(&journal, known).map_or(Verdict::Accepted, Verdict::Wrong)
            }
            (WrongJudge::Counts, Verdict::Unequal) if left == 0 => {
                first_wrong(&journal, known).map_or(Verdict::Accepted, Verdict::Wrong)
            }
            (WrongJudge::LeftOver, Verdict::LeftOver) => {
                first_wrong(&journal, known).map_or(Verdict::Accepted, Verdict::Wrong)
            }
            _ => right,
        }
    }
}

/// A short file, judged by a length of the calls cut to 64 bits.
fn wrapped(bytes: &[u8]) -> Verdict {
    let count = match bytes.get(..8).and_then(|word| word.try_into().ok()) {
        Some(word) => u64::from_le_bytes(word),
        None => return Verdict::Short,
    };
    if count.wrapping_mul(32).saturating_add(16) <= bytes.len() as u64 {
        Verdict::Unequal
    } else {
        Verdict::Short
    }
}
