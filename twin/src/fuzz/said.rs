//! Programs that read a file of lines and say what they find of it: files made and
//! counted, what is said of them compared, and a file that differs made small.

use std::fmt;
use std::time::Duration;

use super::process::{Other, Run};
use super::shown::show;
use super::shrink::{smallest, Budget};
use crate::chop::lines;
use crate::rng::Rng;

/// Files of one round: each is a run of the other program.
const FILES: usize = 40;

/// How a file is called and made, and what a program should say of it.
#[derive(Clone, Copy)]
pub struct Sayer {
    pub name: &'static str,
    pub made: fn(&mut Rng) -> Vec<u8>,
    pub expected: fn(&[u8]) -> Vec<u8>,
}

impl Sayer {
    /// One round of files, each seen before the program is asked. Some(..) tells what
    /// differs, or which mistake was seen.
    pub fn round(
        &self,
        rng: &mut Rng,
        program: &dyn Other,
        mut see: impl FnMut(&[u8]) -> Result<(), String>,
    ) -> Result<Option<String>, String> {
        for _ in 0..FILES {
            let input = (self.made)(rng);
            if let Err(mistake) = see(&input) {
                return Ok(Some(mistake));
            }
            let difference = self.held_against(program, &input)?;
            if difference.is_some() {
                return Ok(difference);
            }
        }
        Ok(None)
    }

    /// Some(..) tells what differs.
    fn held_against(&self, program: &dyn Other, input: &[u8]) -> Result<Option<String>, String> {
        let run = program.run(input, false)?;
        Ok(match self.differs(input, &run) {
            true => Some(self.report(program, input)),
            false => None,
        })
    }

    fn differs(&self, input: &[u8], run: &Run) -> bool {
        run.failure.is_some() || run.output != (self.expected)(input)
    }

    /// A file that differs, made small by leaving out lines.
    fn report(&self, program: &dyn Other, input: &[u8]) -> String {
        let all = lines(input);
        let joined = |some: &[&[u8]]| -> Vec<u8> {
            let ended = some.iter().map(|line| [line, &b"\n"[..]].concat());
            ended.collect::<Vec<Vec<u8>>>().concat()
        };
        let still = |some: &[&[u8]]| {
            let input = joined(some);
            program
                .run(&input, true)
                .map_or(false, |run| self.differs(&input, &run))
        };
        let mut budget = Budget::new(Duration::from_secs(10));
        let small = match still(&all) {
            true => joined(&smallest(&all, &mut budget, still)),
            false => input.to_vec(),
        };
        let output = program.run(&small, true).map(|run| run.output);
        format!(
            "smallest {} found, {} lines:\n{}\ntwin:\n{}program:\n{}",
            self.name,
            lines(&small).len(),
            String::from_utf8_lossy(&small),
            String::from_utf8_lossy(&(self.expected)(&small)),
            String::from_utf8_lossy(&output.unwrap_or_default())
        )
    }
}

/// Why a file is refused.
pub enum Why {
    BadLine,
    TooMany,
    UnknownItem,
}

/// Files refused, and those of them where another refusal would come later.
#[derive(Default)]
pub struct Refusals {
    bad: u64,
    bad_and_more: u64,
    too_many: u64,
    many_and_unknown: u64,
    unknown: u64,
}

impl Refusals {
    /// Counts one, of a file with too many things or an unknown item.
    pub fn see(&mut self, why: Why, many: bool, unknown: bool) {
        match why {
            Why::BadLine => {
                self.bad += 1;
                self.bad_and_more += u64::from(many || unknown);
            }
            Why::TooMany => {
                self.too_many += 1;
                self.many_and_unknown += u64::from(unknown);
            }
            Why::UnknownItem => self.unknown += 1,
        }
    }

    /// Each count with its name.
    pub fn each(&self, too_many: &'static str) -> [(&'static str, u64); 5] {
        [
            (too_many, self.too_many),
            ("  with an unknown item", self.many_and_unknown),
            ("unknown item", self.unknown),
            ("bad line", self.bad),
            ("  with one of these too", self.bad_and_more),
        ]
    }
}

/// The counts of such files under a heading, if there were any.
pub(super) fn show_files<Name: AsRef<str>>(
    out: &mut fmt::Formatter,
    heading: &str,
    files: u64,
    each: Vec<(Name, u64)>,
) -> fmt::Result {
    if files == 0 {
        return Ok(());
    }
    writeln!(out, "{}", heading)?;
    show(out, "files", files)?;
    for (name, count) in each {
        show(out, name.as_ref(), count)?;
    }
    Ok(())
}

/// Lines as a file: perhaps with comments, in so many of a hundred with an odd line, and
/// mostly with its last line ended.
pub(super) fn filed(
    rng: &mut Rng,
    all: Vec<String>,
    percent: u64,
    odd: fn(&mut Rng) -> Vec<u8>,
) -> Vec<u8> {
    let mut all: Vec<Vec<u8>> = all.into_iter().map(String::into_bytes).collect();
    with_comments(rng, &mut all);
    if rng.percent(percent) {
        let at = rng.index(all.len() + 1);
        let line = odd(rng);
        all.insert(at, line);
    }
    let mut input = all.join(&b'\n');
    if !all.is_empty() && !rng.percent(30) {
        input.push(b'\n');
    }
    input
}

/// Comments, behind lines and between them.
fn with_comments(rng: &mut Rng, all: &mut Vec<Vec<u8>>) {
    if rng.percent(30) {
        for line in all.iter_mut() {
            if rng.percent(30) {
                line.extend_from_slice(rng.one_of(&[
                    &b" #"[..],
                    b" # why",
                    b" ## reads",
                    b" #\xff",
                ]));
            }
        }
        for _ in 0..rng.below(5) {
            let comment = rng.one_of(&[
                &b""[..],
                b"#",
                b"# a comment",
                b"#T1 reads",
                b" # behind a space",
            ]);
            let at = rng.index(all.len() + 1);
            all.insert(at, comment.to_vec());
        }
    }
}
