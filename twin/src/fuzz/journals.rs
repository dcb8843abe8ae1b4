//! Journals of random runs: written alike, accepted, and refused at the same
//! point when they are damaged in one place.

use std::fmt;
use std::fs;
use std::path::PathBuf;

use super::process::{Other, Program, Run};
use super::stats::Stats;
use crate::journal::{judge, Journal, Verdict};
use crate::keeper::Call;
use crate::rng::Rng;
use crate::script;

/// Damaged journals of one round.
const DAMAGED: usize = 12;

/// What is done to a journal in one place: a name, and how.
pub const KINDS: [(&str, fn(&mut Rng, &mut Damaged)); 16] = [
    ("a bit of the file", bit),
    ("a byte of the file", byte),
    ("the file cut", cut),
    ("bytes added", added),
    ("the first count one more", |_, file| {
        file.count(0, |n| n.wrapping_add(1))
    }),
    ("the first count one less", |_, file| {
        file.count(0, |n| n.wrapping_sub(1))
    }),
    ("the second count one more", |_, file| {
        file.count(1, |n| n.wrapping_add(1))
    }),
    ("the second count one less", |_, file| {
        file.count(1, |n| n.wrapping_sub(1))
    }),
    ("a count that wraps", wrapping),
    ("a count by chance", |rng, file| {
        let (which, word) = (rng.index(2), rng.odd_word());
        file.count(which, |_| word);
    }),
    ("a kind", |rng, file| file.call(rng, 0)),
    ("an unused field", unused),
    ("a field of a call", |rng, file| {
        let at = 1 + rng.index(3);
        file.call(rng, at);
    }),
    ("a number of an answer", |rng, file| {
        let at = rng.index(4);
        file.answer(rng, at);
    }),
    ("two neighbours exchanged", exchanged),
    ("a call and its answer gone", gone),
];

/// A journal's bytes, and what it was.
pub struct Damaged {
    journal: Journal,
    bytes: Vec<u8>,
}

impl Damaged {
    fn place(&self, section: usize, record: usize, field: usize) -> usize {
        let skipped = if section == 0 {
            0
        } else {
            self.journal.calls.len()
        };
        8 * (section + 1) + 32 * (skipped + record) + 8 * field
    }

    fn set(&mut self, at: usize, word: u64) {
        self.bytes[at..][..8].copy_from_slice(&word.to_le_bytes());
    }

    fn count(&mut self, section: usize, to: impl Fn(u64) -> u64) {
        let at = self.place(section, 0, 0) - 8;
        self.set(at, to(self.journal.calls.len() as u64));
    }

    fn call(&mut self, rng: &mut Rng, field: usize) {
        if let Some(record) = rng.pick(&self.records()) {
            self.change(rng, 0, record, field);
        }
    }

    fn answer(&mut self, rng: &mut Rng, field: usize) {
        if let Some(record) = rng.pick(&self.records()) {
            self.change(rng, 1, record, field);
        }
    }

    fn records(&self) -> Vec<usize> {
        (0..self.journal.calls.len()).collect()
    }

    /// Another word, often a near one.
    fn change(&mut self, rng: &mut Rng, section: usize, record: usize, field: usize) {
        let list = [&self.journal.calls, &self.journal.answers][section];
        let old = list[record][field];
        let word = match rng.below(4) {
            0 => old.wrapping_add(1),
            1 => old.wrapping_sub(1),
            2 => old ^ 1 << rng.below(64),
            _ => rng.odd_word(),
        };
        let at = self.place(section, record, field);
        self.set(at, word);
    }

    fn rewrite(&mut self) {
        self.bytes = self.journal.bytes();
    }
}

fn bit(rng: &mut Rng, file: &mut Damaged) {
    let at = rng.index(file.bytes.len());
    file.bytes[at] ^= 1 << rng.below(8);
}

fn byte(rng: &mut Rng, file: &mut Damaged) {
    let at = rng.index(file.bytes.len());
    file.bytes[at] = rng.next_word() as u8;
}

fn cut(rng: &mut Rng, file: &mut Damaged) {
    let len = file.bytes.len();
    let left = match rng.below(4) {
        0 => rng.index(len),
        1 => rng.index(17.min(len)),
        2 => len - 1 - rng.index(40.min(len)),
        _ => file
            .place(1, 0, 0)
            .saturating_sub(rng.index(40))
            .min(len - 1),
    };
    file.bytes.truncate(left);
}

fn added(rng: &mut Rng, file: &mut Damaged) {
    for _ in 0..rng.one_of(&[1, 1, 7, 8, 31, 32, 64]) {
        file.bytes.push(rng.next_word() as u8);
    }
    // Now and then a wrong call stands in the same file.
    if rng.percent(50) {
        file.answer(rng, 0);
    }
}

/// A count whose 32 times in 64 bits is a small number, or the right one.
fn wrapping(rng: &mut Rng, file: &mut Damaged) {
    let high = rng.within(1, 31) << 59;
    let low = rng.one_of(&[0, 1, file.journal.calls.len() as u64]);
    file.count(rng.index(2), |_| high | low);
}

fn unused(rng: &mut Rng, file: &mut Damaged) {
    let is_unused = |words: &[u64; 4], field: usize| match words[0] {
        1 | 2 | 8 => field > 0,
        3 => field == 3,
        5..=7 => field > 1,
        _ => false,
    };
    let calls = file.journal.calls.iter().enumerate();
    let places: Vec<(usize, usize)> = calls
        .flat_map(|(at, words)| {
            (1..4)
                .filter(|field| is_unused(words, *field))
                .map(move |field| (at, field))
        })
        .collect();
    if let Some((record, field)) = rng.pick(&places) {
        file.change(rng, 0, record, field);
    }
}

fn exchanged(rng: &mut Rng, file: &mut Damaged) {
    let len = file.journal.calls.len();
    if len < 2 {
        return;
    }
    let at = rng.index(len - 1);
    match rng.below(3) {
        0 => file.journal.calls.swap(at, at + 1),
        1 => file.journal.answers.swap(at, at + 1),
        _ => {
            file.journal.calls.swap(at, at + 1);
            file.journal.answers.swap(at, at + 1);
        }
    }
    file.rewrite();
}

fn gone(rng: &mut Rng, file: &mut Damaged) {
    if let Some(at) = rng.pick(&file.records()) {
        let which = rng.below(3);
        if which != 1 {
            file.journal.calls.remove(at);
        }
        if which != 0 {
            file.journal.answers.remove(at);
        }
        file.rewrite();
    }
}

/// What was recorded and judged, counted.
#[derive(Default)]
pub struct Counts {
    recorded: u64,
    whole: u64,
    /// For each kind of damage: accepted all the same, and refused at each of
    /// the four points.
    damaged: [[u64; 5]; KINDS.len()],
}

impl Counts {
    fn see_damaged(&mut self, kind: usize, verdict: Verdict) {
        let point = match verdict {
            Verdict::Accepted => 0,
            Verdict::Short => 1,
            Verdict::Unequal => 2,
            Verdict::LeftOver => 3,
            Verdict::Wrong(_) => 4,
        };
        self.damaged[kind][point] += 1;
    }

    /// Journals judged, whole and damaged.
    pub fn judged(&self) -> u64 {
        self.whole + self.damaged.iter().flatten().sum::<u64>()
    }
}

impl fmt::Display for Counts {
    fn fmt(&self, out: &mut fmt::Formatter) -> fmt::Result {
        if self.recorded == 0 && self.whole == 0 {
            return Ok(());
        }
        writeln!(out, "journals")?;
        writeln!(out, "  {:<42} {:>10}", "scripts recorded", self.recorded)?;
        writeln!(
            out,
            "  {:<42} {:>10}",
            "whole journals accepted", self.whole
        )?;
        writeln!(
            out,
            "  damages: still accepted, and refused at points 1 to 4"
        )?;
        for ((name, _), points) in KINDS.iter().zip(&self.damaged) {
            write!(out, "    {:<32}", name)?;
            for count in points {
                write!(out, " {:>8}", count)?;
            }
            writeln!(out)?;
        }
        Ok(())
    }
}

/// A file that goes when it is no longer needed.
struct Place(PathBuf);

impl Place {
    fn new() -> Place {
        Place(std::env::temp_dir().join(format!("twin-journal-{}", std::process::id())))
    }
}

impl Drop for Place {
    fn drop(&mut self) {
        drop(fs::remove_file(&self.0));
    }
}

/// Has a script recorded and its journal judged, whole and damaged. Ok(None) if
/// all is the same, else a description; an error if a program cannot be started.
pub fn round(
    rng: &mut Rng,
    input: &[u8],
    record: Option<&Program>,
    verdict: Option<&Program>,
    stats: &mut Stats,
) -> Result<Option<String>, String> {
    let place = Place::new();
    let path = place.0.to_string_lossy().into_owned();
    let lines = input.split(|&byte| byte == b'\n');
    let calls: Vec<Call> = lines.filter_map(script::parse).collect();
    let journal = Journal::of_run(calls.iter().copied());
    let bytes = journal.bytes();
    if judge(&bytes) != Verdict::Accepted {
        return Ok(Some(
            "the twin's own mistake: it refuses its journal\n".to_string(),
        ));
    }
    if let Some(record) = record {
        stats.journals.recorded += 1;
        // What an earlier journal leaves behind must not show.
        fs::write(&place.0, b"not a journal").map_err(|error| error.to_string())?;
        let run = record.with(&path).run(input, false)?;
        let said = format!("{}\n", calls.len());
        let found = fs::read(&place.0).unwrap_or_default();
        if found != bytes || run.output != said.as_bytes() || run.failure.is_some() {
            return Ok(Some(format!(
                "the journal differs: {} bytes for {}, and it says {:?}\n{}",
                found.len(),
                bytes.len(),
                String::from_utf8_lossy(&run.output),
                failed(&run),
            )));
        }
    }
    let verdict = match verdict {
        Some(verdict) => verdict.with(&path),
        None => return Ok(None),
    };
    if let Some(difference) = judged(&verdict, &place, &bytes)? {
        return Ok(Some(difference));
    }
    stats.journals.whole += 1;
    // Shorter ones are damaged: most places are then near a limit.
    let some = rng.one_of(&[0, 1, 2, 10, 100, 1000]);
    let short = Journal::of_run(calls.iter().copied().take(some));
    for _ in 0..DAMAGED {
        let kind = rng.index(KINDS.len());
        let mut file = Damaged {
            bytes: short.bytes(),
            journal: short.clone(),
        };
        KINDS[kind].1(rng, &mut file);
        stats.journals.see_damaged(kind, judge(&file.bytes));
        if let Some(difference) = judged(&verdict, &place, &file.bytes)? {
            return Ok(Some(format!("damage: {}\n{}", KINDS[kind].0, difference)));
        }
    }
    Ok(None)
}

/// Whether the program says of the bytes what the twin says.
fn judged(verdict: &Program, place: &Place, bytes: &[u8]) -> Result<Option<String>, String> {
    fs::write(&place.0, bytes).map_err(|error| error.to_string())?;
    let run = verdict.run(b"", false)?;
    let expected = judge(bytes);
    if run.failure.is_none() && run.output == format!("{}\n", expected).as_bytes() {
        return Ok(None);
    }
    let kept = place.0.with_extension("kept");
    drop(fs::write(&kept, bytes));
    Ok(Some(format!(
        "the twin says {}, the other {:?}, of {} bytes, kept in {}\n{}",
        expected,
        String::from_utf8_lossy(&run.output),
        bytes.len(),
        kept.display(),
        failed(&run),
    )))
}

fn failed(run: &Run) -> String {
    run.failure.as_ref().map_or_else(String::new, |failure| {
        format!("the program failed: {}\n", failure)
    })
}
