//! Scripts: made while the twin runs them, given to the other runner, compared.

use std::collections::{BTreeMap, BTreeSet};
use std::time::Duration;

use super::director::Director;
use super::process::{Other, Run};
use super::shrink::{smallest, Budget};
use super::spoil::spoil;
use super::stats::Stats;
use crate::answer::{code, Answer};
use crate::keeper::{Call, Keeper};
use crate::rng::Rng;
use crate::script::{self, LINE_BYTES};

/// A script and what the twin answers to it.
#[derive(Default)]
pub struct Script {
    pub input: Vec<u8>,
    pub expected: Vec<u8>,
    /// Tables met on the way.
    pub samples: Vec<Keeper>,
    /// What the twin finds wrong with itself.
    pub own_mistake: Option<String>,
}

/// Makes a script, steered by what the twin's tables hold.
pub fn make(rng: &mut Rng, stats: &mut Stats, samples: usize) -> Script {
    let lines = match rng.below(12) {
        0 => rng.below(4),
        1 => rng.within(4, 500),
        _ => rng.within(2_000, 20_000),
    };
    let odd = rng.one_of(&[0, 2, 2, 5, 20, 80]);
    stats.new_script();
    let mut script = Script::default();
    let mut director = Director::new();
    let mut keeper = Keeper::fresh();
    let mut line = Vec::new();
    for _ in 0..lines {
        line.clear();
        let call = director.next(rng, &keeper);
        let mut kind = None;
        if rng.percent(odd) {
            let (spoilt, bytes) = spoil(rng, call);
            kind = Some(spoilt);
            line.extend_from_slice(&bytes);
        } else {
            script::push_call(&mut line, call);
        }
        let parsed = script::parse(&line);
        if let Some(kind) = kind {
            stats.see_odd_line(kind, parsed.is_none());
        }
        match parsed {
            None => script.expected.extend_from_slice(script::BAD),
            Some(call) => {
                let before = stats.before(&keeper, call);
                let answer = keeper.call(call);
                stats.see(call, &before, answer, &keeper);
                script::push_answer(&mut script.expected, answer);
                if answer.code == code::BAD_TABLES {
                    script.own_mistake = Some(format!("10 after {:?}", call));
                }
            }
        }
        script.input.extend_from_slice(&line);
        script.input.push(b'\n');
        stats.lines += 1;
        if samples > 0 && script.samples.len() < samples && rng.below(lines) < samples as u64 {
            script.samples.push(keeper.clone());
        }
    }
    // Without its last line end the script is the same, unless it ended with
    // an empty line.
    let ends_empty = script.input.ends_with(b"\n\n") || script.input == b"\n";
    if lines == 0 {
        stats.empty_scripts += 1;
    } else if rng.percent(40) && !ends_empty {
        script.input.pop();
        stats.unended_scripts += 1;
    }
    script
}

/// What the twin answers to a whole input.
pub fn answers(input: &[u8]) -> Vec<u8> {
    let mut keeper = Keeper::fresh();
    let mut output = Vec::new();
    script::run(input, &mut output, |call| keeper.call(call)).expect("memory does not fail");
    output
}

/// Whether a run is not what the twin expects.
pub fn differs(expected: &[u8], run: &Run) -> bool {
    run.failure.is_some() || run.output != expected
}

/// The lines of an input or an output.
fn lines(bytes: &[u8]) -> Vec<&[u8]> {
    let mut lines: Vec<&[u8]> = bytes.split(|&byte| byte == b'\n').collect();
    if lines.last().map_or(false, |line| line.is_empty()) {
        lines.pop();
    }
    lines
}

/// The first line, from 1, in which two outputs differ.
fn first_difference(expected: &[u8], output: &[u8]) -> usize {
    let (expected, output) = (lines(expected), lines(output));
    let same = expected
        .iter()
        .zip(&output)
        .take_while(|(one, other)| one == other);
    same.count() + 1
}

/// A line of a script to be made small.
#[derive(Clone)]
struct Line {
    bytes: Vec<u8>,
    call: Option<Call>,
    /// The number given, if this line began a transaction.
    given: Option<u64>,
    /// The code of the answer; none if the line is no call.
    code: Option<u64>,
}

impl Line {
    /// Whose line it is.
    fn owner(&self) -> Option<u64> {
        self.given.or(self.call.and_then(Call::number))
    }

    fn is_granted(&self) -> bool {
        self.code == Some(code::GRANTED)
    }
}

/// The lines without those of other transactions; what is nobody's stays.
fn of_these(lines: &[Line], numbers: &[u64]) -> Vec<Line> {
    let is_left = |line: &&Line| match line.owner() {
        Some(number) => numbers.binary_search(&number).is_ok(),
        None => true,
    };
    lines.iter().filter(is_left).cloned().collect()
}

/// So many lines at the end, and before them only those that made what there was
/// then: what was granted to those that lived, and their waits. With what was
/// committed, or without it.
fn of_the_living(lines: &[Line], recent: usize, with_committed: bool) -> Vec<Line> {
    let (before, recent) = lines.split_at(lines.len().saturating_sub(recent));
    let (mut gone, mut queries) = (BTreeSet::new(), BTreeSet::new());
    let mut granted = BTreeMap::new();
    for (at, line) in before.iter().enumerate() {
        if let (Some(call), Some(owner), true) = (line.call, line.owner(), line.is_granted()) {
            granted.insert(owner, at);
            let stays = with_committed && !queries.contains(&owner);
            match call {
                Call::Query | Call::Relaxed => queries.insert(owner),
                Call::Commit { .. } if !stays => gone.insert(owner),
                Call::Abort { .. } => gone.insert(owner),
                _ => false,
            };
        }
    }
    let is_left = |(at, line): &(usize, &Line)| match line.owner() {
        Some(owner) if !gone.contains(&owner) => {
            let is_last = granted.get(&owner).map_or(false, |last| at > last);
            line.is_granted() || is_last && line.code == Some(code::WAIT)
        }
        _ => false,
    };
    let left = before.iter().enumerate().filter(is_left);
    left.map(|(_, line)| line).chain(recent).cloned().collect()
}

/// Puts lines together again after others were left out: numbers follow the
/// begins that are still there, and calls of those that are not go too.
fn put_together(lines: &[Line], all: &BTreeSet<u64>, ends: bool) -> Vec<u8> {
    let mut keeper = Keeper::fresh();
    let mut numbers = BTreeMap::new();
    let mut input = Vec::new();
    for line in lines {
        let mut bytes = line.bytes.clone();
        if let Some(call) = line.call {
            let mut call = call;
            if let Some(number) = call.number() {
                match (numbers.get(&number), all.contains(&number)) {
                    (Some(&now), _) if now != number => {
                        call = call.with_number(now);
                        bytes = renumbered(&line.bytes, now);
                    }
                    (None, true) => continue,
                    _ => {}
                }
            }
            let answer = keeper.call(call);
            if let (Some(given), code::GRANTED) = (line.given, answer.code) {
                numbers.insert(given, answer.number);
            }
        }
        input.extend_from_slice(&bytes);
        input.push(b'\n');
    }
    if !ends {
        input.pop();
    }
    input
}

/// The line of a call with another number in the first place. Leading zeros make
/// up for its length if the number has any, or if the line is about as long as a
/// line may be: there each byte counts.
fn renumbered(line: &[u8], number: u64) -> Vec<u8> {
    let mut parts: Vec<Vec<u8>> = line
        .split(|&byte| byte == b' ')
        .map(<[u8]>::to_vec)
        .collect();
    let keeps_length = parts[1][0] == b'0' || line.len() + 1 >= LINE_BYTES;
    let zeros = if keeps_length { parts[1].len() } else { 0 };
    parts[1] = format!("{:0>width$}", number, width = zeros).into_bytes();
    parts.join(&b' ')
}

/// Describes a difference: where it is, and a small script that shows it.
pub fn report(other: &dyn Other, input: &[u8], run: &Run) -> String {
    let expected = answers(input);
    let at = first_difference(&expected, &run.output);
    let mut text = format!("first differing line: {}\n", at);
    if let Some(failure) = &run.failure {
        text += &format!("the runner failed: {}\n", failure);
    }
    text += &shown(input, &expected, &run.output, at.saturating_sub(3)..at);

    let ends = input.ends_with(b"\n");
    let mut keeper = Keeper::fresh();
    let mut all = BTreeSet::new();
    let list: Vec<Line> = lines(input)
        .into_iter()
        .map(|bytes| {
            let call = script::parse(bytes);
            let answer = call.map(|call| keeper.call(call));
            let given = match (call, answer) {
                (
                    Some(Call::Update | Call::Query | Call::Relaxed),
                    Some(Answer {
                        code: 0, number, ..
                    }),
                ) => {
                    all.insert(number);
                    Some(number)
                }
                _ => None,
            };
            Line {
                bytes: bytes.to_vec(),
                call,
                given,
                code: answer.map(|answer| answer.code),
            }
        })
        .collect();
    let stays = |some: &[Line]| {
        let input = put_together(some, &all, ends);
        match other.run(&input, true) {
            Ok(run) => differs(&answers(&input), &run),
            Err(_) => false,
        }
    };
    let mut budget = Budget::new(Duration::from_secs(20));
    // What comes after the difference is mostly of no use.
    let head = &list[..at.min(list.len())];
    let mut list = if stays(head) { head.to_vec() } else { list };
    // Nor is what led to nothing that is left, or what most transactions did.
    for recent in [1, 10, 30, 100, 300, 1000, 2000, 4000, 8000] {
        let fewer = [false, true].map(|committed| of_the_living(&list, recent, committed));
        if let Some(fewer) = fewer.into_iter().find(|fewer| stays(fewer)) {
            list = fewer;
            break;
        }
    }
    let numbers: Vec<u64> = list.iter().filter_map(|line| line.given).collect();
    let left = smallest(&numbers, &mut budget, |some| stays(&of_these(&list, some)));
    let small = smallest(&of_these(&list, &left), &mut budget, stays);
    let input = put_together(&small, &all, ends);
    let output = match other.run(&input, true) {
        Ok(run) => run.output,
        Err(_) => Vec::new(),
    };
    let expected = answers(&input);
    let count = lines(&input).len();
    text += &format!(
        "smallest script found, {} lines after {} tries",
        count, budget.tries
    );
    text += if ends { ":\n" } else { ", no last line end:\n" };
    text + &shown(&input, &expected, &output, 0..count)
}

/// Some lines of a script beside what the twin and the runner answer.
fn shown(input: &[u8], expected: &[u8], output: &[u8], range: std::ops::Range<usize>) -> String {
    let (input, expected, output) = (lines(input), lines(expected), lines(output));
    let cell = |list: &[&[u8]], at: usize| match list.get(at) {
        Some(line) => line.escape_ascii().to_string(),
        None => "(nothing)".to_string(),
    };
    let mut text = format!("  {:<30} {:<24} {}\n", "line", "twin", "runner");
    for at in range {
        let (line, twin, runner) = (cell(&input, at), cell(&expected, at), cell(&output, at));
        let mark = if twin == runner { ' ' } else { '*' };
        text += &format!("{} {:<30} {:<24} {}\n", mark, line, twin, runner);
    }
    text
}

#[cfg(test)]
mod tests {
    use super::*;
    use crate::sizes::SLOTS;

    #[test]
    fn the_steered_answers_are_the_runners() {
        let mut stats = Stats::new();
        for seed in 0..40 {
            let script = make(&mut Rng::new(seed), &mut stats, 0);
            assert!(script.own_mistake.is_none());
            assert!(answers(&script.input) == script.expected, "seed {}", seed);
        }
        for code in (0..8).chain(
            [code::QUOTA_SPENT, code::PAST_WRITING, code::NOT_BESIDE].map(|code| code as usize),
        ) {
            assert!(stats.codes[code] > 100, "code {}", code);
        }
        // Every place in a row, every length of a line and of a circle.
        assert!(stats.looked.iter().all(|&count| count > 0));
        assert!(stats.in_line.lengths().all(|(_, count)| count > 10));
        assert!(stats.circles[2..].iter().all(|&count| count > 0));
        assert!(stats.circles[SLOTS] > 10);
        // All that those past their writing can do while the clock is not spent.
        // So of commits with nothing written.
        let mut counted = stats.settled.in_scripts();
        counted.extend(stats.empty.in_scripts());
        counted.extend(stats.ages.in_scripts());
        counted.extend(stats.relaxed.each());
        for (name, count) in counted {
            assert!(count > 20, "{}: {}", name, count);
        }
        let crowds = stats.settled.crowds();
        assert!(crowds.iter().all(|(_, count)| *count > 5));
        let crowds = stats.relaxed.crowds();
        assert!(crowds.iter().all(|(_, count)| *count > 5));
    }

    #[test]
    fn numbers_follow_their_begins() {
        let text: &[u8] = b"update\nquery\nread 002 5\nread 1 7\nno\nread 9 9";
        let given = [Some(1), Some(2), None, None, None, None];
        let list: Vec<Line> = lines(text)
            .into_iter()
            .zip(given)
            .map(|(bytes, given)| Line {
                bytes: bytes.to_vec(),
                call: script::parse(bytes),
                given,
                code: None,
            })
            .collect();
        let all = BTreeSet::from([1, 2]);
        assert_eq!(put_together(&list, &all, false), text);
        assert_eq!(
            put_together(&list[1..], &all, true),
            b"query\nread 001 5\nno\nread 9 9\n"
        );
    }

    #[test]
    fn long_lines_keep_their_length() {
        let line = |number: &str, zeros: usize| format!("read {} {:0>zeros$}", number, 5);
        let renumbered = |number: &str, zeros: usize, now: u64| {
            String::from_utf8(renumbered(line(number, zeros).as_bytes(), now)).unwrap()
        };
        assert_eq!(line("175", 71).len(), LINE_BYTES);
        assert_eq!(renumbered("175", 71, 1), line("001", 71));
        assert_eq!(renumbered("175", 70, 1), line("001", 70));
        assert_eq!(renumbered("175", 69, 1), line("1", 69));
    }
}
