//! Calls on tables set beforehand, good and damaged: every word compared.

use super::damage::{self, Damage};
use super::director::Director;
use super::full::full;
use super::made::made;
use super::odd_cases::{self, odd_case};
use super::process::Other;
use super::scene::Scene;
use super::small_case::{described, report};
use super::stats::Stats;
use super::{ages, empty, jobs, monitors, relaxing, settling, waiters};
use super::{relaxed, settled};
use crate::answer::{code, Answer};
use crate::clauses::{self, Clause};
use crate::keeper::{Call, Keeper};
use crate::protocol::{push_outcome, Case, Tables, BAD};
use crate::rng::Rng;
use crate::sizes::LAST;

/// Cases of one run of the other program.
const BATCH: usize = 300;

/// How many of a hundred cases have an odd line before them.
const ODD: u64 = 5;

/// One case, what was done to its tables, and the outcome the twin expects.
struct Prepared {
    case: Case,
    damage: usize,
    expected: Vec<u8>,
}

/// A line that was sent.
enum Sent {
    Case(Prepared),
    Odd {
        kind: usize,
        line: Vec<u8>,
        expected: Vec<u8>,
    },
}

/// The cases of one round, and the lines that they are sent as.
pub struct Batch {
    sent: Vec<Sent>,
    input: Vec<u8>,
}

impl Batch {
    /// Makes one. An error tells what the twin finds wrong with itself.
    pub fn make(rng: &mut Rng, samples: &[Keeper], stats: &mut Stats) -> Result<Batch, String> {
        let mut director = Director::new();
        let mut sent = Vec::with_capacity(BATCH);
        let mut input = Vec::new();
        for _ in 0..BATCH {
            let prepared = prepare(rng, samples, &mut director);
            count(stats, &prepared)?;
            if rng.percent(ODD) {
                sent.push(odd(rng, &prepared.case, stats, &mut input));
            }
            prepared.case.push(&mut input);
            sent.push(Sent::Case(prepared));
        }
        if rng.percent(20) {
            input.pop(); // the end of input ends the last line too
        }
        Ok(Batch { sent, input })
    }

    /// Has it answered and compares. Ok(None) if all is the same, else a
    /// description; an error if the other cannot be tried.
    pub fn held_against(&self, other: &dyn Other) -> Result<Option<String>, String> {
        let run = other.run(&self.input, false)?;
        let mut outcomes = run.output.split(|&byte| byte == b'\n');
        for (at, sent) in self.sent.iter().enumerate() {
            let outcome = outcomes.next().unwrap_or_default();
            let expected = match sent {
                Sent::Case(prepared) => &prepared.expected,
                Sent::Odd { expected, .. } => expected,
            };
            if outcome != &expected[..] {
                let mut text = format!("line {} of its batch\n", at + 1);
                if let Some(failure) = &run.failure {
                    text += &format!("the program failed: {}\n", failure);
                }
                return Ok(Some(text + &told(other, sent, outcome)));
            }
        }
        let rest: Vec<u8> = outcomes.flatten().copied().collect();
        Ok(match (run.failure, rest.is_empty()) {
            (Some(failure), _) => Some(format!("the program failed at its end: {}\n", failure)),
            (None, false) => Some("more outcomes than cases\n".to_string()),
            (None, true) => None,
        })
    }
}

/// Sends an odd line made from a case.
fn odd(rng: &mut Rng, case: &Case, stats: &mut Stats, input: &mut Vec<u8>) -> Sent {
    let (kind, line) = odd_case(rng, case);
    let expected = match Case::parse(&line) {
        Some(case) => outcome(&case),
        None => BAD.to_vec(),
    };
    stats.see_odd_case(kind, expected == BAD);
    input.extend_from_slice(&line);
    input.push(b'\n');
    Sent::Odd {
        kind,
        line,
        expected,
    }
}

/// What differs.
fn told(other: &dyn Other, sent: &Sent, outcome: &[u8]) -> String {
    match sent {
        Sent::Case(prepared) => {
            let damage = damage::KINDS[prepared.damage].0;
            format!("damage: {}\n", damage) + &report(other, &prepared.case)
        }
        Sent::Odd {
            kind,
            line,
            expected,
        } => format!(
            "odd line: {}\n  line:    {}\n  twin:    {}\n  program: {}\n",
            odd_cases::KINDS[*kind].0,
            start(line),
            start(expected),
            start(outcome)
        ),
    }
}

/// The first bytes of a line.
fn start(line: &[u8]) -> String {
    let shown = &line[..line.len().min(200)];
    let more = if shown.len() < line.len() { ".." } else { "" };
    format!("{}{}", shown.escape_ascii(), more)
}

/// Tables from a run, made by chance, full or fresh; a call that suits them; and
/// mostly some damage.
fn prepare(rng: &mut Rng, samples: &[Keeper], director: &mut Director) -> Prepared {
    loop {
        let (keeper, shows) = match (rng.below(11), samples.is_empty()) {
            (0, _) => (Keeper::fresh(), None),
            (1, _) => {
                let (keeper, call) = full(rng);
                (keeper, Some(call))
            }
            (2..=4, _) | (_, true) => (made(rng), None),
            _ => (samples[rng.index(samples.len())].clone(), None),
        };
        let mut call = director.next(rng, &keeper);
        let mut tables = Tables::from(&keeper);
        let kind = match rng.below(20) {
            0..=3 => 0,
            4..=8 => rng.index(damage::HARMLESS),
            9..=11 => damage::HARMLESS + rng.index(damage::UNAIMED - damage::HARMLESS),
            _ => damage::UNAIMED + rng.index(damage::KINDS.len() - damage::UNAIMED),
        };
        let (_, damage): (_, Damage) = damage::KINDS[kind];
        if damage(rng, &mut tables) {
            if let Some(telling) = shows.or_else(|| telling_call(rng, &tables)) {
                call = telling;
            }
            let case = Case { call, tables };
            return Prepared {
                expected: outcome(&case),
                damage: kind,
                case,
            };
        }
    }
}

/// Where an update has as many items as it may, or one less, where there are
/// waiters, where some are past their writing, where some wrote nothing or
/// little, where queries have read much, and where some are relaxed: often a call that
/// shows it.
fn telling_call(rng: &mut Rng, tables: &Tables) -> Option<Call> {
    let keeper = tables.as_keeper().filter(Keeper::is_good)?;
    let scene = Scene::of(&keeper);
    if scene.count(|txn| txn.is_relaxed) > 0 && rng.percent(50) {
        return relaxing::telling(rng, &scene);
    }
    // A spent clock hinders few calls; commits are among them.
    let chances = if scene.clock() == LAST { 20 } else { 14 };
    match rng.below(chances) {
        0..=2 => jobs::at_limit(rng, &scene).or_else(|| waiters::telling(rng, &scene)),
        3 => waiters::telling(rng, &scene),
        4..=7 => settling::telling(rng, &scene),
        8 => None,
        9..=11 => ages::telling(rng, &scene),
        _ => monitors::telling(rng, &scene),
    }
}

/// The twin's outcome of a case, without its line end.
pub fn outcome(case: &Case) -> Vec<u8> {
    let mut after = case.tables.clone();
    let answer = after.call(case.call);
    let mut out = Vec::new();
    push_outcome(&mut out, answer, &after);
    out.pop();
    out
}

/// Counts a case. The twin's own two tests of the tables must agree.
fn count(stats: &mut Stats, prepared: &Prepared) -> Result<(), String> {
    let Tables {
        txns,
        locks,
        versions,
    } = &prepared.case.tables;
    let broken = clauses::broken(txns, locks, versions);
    let mut after = prepared.case.tables.clone();
    let answer = after.call(prepared.case.call);
    let code = answer.code;
    let is_bad = code == code::BAD_TABLES;
    stats.cases += 1;
    stats.case_codes[code as usize] += 1;
    stats.damages[prepared.damage].0 += 1;
    stats.damages[prepared.damage].1 += u64::from(is_bad);
    for (clause, count) in Clause::ALL.iter().zip(&mut stats.clauses) {
        count.0 += u64::from(broken.contains(clause));
        count.1 += u64::from(broken == [*clause]);
    }
    if broken.is_empty() {
        stats.fullness.see(&prepared.case.tables);
        see_caller(stats, &prepared.case, answer, &after);
    }
    if is_bad == broken.is_empty() {
        let text = format!(
            "the twin disagrees with itself; clauses broken: {:?}\n",
            broken
        );
        return Err(text + &described(&prepared.case));
    }
    Ok(())
}

/// Counts what a case on good tables has to do with those past their writing, with
/// commits of nothing, with what queries have read, and with relaxed ones.
fn see_caller(stats: &mut Stats, case: &Case, answer: Answer, after: &Tables) {
    if let (Some(before), Some(after)) = (case.tables.as_keeper(), after.as_keeper()) {
        let scene = Scene::of(&before);
        let caller = case.call.number().and_then(|number| scene.find(number));
        if let Some(standing) = relaxed::Standing::of(&scene, caller.as_ref(), case.call) {
            let caller = caller.as_ref();
            let counts = &mut stats.case_relaxed;
            counts.see(case.call, caller, &standing, answer, &after);
        }
        if let Some(txn) = caller {
            let standing = settled::Standing::of(&scene, &txn, case.call);
            stats.case_settled.begin_anew();
            stats.case_settled.see(case.call, &standing, answer, &after);
            let standing = empty::Standing::of(&scene, &txn, case.call);
            stats.case_empty.begin_anew();
            let standing = standing.as_ref();
            stats.case_empty.see(case.call, &txn, standing, answer);
            stats.case_ages.see(case.call, &txn, answer);
        }
    }
}

#[cfg(test)]
mod tests {
    use super::*;

    #[test]
    fn every_clause_alone_and_all_that_is_counted() {
        let (mut stats, mut director) = (Stats::new(), Director::new());
        let mut rng = Rng::new(1);
        for _ in 0..24_000 {
            let prepared = prepare(&mut rng, &[], &mut director);
            assert_eq!(count(&mut stats, &prepared), Ok(()));
        }
        for (clause, (_, alone)) in Clause::ALL.into_iter().zip(stats.clauses) {
            assert!(alone > 5, "{}: {}", clause.name(), alone);
        }
        let mut counted = stats.case_settled.in_cases();
        counted.extend(stats.case_empty.in_cases());
        counted.extend(stats.case_ages.in_cases());
        for (name, count) in counted {
            assert!(count > 5, "{}: {}", name, count);
        }
        for (name, count) in stats.case_relaxed.each() {
            assert!(count > 2, "{}: {}", name, count);
        }
    }
}
