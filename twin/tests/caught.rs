//! The fuzzer catches every keeper that is wrong on purpose, within the fixed
//! rounds of `./keeper test`, and leaves the right one alone.
//!
//! Each round is made once and held against all programs that are not caught yet:
//! making it takes far longer than a run of a program. Nor does one have to be
//! started for every try to make a difference small: its keeper is called instead.

use std::io;
use std::process::{Command, Output};

use twin::fuzz::cases::Batch;
use twin::fuzz::process::{Other, Program, Run};
use twin::fuzz::stats::Stats;
use twin::fuzz::{begin, cuts, fines, scripts};
use twin::protocol;
use twin::rng::Rng;
use twin::wrong::{WrongCut, WrongFine, WrongJudge, WrongRunner, WrongSize, WrongTables};

const FUZZ: &str = env!("CARGO_BIN_EXE_fuzz");
const RUNNER: &str = env!("CARGO_BIN_EXE_twin-run");
const TABLES: &str = env!("CARGO_BIN_EXE_twin-tables");
const RECORD: &str = env!("CARGO_BIN_EXE_twin-record");
const VERDICT: &str = env!("CARGO_BIN_EXE_twin-verdict");
const CUT: &str = env!("CARGO_BIN_EXE_twin-cut");
const FINE: &str = env!("CARGO_BIN_EXE_twin-fine");

fn fuzz(arguments: &[&str]) -> Output {
    let mut command = Command::new(FUZZ);
    command.args(arguments);
    command.output().expect("fuzz can be started")
}

fn text(output: &Output) -> String {
    String::from_utf8_lossy(&output.stdout).into_owned()
}

/// The number of lines of the smallest script that a report tells of.
fn smallest(report: &str) -> usize {
    let mark = "smallest script found, ";
    let at = report.find(mark).expect("a small script is shown") + mark.len();
    let word = report[at..].split(' ').next().unwrap_or_default();
    word.parse().expect("the number of its lines")
}

/// The rounds of `./keeper test` for a program: seed 1, and so many.
const SEED: u64 = 1;
const OF_SCRIPTS: u64 = 250;
const OF_TABLES: u64 = 80;
const OF_JOURNALS: u64 = 60;
const OF_CUTS: u64 = 30;

/// A program that is wrong in one way, and the same keeper in this process.
struct Wrong<F> {
    program: Program,
    inside: F,
}

impl<F: Fn(&[u8], &mut Vec<u8>) -> io::Result<()>> Wrong<F> {
    fn new(path: &str, kind: &str, inside: F) -> Wrong<F> {
        let path = path.to_string();
        let arguments = vec!["--wrong".to_string(), kind.to_string()];
        let program = Program { path, arguments };
        Wrong { program, inside }
    }
}

impl<F: Fn(&[u8], &mut Vec<u8>) -> io::Result<()>> Other for Wrong<F> {
    fn run(&self, input: &[u8], is_try: bool) -> Result<Run, String> {
        if !is_try {
            return self.program.run(input, is_try);
        }
        let mut output = Vec::new();
        (self.inside)(input, &mut output).expect("memory does not fail");
        let failure = None;
        Ok(Run { output, failure })
    }
}

#[test]
fn wrong_runners_are_caught() {
    let mut stats = Stats::new();
    let mut left = WrongRunner::names();
    for round in 0..OF_SCRIPTS {
        if left.is_empty() {
            break;
        }
        let (script, _) = begin(SEED, round, false, &mut stats);
        assert_eq!(script.own_mistake, None);
        left.retain(|name| {
            let kind = WrongRunner::named(name).expect("a name from the list");
            let runner = Wrong::new(RUNNER, name, |input, output| kind.run(input, output));
            let run = runner.run(&script.input, false).expect("it can be started");
            let is_caught = scripts::differs(&script.expected, &run);
            if is_caught {
                let report = scripts::report(&runner, &script.input, &run);
                println!("{}: round {}, {} lines", name, round, smallest(&report));
                is_small(name, &report);
            }
            !is_caught
        });
    }
    assert!(left.is_empty(), "not caught: {:?}", left);
}

fn is_small(name: &str, report: &str) {
    assert!(report.contains("first differing line: "), "{}", name);
    // A row of all versions takes four lines for each, or five where one past its
    // writing reads it; a circle of all slots three for each.
    let is_size = WrongSize::ALL.iter().any(|(size, _)| *size == name);
    let needs_many = is_size || ["age-at-most-16", "circles-of-two"].contains(&name);
    let most = if needs_many { 5 * 32 + 10 } else { 40 };
    let lines = smallest(report);
    assert!(lines <= most, "{}: {} lines are many", name, lines);
}

#[test]
fn wrong_tables_are_caught() {
    let mut stats = Stats::new();
    let mut left = WrongTables::names();
    for round in 0..OF_TABLES {
        if left.is_empty() {
            break;
        }
        let (script, mut rng) = begin(SEED, round, true, &mut stats);
        let batch = Batch::make(&mut rng, &script.samples, &mut stats).unwrap();
        left.retain(|name| {
            let kind = WrongTables::named(name).expect("a name from the list");
            let tables = Wrong::new(TABLES, name, |input, output| {
                protocol::run(input, output, |call, tables| kind.call(call, tables))
            });
            let report = batch.held_against(&tables).expect("it can be started");
            if let Some(report) = &report {
                println!("{}: round {}", name, round);
                let is_told =
                    report.contains("smallest case found") || report.contains("odd line: ");
                assert!(is_told, "{}: {}", name, report);
            }
            report.is_none()
        });
    }
    assert!(left.is_empty(), "not caught: {:?}", left);
}

/// What the fuzzer itself reports of a program that is wrong in one way.
fn report_of(option: &str, path: &str, kind: &str, rounds: u64) -> String {
    let (next, rounds) = (format!("{}-arg", option), rounds.to_string());
    let output = fuzz(&[
        option, path, &next, "--wrong", &next, kind, "--seed", "1", "--rounds", &rounds,
    ]);
    assert_eq!(output.status.code(), Some(1), "{} is not caught", kind);
    let report = text(&output);
    assert!(report.contains("difference at seed 1 round "), "{}", kind);
    report
}

#[test]
fn the_fuzzer_itself_tells() {
    for kind in [
        "no-trim",
        "quota-33",
        "overtake",
        "settled-no-wait",
        "empty-new-stamp",
        "age-waits",
        "relaxed-follows-no-write",
        "slots-16",
    ] {
        let report = report_of("--runner", RUNNER, kind, OF_SCRIPTS);
        is_small(kind, &report);
    }
    for kind in [
        "circle",
        "stale-rank",
        "settle-clock-first",
        "empty-spent",
        "age-sum-wraps",
        "relaxed-waits-outside",
        "places-31",
    ] {
        let report = report_of("--tables", TABLES, kind, OF_TABLES);
        assert!(report.contains("smallest case found"), "{}", kind);
    }
}

#[test]
fn wrong_judges_are_caught() {
    for kind in WrongJudge::names() {
        let report = report_of("--verdict", VERDICT, kind, OF_JOURNALS);
        assert!(report.contains("the twin says "), "{}", kind);
    }
}

/// A wrong judge of choppings, or a wrong finest cut, in this process.
struct Says<F: Fn(&[u8]) -> Vec<u8>>(F);

impl<F: Fn(&[u8]) -> Vec<u8>> Other for Says<F> {
    fn run(&self, input: &[u8], _: bool) -> Result<Run, String> {
        let output = (self.0)(input);
        let failure = None;
        Ok(Run { output, failure })
    }
}

/// A round of files held against a program.
type Round = fn(&mut Rng, &dyn Other, &mut Stats) -> Result<Option<String>, String>;

fn caught_by(round: Round, name: &str, other: &dyn Other, shown: &str) {
    let mut stats = Stats::new();
    let caught = (0..OF_CUTS).find_map(|at| {
        let mut rng = Rng::for_round(SEED, at);
        round(&mut rng, other, &mut stats).expect("it can be tried")
    });
    let report = caught.unwrap_or_else(|| panic!("{} is not caught", name));
    assert!(report.contains(shown), "{}: {}", name, report);
}

#[test]
fn wrong_judges_of_choppings_are_caught() {
    let shown = "smallest chopping found";
    for (name, kind) in WrongCut::ALL {
        let says = Says(|input: &[u8]| format!("{}\n", kind.judge(input)).into_bytes());
        caught_by(cuts::round, name, &says, shown);
    }
    assert!(report_of("--cut", CUT, "conflicts-between", OF_CUTS).contains(shown));
}

#[test]
fn wrong_finest_cuts_are_caught() {
    let shown = "smallest programs found";
    for (name, kind) in WrongFine::ALL {
        caught_by(
            fines::round,
            name,
            &Says(|input: &[u8]| kind.cut(input)),
            shown,
        );
    }
    assert!(report_of("--fine", FINE, "no-marks", OF_CUTS).contains(shown));
}

#[test]
fn a_wrong_record_is_caught() {
    // It writes no file at all.
    let output = fuzz(&["--record", "true", "--seed", "1", "--rounds", "3"]);
    assert_eq!(output.status.code(), Some(1));
    assert!(text(&output).contains("the journal differs"));
}

#[test]
fn the_right_ones_are_not() {
    let output = fuzz(&[
        "--runner",
        RUNNER,
        "--tables",
        TABLES,
        "--record",
        RECORD,
        "--verdict",
        VERDICT,
        "--cut",
        CUT,
        "--fine",
        FINE,
        "--seed",
        "2",
        "--rounds",
        "12",
    ]);
    let report = text(&output);
    assert_eq!(output.status.code(), Some(0), "{}", report);
    assert!(report.ends_with("no difference\n"));
    assert!(report.contains("seed 2, 12 rounds, "));
    assert!(report.contains(", code 11 in "));
    assert!(!report.contains(", code 11 in 0 calls"));
    assert!(report.contains(", code 12 in "));
    assert!(!report.contains(", code 12 in 0 calls"));
    assert!(!report.contains(" calls and 0 cases, "));
}

#[test]
fn a_runner_that_fails_is_caught() {
    // No script gives this runner anything to say, and it ends with status 1.
    let output = fuzz(&["--runner", "false", "--seed", "1", "--rounds", "3"]);
    assert_eq!(output.status.code(), Some(1));
    assert!(text(&output).contains("the runner failed: "));
}

#[test]
fn what_cannot_be_tried_is_said() {
    let wrong: [&[&str]; 6] = [
        &[],
        &["--runner", RUNNER],
        &["--seconds", "1"],
        &["--runner-arg", "x", "--runner", RUNNER, "--rounds", "1"],
        &["--runner", RUNNER, "--rounds", "many"],
        &["--runner", "/no/such/program", "--rounds", "1"],
    ];
    for arguments in wrong {
        assert_eq!(fuzz(arguments).status.code(), Some(2), "{:?}", arguments);
    }
}
