//! The fuzzer: the twin against another runner, against another program for
//! tables set beforehand, against programs that write and judge journals, and against
//! those that judge choppings and make the finest one.

pub mod actions;
pub mod ages;
pub mod cases;
pub mod cuts;
pub mod damage;
pub mod director;
pub mod empty;
pub mod fines;
pub mod full;
pub mod fullness;
pub mod in_line;
pub mod jobs;
pub mod journals;
pub mod limit;
pub mod line;
pub mod made;
pub mod monitors;
pub mod moods;
pub mod odd_cases;
pub mod process;
pub mod relaxed;
pub mod relaxing;
pub mod rings;
pub mod said;
pub mod scene;
pub mod scripts;
pub mod sets;
pub mod settled;
pub mod settling;
pub mod shown;
pub mod shrink;
pub mod small_case;
pub mod spoil;
pub mod stats;
pub mod waiters;

use std::time::{Duration, Instant};

use self::cases::Batch;
use self::process::{Other, Program};
use self::scripts::Script;
use self::stats::Stats;
use crate::rng::Rng;

/// What to do.
#[derive(Clone, Debug, Default)]
pub struct Options {
    pub runner: Option<Program>,
    pub tables: Option<Program>,
    pub record: Option<Program>,
    pub verdict: Option<Program>,
    pub cut: Option<Program>,
    pub fine: Option<Program>,
    pub seed: u64,
    pub first_round: u64,
    pub rounds: Option<u64>,
    pub seconds: Option<u64>,
}

/// How it ended.
pub enum Ending {
    Same,
    Different(String),
}

/// Tables kept of each script for the second part.
const SAMPLES: usize = 60;

/// Runs rounds until the time or their number is up, or something differs. An
/// error if a program cannot be started.
pub fn run(options: &Options, stats: &mut Stats) -> Result<Ending, String> {
    let begin = Instant::now();
    let mut told = begin;
    let time = options.seconds.map(Duration::from_secs);
    let mut round = options.first_round;
    loop {
        let is_over = time.map_or(false, |time| begin.elapsed() >= time)
            || options
                .rounds
                .map_or(false, |rounds| stats.rounds >= rounds);
        if is_over {
            return Ok(Ending::Same);
        }
        if let Some(difference) = one_round(options, round, stats)? {
            let place = format!("difference at seed {} round {}\n", options.seed, round);
            return Ok(Ending::Different(place + &difference));
        }
        stats.rounds += 1;
        round += 1;
        if told.elapsed() >= Duration::from_secs(5) {
            told = Instant::now();
            eprintln!(
                "fuzz: {} s, {} rounds, {} lines, {} cases, {} journals, no difference",
                begin.elapsed().as_secs(),
                stats.rounds,
                stats.lines,
                stats.cases,
                stats.journals.judged()
            );
        }
    }
}

/// The script that a round begins with, and the numbers for what follows it.
pub fn begin(seed: u64, round: u64, with_tables: bool, stats: &mut Stats) -> (Script, Rng) {
    let mut rng = Rng::for_round(seed, round);
    let samples = if with_tables { SAMPLES } else { 0 };
    (scripts::make(&mut rng, stats, samples), rng)
}

fn one_round(options: &Options, round: u64, stats: &mut Stats) -> Result<Option<String>, String> {
    let (script, mut rng) = begin(options.seed, round, options.tables.is_some(), stats);
    if let Some(mistake) = script.own_mistake {
        return Ok(Some(format!("the twin's own mistake: {}\n", mistake)));
    }
    if let Some(runner) = &options.runner {
        let run = runner.run(&script.input, false)?;
        if scripts::differs(&script.expected, &run) {
            return Ok(Some(scripts::report(runner, &script.input, &run)));
        }
    }
    if let Some(tables) = &options.tables {
        let difference = match Batch::make(&mut rng, &script.samples, stats) {
            Ok(batch) => batch.held_against(tables)?,
            Err(mistake) => Some(mistake),
        };
        if difference.is_some() {
            return Ok(difference);
        }
    }
    let (record, verdict) = (options.record.as_ref(), options.verdict.as_ref());
    if record.is_some() || verdict.is_some() {
        let difference = journals::round(&mut rng, &script.input, record, verdict, stats)?;
        if difference.is_some() {
            return Ok(difference);
        }
    }
    if let Some(cut) = &options.cut {
        let difference = cuts::round(&mut rng, cut, stats)?;
        if difference.is_some() {
            return Ok(difference);
        }
    }
    match &options.fine {
        Some(fine) => fines::round(&mut rng, fine, stats),
        None => Ok(None),
    }
}
