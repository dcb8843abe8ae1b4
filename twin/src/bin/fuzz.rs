//! Holds the twin against another runner on random scripts, against another
//! program on tables set beforehand, and against others that write and judge
//! journals. Exit status 0: no difference; 1: a difference; 2: it could not be
//! tried.

use std::io::{stdout, Write};
use std::process::exit;
use std::time::Instant;

use twin::code;
use twin::fuzz::process::Program;
use twin::fuzz::stats::Stats;
use twin::fuzz::{run, Ending, Options};

const USAGE: &str = "\
usage: fuzz [--runner PATH [--runner-arg WORD]...]
            [--tables PATH [--tables-arg WORD]...]
            [--record PATH [--record-arg WORD]...]
            [--verdict PATH [--verdict-arg WORD]...]
            [--cut PATH [--cut-arg WORD]...]
            [--fine PATH [--fine-arg WORD]...]
            [--seed N] [--first-round N] (--seconds N | --rounds N)
at least one program, and --seconds or --rounds, are needed";

fn main() {
    let options = match parse(std::env::args().skip(1)) {
        Ok(options) => options,
        Err(error) => {
            eprintln!("fuzz: {}\n{}", error, USAGE);
            exit(2);
        }
    };
    let mut stats = Stats::new();
    let begin = Instant::now();
    let (text, status) = match run(&options, &mut stats) {
        Ok(Ending::Same) => ("no difference".to_string(), 0),
        Ok(Ending::Different(difference)) => (difference + "DIFFERENCE", 1),
        Err(error) => {
            eprintln!("fuzz: {}", error);
            exit(2);
        }
    };
    let quota = code::QUOTA_SPENT as usize;
    let past = code::PAST_WRITING as usize;
    let summary = format!(
        "seed {}, {} rounds, {} lines, {} calls, {} cases, {} journals, {} choppings, {} cuts, \
         code 11 in {} calls and {} cases, code 12 in {} calls and {} cases, {:.1} seconds",
        options.seed,
        stats.rounds,
        stats.lines,
        stats.calls,
        stats.cases,
        stats.journals.judged(),
        stats.cuts.files(),
        stats.fines.files(),
        stats.codes[quota],
        stats.case_codes[quota],
        stats.codes[past],
        stats.case_codes[past],
        begin.elapsed().as_secs_f64()
    );
    // Nobody may be left to read it; the status stays the same.
    drop(writeln!(stdout(), "{}{}\n{}", stats, summary, text));
    exit(status);
}

fn parse(mut words: impl Iterator<Item = String>) -> Result<Options, String> {
    let mut options = Options {
        seed: 1,
        ..Options::default()
    };
    while let Some(word) = words.next() {
        let value = words
            .next()
            .ok_or_else(|| format!("{} needs a value", word))?;
        match &word[..] {
            "--runner" => options.runner = Some(program(value)),
            "--tables" => options.tables = Some(program(value)),
            "--record" => options.record = Some(program(value)),
            "--verdict" => options.verdict = Some(program(value)),
            "--cut" => options.cut = Some(program(value)),
            "--fine" => options.fine = Some(program(value)),
            "--runner-arg" => add_argument(&mut options.runner, &word, value)?,
            "--tables-arg" => add_argument(&mut options.tables, &word, value)?,
            "--record-arg" => add_argument(&mut options.record, &word, value)?,
            "--verdict-arg" => add_argument(&mut options.verdict, &word, value)?,
            "--cut-arg" => add_argument(&mut options.cut, &word, value)?,
            "--fine-arg" => add_argument(&mut options.fine, &word, value)?,
            "--seed" => options.seed = number(&word, &value)?,
            "--first-round" => options.first_round = number(&word, &value)?,
            "--seconds" => options.seconds = Some(number(&word, &value)?),
            "--rounds" => options.rounds = Some(number(&word, &value)?),
            _ => return Err(format!("what is {}?", word)),
        }
    }
    let programs = [
        &options.runner,
        &options.tables,
        &options.record,
        &options.verdict,
        &options.cut,
        &options.fine,
    ];
    if programs.iter().all(|program| program.is_none()) {
        return Err("no program to compare with".to_string());
    }
    if options.seconds.is_none() && options.rounds.is_none() {
        return Err("how long?".to_string());
    }
    Ok(options)
}

fn program(path: String) -> Program {
    Program {
        path,
        arguments: Vec::new(),
    }
}

fn add_argument(program: &mut Option<Program>, word: &str, value: String) -> Result<(), String> {
    match program {
        Some(program) => {
            program.arguments.push(value);
            Ok(())
        }
        None => Err(format!("{} comes after its program", word)),
    }
}

fn number(word: &str, value: &str) -> Result<u64, String> {
    value
        .parse()
        .map_err(|_| format!("{} needs a number, not {}", word, value))
}
