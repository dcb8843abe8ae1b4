//! Calls on tables set beforehand: cases on standard input, their outcomes on
//! standard output. `twin-tables [--wrong KIND]`; with a kind it is wrong on
//! purpose.

use std::io;
use std::process::exit;

use twin::protocol;
use twin::wrong::WrongTables;

fn main() {
    let words: Vec<String> = std::env::args().skip(1).collect();
    let words: Vec<&str> = words.iter().map(String::as_str).collect();
    let wrong = match words[..] {
        [] => None,
        ["--wrong", kind] => match WrongTables::named(kind) {
            Some(kind) => Some(kind),
            None => usage(),
        },
        _ => usage(),
    };
    let input = io::BufReader::with_capacity(1 << 16, io::stdin());
    let output = io::BufWriter::with_capacity(1 << 16, io::stdout());
    let done = protocol::run(input, output, |call, tables| match wrong {
        None => tables.call(call),
        Some(kind) => kind.call(call, tables),
    });
    if let Err(error) = done {
        eprintln!("twin-tables: {}", error);
        exit(1);
    }
}

fn usage() -> ! {
    eprintln!("usage: twin-tables [--wrong KIND] <CASES >OUTCOMES");
    eprintln!("kinds: {}", WrongTables::names().join(" "));
    exit(2)
}
