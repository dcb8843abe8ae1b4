//! A whole runner: a script on standard input, its answers on standard output.
//! `twin-run [--wrong KIND]`; with a kind it is wrong on purpose.

use std::io;
use std::process::exit;

use twin::wrong::WrongRunner;
use twin::{script, Keeper};

fn main() {
    let words: Vec<String> = std::env::args().skip(1).collect();
    let words: Vec<&str> = words.iter().map(String::as_str).collect();
    let wrong = match words[..] {
        [] => None,
        ["--wrong", kind] => match WrongRunner::named(kind) {
            Some(kind) => Some(kind),
            None => usage(),
        },
        _ => usage(),
    };
    let input = io::BufReader::with_capacity(1 << 16, io::stdin());
    let output = io::stdout();
    let done = match wrong {
        None => {
            let mut keeper = Keeper::fresh();
            script::run(input, output.lock(), |call| keeper.call(call))
        }
        Some(kind) => kind.run(input, output.lock()),
    };
    if let Err(error) = done {
        eprintln!("twin-run: {}", error);
        exit(1);
    }
}

fn usage() -> ! {
    eprintln!("usage: twin-run [--wrong KIND] <SCRIPT >ANSWERS");
    eprintln!("kinds: {}", WrongRunner::names().join(" "));
    exit(2)
}
