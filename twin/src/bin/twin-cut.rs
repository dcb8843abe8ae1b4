//! The verdict on a chopping: standard input in, one line out. `twin-cut [--wrong KIND]`;
//! with a kind it is wrong on purpose.

use std::io::{stdin, Read};
use std::process::exit;

use twin::chop::judge;
use twin::wrong::WrongCut;

fn main() {
    let words: Vec<String> = std::env::args().skip(1).collect();
    let words: Vec<&str> = words.iter().map(String::as_str).collect();
    let wrong = match words[..] {
        [] => None,
        ["--wrong", kind] => match WrongCut::named(kind) {
            Some(kind) => Some(kind),
            None => usage(),
        },
        _ => usage(),
    };
    let mut input = Vec::new();
    if let Err(error) = stdin().read_to_end(&mut input) {
        eprintln!("twin-cut: {}", error);
        exit(1);
    }
    match wrong {
        None => println!("{}", judge(&input)),
        Some(kind) => println!("{}", kind.judge(&input)),
    }
}

fn usage() -> ! {
    eprintln!("usage: twin-cut [--wrong KIND]");
    eprintln!("kinds: {}", WrongCut::names().join(" "));
    exit(2)
}
