//! The finest cut of whole programs: standard input in, a piece a line out. `twin-fine
//! [--wrong KIND]`; with a kind it is wrong on purpose.

use std::io::{stdin, stdout, Read, Write};
use std::process::exit;

use twin::chop::{find, written};
use twin::wrong::WrongFine;

fn main() {
    let words: Vec<String> = std::env::args().skip(1).collect();
    let words: Vec<&str> = words.iter().map(String::as_str).collect();
    let wrong = match words[..] {
        [] => None,
        ["--wrong", kind] => match WrongFine::named(kind) {
            Some(kind) => Some(kind),
            None => usage(),
        },
        _ => usage(),
    };
    let mut input = Vec::new();
    if let Err(error) = stdin().read_to_end(&mut input) {
        eprintln!("twin-fine: {}", error);
        exit(1);
    }
    let output = match wrong {
        None => {
            let (found, all) = find(&input);
            written(&found, &all)
        }
        Some(kind) => kind.cut(&input),
    };
    if let Err(error) = stdout().write_all(&output) {
        eprintln!("twin-fine: {}", error);
        exit(1);
    }
}

fn usage() -> ! {
    eprintln!("usage: twin-fine [--wrong KIND]");
    eprintln!("kinds: {}", WrongFine::names().join(" "));
    exit(2)
}
