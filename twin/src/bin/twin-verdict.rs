//! The verdict on a journal. `twin-verdict [--wrong KIND] JOURNAL`; with a kind
//! it is wrong on purpose.

use std::process::exit;

use twin::journal::judge;
use twin::wrong::WrongJudge;

fn main() {
    let words: Vec<String> = std::env::args().skip(1).collect();
    let words: Vec<&str> = words.iter().map(String::as_str).collect();
    let (wrong, path) = match words[..] {
        [path] => (None, path),
        ["--wrong", kind, path] => match WrongJudge::named(kind) {
            Some(kind) => (Some(kind), path),
            None => usage(),
        },
        _ => usage(),
    };
    match std::fs::read(path) {
        Ok(bytes) => match wrong {
            None => println!("{}", judge(&bytes)),
            Some(kind) => println!("{}", kind.judge(&bytes)),
        },
        Err(error) => {
            eprintln!("twin-verdict: {}: {}", path, error);
            exit(1);
        }
    }
}

fn usage() -> ! {
    eprintln!("usage: twin-verdict [--wrong KIND] JOURNAL");
    eprintln!("kinds: {}", WrongJudge::names().join(" "));
    exit(2)
}
