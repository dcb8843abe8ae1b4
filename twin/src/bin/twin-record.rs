//! A script on standard input, the journal of its run into the file named.
//! Standard output has the number of calls.

use std::io;
use std::process::exit;

use twin::journal::Journal;
use twin::script;

fn main() {
    let words: Vec<String> = std::env::args().skip(1).collect();
    let path = match &words[..] {
        [path] => path,
        _ => {
            eprintln!("usage: twin-record JOURNAL <SCRIPT");
            exit(2)
        }
    };
    let mut script = Vec::new();
    let done = io::Read::read_to_end(&mut io::stdin(), &mut script).and_then(|_| {
        let lines = script.split(|&byte| byte == b'\n');
        let journal = Journal::of_run(lines.filter_map(script::parse));
        std::fs::write(path, journal.bytes())?;
        println!("{}", journal.calls.len());
        Ok(())
    });
    if let Err(error) = done {
        eprintln!("twin-record: {}: {}", path, error);
        exit(1);
    }
}
