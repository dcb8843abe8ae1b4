//! The runner's line language: a line in, four numbers or `bad` out.

use std::io::{self, BufRead, Write};

use crate::answer::Answer;
use crate::decimal;
use crate::keeper::Call;

/// A line has at most this many bytes, its end not counted.
pub const LINE_BYTES: usize = 80;

/// What is printed for a line that is not a call.
pub const BAD: &[u8] = b"bad\n";

/// Reads one line without its end; none for a bad one.
pub fn parse(line: &[u8]) -> Option<Call> {
    if line.len() > LINE_BYTES {
        return None;
    }
    let mut parts = line.split(|&byte| byte == b' ');
    let word = parts.next()?;
    let mut number = || parts.next().and_then(decimal::parse);
    let call = match word {
        b"update" => Call::Update,
        b"query" => Call::Query,
        b"relaxed" => Call::Relaxed,
        b"read" => Call::Read {
            number: number()?,
            item: number()?,
        },
        b"write" => Call::Write {
            number: number()?,
            item: number()?,
            value: number()?,
        },
        b"commit" => Call::Commit { number: number()? },
        b"abort" => Call::Abort { number: number()? },
        b"settle" => Call::Settle { number: number()? },
        _ => return None,
    };
    match parts.next() {
        None => Some(call),
        Some(_) => None,
    }
}

/// Appends a call as a line without its end.
pub fn push_call(out: &mut Vec<u8>, call: Call) {
    match call {
        Call::Update => push_words(out, b"update", &[]),
        Call::Query => push_words(out, b"query", &[]),
        Call::Relaxed => push_words(out, b"relaxed", &[]),
        Call::Read { number, item } => push_words(out, b"read", &[number, item]),
        Call::Write {
            number,
            item,
            value,
        } => push_words(out, b"write", &[number, item, value]),
        Call::Commit { number } => push_words(out, b"commit", &[number]),
        Call::Abort { number } => push_words(out, b"abort", &[number]),
        Call::Settle { number } => push_words(out, b"settle", &[number]),
    }
}

/// Appends a word and its numbers, one space before each.
fn push_words(out: &mut Vec<u8>, word: &[u8], numbers: &[u64]) {
    out.extend_from_slice(word);
    for &number in numbers {
        out.push(b' ');
        decimal::push(out, number);
    }
}

/// Appends an answer as a line with its end.
pub fn push_answer(out: &mut Vec<u8>, answer: Answer) {
    let [code, rest @ ..] = answer.words();
    decimal::push(out, code);
    for number in rest {
        out.push(b' ');
        decimal::push(out, number);
    }
    out.push(b'\n');
}

/// Appends what one line is answered.
pub fn push_reply(out: &mut Vec<u8>, line: &[u8], call: impl FnOnce(Call) -> Answer) {
    match parse(line) {
        Some(parsed) => push_answer(out, call(parsed)),
        None => out.extend_from_slice(BAD),
    }
}

/// Runs a whole script. A line is never held beyond its first 81 bytes.
pub fn run<R, W, F>(mut input: R, mut output: W, mut call: F) -> io::Result<()>
where
    R: BufRead,
    W: Write,
    F: FnMut(Call) -> Answer,
{
    const FLUSH: usize = 1 << 16;
    let mut line = Vec::with_capacity(LINE_BYTES + 1);
    let mut out = Vec::with_capacity(FLUSH + 128);
    loop {
        let chunk = input.fill_buf()?;
        if chunk.is_empty() {
            break;
        }
        let end = chunk.iter().position(|&byte| byte == b'\n');
        let bytes = &chunk[..end.unwrap_or(chunk.len())];
        let room = LINE_BYTES + 1 - line.len();
        line.extend_from_slice(&bytes[..bytes.len().min(room)]);
        let used = bytes.len() + usize::from(end.is_some());
        input.consume(used);
        if end.is_some() {
            push_reply(&mut out, &line, &mut call);
            line.clear();
            if out.len() >= FLUSH {
                output.write_all(&out)?;
                out.clear();
            }
        }
    }
    if !line.is_empty() {
        push_reply(&mut out, &line, &mut call);
    }
    output.write_all(&out)?;
    output.flush()
}
