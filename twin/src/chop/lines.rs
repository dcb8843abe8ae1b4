//! What the lines of a chopping say.

use super::ITEMS;
use crate::decimal;

/// A transaction's name, the items read and the items written.
#[derive(Clone, Debug, Default, PartialEq, Eq)]
pub struct Piece {
    pub name: Vec<u8>,
    pub reads: Vec<u64>,
    pub writes: Vec<u64>,
}

impl Piece {
    pub fn has_unknown(&self) -> bool {
        let mut items = self.reads.iter().chain(&self.writes);
        items.any(|item| *item >= ITEMS)
    }
}

/// What a line says.
#[derive(Clone, Debug, PartialEq, Eq)]
pub enum Line {
    Comment,
    Piece(Piece),
    Bad,
}

/// The lines of an input: each ends at byte 10, the last one at the end too if there is
/// something behind the last byte 10.
pub fn lines(input: &[u8]) -> Vec<&[u8]> {
    let mut lines: Vec<&[u8]> = input.split(|&byte| byte == b'\n').collect();
    if lines.last().map_or(false, |last| last.is_empty()) {
        lines.pop();
    }
    lines
}

pub fn read(line: &[u8]) -> Line {
    match words(line) {
        Some(words) => piece(&words).map_or(Line::Bad, Line::Piece),
        None => Line::Comment,
    }
}

/// The words of a line in front of its comment; none at all if nothing is left there.
pub(super) fn words(line: &[u8]) -> Option<Vec<&[u8]>> {
    let hash = line.windows(2).position(|pair| pair == b" #");
    let said = match hash {
        _ if line.starts_with(b"#") => &[],
        Some(at) => &line[..at],
        None => line,
    };
    match said {
        [] => None,
        _ => Some(said.split(|&byte| byte == b' ').collect()),
    }
}

pub(super) fn is_name(word: &[u8]) -> bool {
    let is_plain = |byte: &u8| byte.is_ascii_alphanumeric() || b"_-".contains(byte);
    !word.is_empty() && word.len() <= 32 && word.iter().all(is_plain)
}

fn piece(words: &[&[u8]]) -> Option<Piece> {
    let (name, parts) = words.split_first()?;
    if !is_name(name) {
        return None;
    }
    let at = parts.iter().position(|word| *word == b"writes");
    let (reading, writing) = parts.split_at(at.unwrap_or(parts.len()));
    Some(Piece {
        name: name.to_vec(),
        reads: items(reading, b"reads")?,
        writes: items(writing, b"writes")?,
    })
}

/// The items behind the word that a part begins with; none at all if it is missing.
fn items(part: &[&[u8]], word: &[u8]) -> Option<Vec<u64>> {
    match part.split_first() {
        None => Some(Vec::new()),
        Some((first, rest)) if *first == word && !rest.is_empty() => {
            rest.iter().map(|digits| decimal::parse(digits)).collect()
        }
        Some(_) => None,
    }
}
