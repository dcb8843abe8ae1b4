//! Whole programs (request E10): what their lines say.

use super::lines::{is_name, lines, words};
use super::{Piece, ITEMS};
use crate::decimal;

/// One operation of a program: it reads or writes one item, and may roll back or not.
#[derive(Clone, Debug, PartialEq, Eq)]
pub struct Operation {
    pub name: Vec<u8>,
    pub item: u64,
    pub writes: bool,
    pub is_marked: bool,
}

impl Operation {
    pub fn is_unknown(&self) -> bool {
        self.item >= ITEMS
    }
}

/// What a line says.
#[derive(Clone, Debug, PartialEq, Eq)]
pub enum Said {
    Comment,
    Operation(Operation),
    Bad,
}

pub fn said(line: &[u8]) -> Said {
    match words(line) {
        Some(words) => operation(&words).map_or(Said::Bad, Said::Operation),
        None => Said::Comment,
    }
}

fn operation(words: &[&[u8]]) -> Option<Operation> {
    let (words, is_marked) = match words {
        [words @ .., b"!"] => (words, true),
        _ => (words, false),
    };
    let (name, writes, item) = match words {
        [name, b"reads", item] => (name, false, item),
        [name, b"writes", item] => (name, true, item),
        _ => return None,
    };
    is_name(name).then_some(())?;
    Some(Operation {
        name: name.to_vec(),
        item: decimal::parse(item)?,
        writes,
        is_marked,
    })
}

/// The operations of a file; or the first bad line, from 1.
pub fn operations(input: &[u8]) -> Result<Vec<Operation>, usize> {
    let mut operations = Vec::new();
    for (at, line) in lines(input).iter().enumerate() {
        match said(line) {
            Said::Comment => {}
            Said::Operation(operation) => operations.push(operation),
            Said::Bad => return Err(at + 1),
        }
    }
    Ok(operations)
}

/// Some operations of one program as a piece. Its items rise, each once in each part.
pub fn piece(operations: &[Operation], some: &[usize]) -> Piece {
    let items = |writes: bool| {
        let those = some.iter().map(|&at| &operations[at]);
        let mut items: Vec<u64> = those
            .filter(|operation| operation.writes == writes)
            .map(|operation| operation.item)
            .collect();
        items.sort_unstable();
        items.dedup();
        items
    };
    let name = some.first().map(|&at| operations[at].name.clone());
    Piece {
        name: name.unwrap_or_default(),
        reads: items(false),
        writes: items(true),
    }
}
