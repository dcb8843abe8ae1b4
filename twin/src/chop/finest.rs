//! The finest cut (request E10), as source document 004 makes it: program by program,
//! with all others whole.

use super::graph::conflict;
use super::operations::piece;
use super::{operations, Operation, Piece, MOST};

/// What is found of a file of whole programs.
#[derive(Clone, Debug, PartialEq, Eq)]
pub enum Found {
    /// The first bad line, from 1.
    BadLine(usize),
    TooMany,
    UnknownItem,
    /// The pieces, each as its operations by their places from 0, in the order of their
    /// first ones.
    Cut(Vec<Vec<usize>>),
}

/// What is found, by the operations; and those.
pub fn find(input: &[u8]) -> (Found, Vec<Operation>) {
    match operations(input) {
        Err(line) => (Found::BadLine(line), Vec::new()),
        Ok(all) if all.len() > MOST => (Found::TooMany, all),
        Ok(all) if all.iter().any(Operation::is_unknown) => (Found::UnknownItem, all),
        Ok(all) => (Found::Cut(finest(&all)), all),
    }
}

pub fn finest(all: &[Operation]) -> Vec<Vec<usize>> {
    cut(all, |program| {
        let blocks = blocks(all, program);
        let others: Vec<Piece> = programs(all)
            .into_iter()
            .filter(|other| all[other[0]].name != all[program[0]].name)
            .map(|other| piece(all, &other))
            .collect();
        merged(all, &blocks, &others, conflict)
    })
}

/// Every program cut in this way, and the pieces in the order of their first operations.
pub fn cut(all: &[Operation], way: impl Fn(&[usize]) -> Vec<Vec<usize>>) -> Vec<Vec<usize>> {
    let programs = programs(all);
    let mut pieces: Vec<Vec<usize>> = programs.iter().flat_map(|program| way(program)).collect();
    pieces.sort();
    pieces
}

/// The operations of each program.
pub fn programs(all: &[Operation]) -> Vec<Vec<usize>> {
    let mut programs: Vec<Vec<usize>> = Vec::new();
    for (at, operation) in all.iter().enumerate() {
        let is_its = |program: &&mut Vec<usize>| all[program[0]].name == operation.name;
        match programs.iter_mut().find(is_its) {
            Some(program) => program.push(at),
            None => programs.push(vec![at]),
        }
    }
    programs
}

/// A program's blocks: all up to the last marked one, and each later one alone.
pub fn blocks(all: &[Operation], program: &[usize]) -> Vec<Vec<usize>> {
    let marked = program.iter().rposition(|&at| all[at].is_marked);
    parted(program, marked.map_or(0, |last| last + 1))
}

/// So many of the first in one block, and each later one alone.
pub fn parted(program: &[usize], first: usize) -> Vec<Vec<usize>> {
    let (block, rest) = program.split_at(first);
    let alone = rest.iter().map(|&at| vec![at]);
    let block = Some(block.to_vec()).filter(|block| !block.is_empty());
    block.into_iter().chain(alone).collect()
}

/// The blocks of a program, merged where they are in one part of the graph that they and
/// the others make, with links between those in conflict.
pub fn merged(
    all: &[Operation],
    blocks: &[Vec<usize>],
    others: &[Piece],
    conflict: impl Fn(&Piece, &Piece) -> bool,
) -> Vec<Vec<usize>> {
    let own = blocks.iter().map(|block| piece(all, block));
    let pieces: Vec<Piece> = own.chain(others.iter().cloned()).collect();
    let mut part: Vec<Option<usize>> = vec![None; pieces.len()];
    for first in 0..pieces.len() {
        let mut reached = match part[first] {
            None => vec![first],
            Some(_) => continue,
        };
        part[first] = Some(first);
        while let Some(at) = reached.pop() {
            for next in 0..pieces.len() {
                let is_new = part[next].is_none() && pieces[at].name != pieces[next].name;
                if is_new && conflict(&pieces[at], &pieces[next]) {
                    part[next] = Some(first);
                    reached.push(next);
                }
            }
        }
    }
    let mut merged: Vec<Vec<usize>> = Vec::new();
    for first in 0..part.len() {
        let those = blocks
            .iter()
            .zip(&part)
            .filter(|(_, at)| **at == Some(first));
        let mut one: Vec<usize> = those.flat_map(|(block, _)| block.clone()).collect();
        one.sort_unstable();
        if !one.is_empty() {
            merged.push(one);
        }
    }
    merged
}

/// What is written: a piece a line, with its operations behind it, from 1; or what is
/// found else.
pub fn written(found: &Found, all: &[Operation]) -> Vec<u8> {
    match found {
        Found::BadLine(line) => format!("bad line {}\n", line).into_bytes(),
        Found::TooMany => b"too many operations\n".to_vec(),
        Found::UnknownItem => b"unknown item\n".to_vec(),
        Found::Cut(pieces) => {
            let lines = pieces.iter().map(|some| line(&piece(all, some), some));
            lines.collect::<Vec<Vec<u8>>>().concat()
        }
    }
}

/// The line of a piece.
pub fn line(piece: &Piece, places: &[usize]) -> Vec<u8> {
    let mut line = piece.name.clone();
    for (word, items) in [(" reads", &piece.reads), (" writes", &piece.writes)] {
        if !items.is_empty() {
            line.extend_from_slice(word.as_bytes());
            items
                .iter()
                .for_each(|item| line.extend_from_slice(format!(" {}", item).as_bytes()));
        }
    }
    line.extend_from_slice(b" #");
    for at in places {
        line.extend_from_slice(format!(" {}", at + 1).as_bytes());
    }
    line.push(b'\n');
    line
}
