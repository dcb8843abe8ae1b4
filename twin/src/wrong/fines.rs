//! Wrong finest cuts (request E10).

use super::cut_lines::ConcatLines;
use crate::chop::{
    blocks, conflict, cut, find, line, lines, merged, parted, piece, programs, said, written,
    Found, Operation, Piece, Said, ITEMS, MOST,
};

/// A way to be wrong.
#[derive(Clone, Copy, Debug, PartialEq, Eq)]
pub enum WrongFine {
    /// Marks say nothing,
    NoMarks,
    /// or the marked operation itself is left out,
    MarkedOut,
    /// or the first marked one counts, not the last,
    FirstMark,
    /// or a program with a mark is not cut.
    MarkedWhole,
    /// Blocks are joined through their own program too,
    OwnProgram,
    /// or only through one other program,
    OneProgram,
    /// or through other programs in blocks,
    OthersInBlocks,
    /// or in single operations.
    OthersApart,
    /// Pieces are made runs of neighbours.
    Neighbours,
    /// Two reads of an item are a conflict,
    ReadsConflict,
    /// or a read and a write are none,
    WritesAlone,
    /// or operations of one program on an item stay together.
    OwnConflicts,
    /// 33 operations are cut,
    Limit33,
    /// or 32 are not.
    Limit31,
    /// Item 64 is known,
    Item64,
    /// or 63 is not.
    Item63,
    /// An unknown item is told before too many operations,
    UnknownFirst,
    /// or too many operations before a bad line.
    BadLast,
    /// Places are told from 0,
    FromZero,
    /// or by lines,
    ByLines,
    /// or not at all.
    NoPlaces,
    /// Pieces come by programs,
    ByProgram,
    /// or by their last operations.
    ByLast,
    /// Items come in the order of the operations,
    AsTheyCome,
    /// or once for each,
    Repeated,
    /// or only as written where they are read too.
    WrittenOnly,
    /// `3!` is read as `3 !`,
    MarkUnspaced,
    /// and `3 ! !` too,
    MarkTwice,
    /// and `! reads 3` is a marked operation of nobody.
    MarkAhead,
    /// A second item is ignored,
    SecondItem,
    /// and so is a space at the end.
    SpaceBehind,
    /// Nothing to cut is an empty line.
    EmptyLine,
    /// Bad lines are counted without comments.
    BadWithoutComments,
}

use WrongFine::*;

impl WrongFine {
    pub const ALL: [(&'static str, WrongFine); 33] = [
        ("no-marks", NoMarks),
        ("marked-out", MarkedOut),
        ("first-mark", FirstMark),
        ("marked-whole", MarkedWhole),
        ("own-program", OwnProgram),
        ("one-program", OneProgram),
        ("others-in-blocks", OthersInBlocks),
        ("others-apart", OthersApart),
        ("neighbours", Neighbours),
        ("reads-conflict", ReadsConflict),
        ("writes-alone", WritesAlone),
        ("own-conflicts", OwnConflicts),
        ("limit-33", Limit33),
        ("limit-31", Limit31),
        ("item-64", Item64),
        ("item-63", Item63),
        ("unknown-first", UnknownFirst),
        ("bad-last", BadLast),
        ("from-0", FromZero),
        ("by-lines", ByLines),
        ("no-places", NoPlaces),
        ("by-program", ByProgram),
        ("by-last", ByLast),
        ("as-they-come", AsTheyCome),
        ("repeated", Repeated),
        ("written-only", WrittenOnly),
        ("mark-unspaced", MarkUnspaced),
        ("mark-twice", MarkTwice),
        ("mark-ahead", MarkAhead),
        ("second-item", SecondItem),
        ("space-behind", SpaceBehind),
        ("empty-line", EmptyLine),
        ("bad-without-comments", BadWithoutComments),
    ];

    pub fn named(name: &str) -> Option<WrongFine> {
        super::named(&WrongFine::ALL, name)
    }

    pub fn names() -> Vec<&'static str> {
        super::names(&WrongFine::ALL)
    }

    /// What is written of a file.
    pub fn cut(self, input: &[u8]) -> Vec<u8> {
        let input = self.rewritten(input);
        let (found, all) = find(&input);
        let found = self.found(&input, found, &all);
        match &found {
            Found::Cut(pieces) if all.is_empty() || !pieces.is_empty() => {
                self.written(&input, pieces, &all)
            }
            _ => written(&found, &all),
        }
    }

    /// What is wrong about lines, as an input that is read rightly.
    fn rewritten(self, input: &[u8]) -> Vec<u8> {
        let change = |line: &[u8]| -> Vec<u8> {
            match (self, line) {
                (_, line) if said(line) != Said::Bad => line.to_vec(),
                (MarkUnspaced, [ahead @ .., digit, b'!']) if digit.is_ascii_digit() => {
                    [ahead, &[*digit], b" !"].concat()
                }
                (MarkTwice, [ahead @ .., b' ', b'!', b' ', b'!']) => [ahead, b" !"].concat(),
                (MarkAhead, [b'!', b' ', rest @ ..]) => [b"_ ", rest, b" !"].concat(),
                (SecondItem, line) => {
                    let words: Vec<&[u8]> = line.split(|&byte| byte == b' ').collect();
                    words[..words.len().min(3)].join(&b' ')
                }
                (SpaceBehind, [ahead @ .., b' ']) => ahead.to_vec(),
                (_, line) => line.to_vec(),
            }
        };
        let changed: Vec<Vec<u8>> = lines(input).into_iter().map(change).collect();
        let changed: Vec<&[u8]> = changed.iter().map(|line| &line[..]).collect();
        changed[..].concat_lines()
    }

    fn found(self, input: &[u8], right: Found, all: &[Operation]) -> Found {
        let is_unknown = |operation: &Operation| match self {
            Item64 => operation.item > ITEMS,
            Item63 => operation.item >= ITEMS - 1,
            _ => operation.is_unknown(),
        };
        let most = match self {
            Limit33 => MOST + 1,
            Limit31 => MOST - 1,
            _ => MOST,
        };
        let has_unknown = all.iter().any(is_unknown);
        match right {
            Found::BadLine(line) if self == BadWithoutComments => {
                let before = lines(input).into_iter().take(line);
                Found::BadLine(before.filter(|line| said(line) != Said::Comment).count())
            }
            Found::BadLine(_) if self == BadLast && good_lines(input) > MOST => Found::TooMany,
            Found::BadLine(_) => right,
            _ if self == UnknownFirst && has_unknown => Found::UnknownItem,
            _ if all.len() > most => Found::TooMany,
            _ if has_unknown => Found::UnknownItem,
            _ => Found::Cut(cut(all, |program| self.pieces(all, program))),
        }
    }

    /// The pieces of one program.
    fn pieces(self, all: &[Operation], program: &[usize]) -> Vec<Vec<usize>> {
        let marked = |at: &usize| all[*at].is_marked;
        let first = program.iter().position(marked);
        let last = program.iter().rposition(marked);
        let blocks = match self {
            NoMarks => parted(program, 0),
            MarkedOut => parted(program, last.unwrap_or(0)),
            FirstMark => parted(program, first.map_or(0, |at| at + 1)),
            MarkedWhole if first.is_some() => parted(program, program.len()),
            _ => blocks(all, program),
        };
        let others = programs(all)
            .into_iter()
            .filter(|other| all[other[0]].name != all[program[0]].name);
        let others: Vec<Vec<usize>> = match self {
            OthersInBlocks => others.flat_map(|other| self::blocks(all, &other)).collect(),
            OthersApart => others.flat_map(|other| parted(&other, 0)).collect(),
            _ => others.collect(),
        };
        let others: Vec<Piece> = others.iter().map(|other| piece(all, other)).collect();
        let common = |one: &[u64], other: &[u64]| one.iter().any(|item| other.contains(item));
        let in_conflict = |one: &Piece, other: &Piece| match self {
            ReadsConflict => conflict(one, other) || common(&one.reads, &other.reads),
            WritesAlone => common(&one.writes, &other.writes),
            _ => conflict(one, other),
        };
        match self {
            OneProgram => {
                let each = others.iter().map(|other| vec![other.clone()]);
                let parts = each.map(|one| merged(all, &blocks, &one, in_conflict));
                joined(&blocks, parts.flatten())
            }
            OwnProgram => {
                let touches = |block: &&Vec<usize>| {
                    let own = piece(all, block);
                    others.iter().any(|other| conflict(&own, other))
                };
                let some: Vec<usize> = blocks.iter().filter(touches).flatten().copied().collect();
                joined(&blocks, [some].into_iter())
            }
            OwnConflicts => {
                let parts = merged(all, &blocks, &others, in_conflict);
                let touching = |item: u64| {
                    let its = program.iter().copied().filter(|&at| all[at].item == item);
                    let its: Vec<usize> = its.collect();
                    let is_written = its.iter().any(|&at| all[at].writes);
                    Some(its).filter(|_| is_written)
                };
                let own: Vec<Vec<usize>> = (0..ITEMS).filter_map(touching).collect();
                joined(&blocks, parts.into_iter().chain(own))
            }
            Neighbours => {
                let parts = merged(all, &blocks, &others, in_conflict);
                let runs: Vec<Vec<usize>> = parts
                    .iter()
                    .map(|part| {
                        let (first, last) = (part[0], part[part.len() - 1]);
                        let is_between = |at: &&usize| first <= **at && **at <= last;
                        program.iter().filter(is_between).copied().collect()
                    })
                    .collect();
                joined(&blocks, runs.into_iter())
            }
            _ => merged(all, &blocks, &others, in_conflict),
        }
    }

    fn written(self, input: &[u8], pieces: &[Vec<usize>], all: &[Operation]) -> Vec<u8> {
        let mut pieces = pieces.to_vec();
        match self {
            ByProgram => {
                let programs = programs(all);
                let program = |some: &[usize]| programs.iter().position(|p| p.contains(&some[0]));
                pieces.sort_by_key(|some| (program(some), some[0]));
            }
            ByLast => pieces.sort_by_key(|some| some[some.len() - 1]),
            EmptyLine if pieces.is_empty() => return b"\n".to_vec(),
            _ => {}
        }
        let spoken: Vec<usize> = lines(input)
            .into_iter()
            .enumerate()
            .filter(|(_, line)| said(line) != Said::Comment)
            .map(|(at, _)| at)
            .collect();
        let text = pieces.iter().map(|some| {
            let mut piece = piece(all, some);
            let items = |writes: bool| -> Vec<u64> {
                let those = some.iter().map(|&at| &all[at]);
                those
                    .filter(|operation| operation.writes == writes)
                    .map(|operation| operation.item)
                    .collect()
            };
            match self {
                AsTheyCome | Repeated => {
                    piece.reads = items(false);
                    piece.writes = items(true);
                }
                WrittenOnly => piece.reads.retain(|item| !piece.writes.contains(item)),
                _ => {}
            }
            match self {
                AsTheyCome => {
                    first_ones(&mut piece.reads);
                    first_ones(&mut piece.writes);
                }
                Repeated => {
                    piece.reads.sort_unstable();
                    piece.writes.sort_unstable();
                }
                _ => {}
            }
            let by_lines: Vec<usize> = some.iter().map(|&at| spoken[at]).collect();
            match self {
                FromZero => from_zero(&piece, some),
                NoPlaces => line(&piece, &[]),
                ByLines => line(&piece, &by_lines),
                _ => line(&piece, some),
            }
        });
        text.collect::<Vec<Vec<u8>>>().concat()
    }
}

/// The line of a piece with its places told from 0.
fn from_zero(piece: &Piece, some: &[usize]) -> Vec<u8> {
    let bare = line(piece, &[]);
    let mut text = bare[..bare.len() - 1].to_vec();
    for at in some {
        text.extend_from_slice(format!(" {}", at).as_bytes());
    }
    text.push(b'\n');
    text
}

/// Each item where it comes first.
fn first_ones(items: &mut Vec<u64>) {
    let mut seen = Vec::new();
    items.retain(|item| {
        let is_new = !seen.contains(item);
        seen.push(*item);
        is_new
    });
}

/// How many lines are operations.
fn good_lines(input: &[u8]) -> usize {
    let all = lines(input).into_iter();
    all.filter(|line| matches!(said(line), Said::Operation(_)))
        .count()
}

/// Blocks joined where one of these sets has something of both.
fn joined(blocks: &[Vec<usize>], sets: impl Iterator<Item = Vec<usize>>) -> Vec<Vec<usize>> {
    let mut pieces = blocks.to_vec();
    for set in sets {
        let meets = |piece: &Vec<usize>| piece.iter().any(|at| set.contains(at));
        let (mut those, rest): (Vec<_>, Vec<_>) = pieces.into_iter().partition(meets);
        let mut one = those.drain(..).flatten().collect::<Vec<usize>>();
        one.sort_unstable();
        pieces = rest;
        if !one.is_empty() {
            pieces.push(one);
        }
    }
    pieces
}
