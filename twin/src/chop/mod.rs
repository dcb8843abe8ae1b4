//! Choppings (request E9): may a release run be cut up into these pieces?
//!
//! A judge of its own, beside the keeper and without its tables. A file of pieces is
//! read, one a line, and judged: refused exactly if a circle of distinct pieces has a
//! sibling link and a conflict link on it. And the finest cut of whole programs (request
//! E10) that it accepts.

mod blocks;
mod circles;
mod finest;
mod graph;
mod lines;
mod operations;
pub mod partitions;

pub use blocks::has_mixed_block;
pub use circles::{has_mixed_circle, is_mixed_circle, shown};
pub use finest::{blocks, cut, find, finest, line, merged, parted, programs, written, Found};
pub use graph::{conflict, Graph, Link};
pub use lines::{lines, read, Line, Piece};
pub use operations::{operations, piece, said, Operation, Said};

use std::fmt;

/// As many pieces as may be judged.
pub const MOST: usize = 32;
/// The first item that there is not.
pub const ITEMS: u64 = 64;

/// What is said of a file.
#[derive(Clone, Debug, PartialEq, Eq)]
pub enum Verdict {
    /// The first bad line, from 1.
    BadLine(usize),
    TooMany,
    UnknownItem,
    /// The pieces of a circle, from 0.
    Refused(Vec<usize>),
    Accepted,
}

impl fmt::Display for Verdict {
    fn fmt(&self, out: &mut fmt::Formatter) -> fmt::Result {
        match self {
            Verdict::BadLine(line) => write!(out, "bad line {}", line),
            Verdict::TooMany => write!(out, "too many pieces"),
            Verdict::UnknownItem => write!(out, "unknown item"),
            Verdict::Refused(circle) => {
                write!(out, "refused")?;
                circle.iter().try_for_each(|at| write!(out, " {}", at + 1))
            }
            Verdict::Accepted => write!(out, "accepted"),
        }
    }
}

/// The verdict on a file: a line that cannot be read comes before all else.
pub fn judge(input: &[u8]) -> Verdict {
    match pieces(input) {
        Ok(pieces) => judge_pieces(&pieces),
        Err(line) => Verdict::BadLine(line),
    }
}

/// The pieces of a file; or the first bad line, from 1.
pub fn pieces(input: &[u8]) -> Result<Vec<Piece>, usize> {
    let mut pieces = Vec::new();
    for (at, line) in lines(input).iter().enumerate() {
        match read(line) {
            Line::Comment => {}
            Line::Piece(piece) => pieces.push(piece),
            Line::Bad => return Err(at + 1),
        }
    }
    Ok(pieces)
}

pub fn judge_pieces(pieces: &[Piece]) -> Verdict {
    if pieces.len() > MOST {
        return Verdict::TooMany;
    }
    if pieces.iter().any(Piece::has_unknown) {
        return Verdict::UnknownItem;
    }
    match shown(&Graph::of(pieces)) {
        Some(circle) => Verdict::Refused(circle),
        None => Verdict::Accepted,
    }
}

/// What the judge's own other ways find wrong with a verdict on these pieces; none if
/// nothing is.
pub fn mistake(pieces: &[Piece], verdict: &Verdict) -> Option<&'static str> {
    let graph = match verdict {
        Verdict::Refused(_) | Verdict::Accepted => Graph::of(pieces),
        _ => return None,
    };
    let is_refused = *verdict != Verdict::Accepted;
    if let Verdict::Refused(circle) = verdict {
        if !is_mixed_circle(&graph, circle) {
            return Some("what is shown is no mixed circle");
        }
    }
    if has_mixed_block(&graph) != is_refused {
        return Some("blocks say otherwise");
    }
    if pieces.len() <= 8 && has_mixed_circle(&graph) != is_refused {
        return Some("all circles say otherwise");
    }
    None
}
