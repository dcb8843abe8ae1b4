//! All choppings of whole programs, for few operations: each parts the operations of each
//! program in some way, not only into runs of neighbours.

use super::operations::piece;
use super::{has_mixed_circle, Graph, Operation, Piece};

/// What is wrong with a cut, by all choppings; none if nothing is: it is accepted and
/// respects rollback, and every other such chopping has unions of its pieces alone.
pub fn mistake(all: &[Operation], cut: &[Vec<usize>]) -> Option<&'static str> {
    let labels: Option<Vec<usize>> = (0..all.len())
        .map(|at| {
            cut.iter()
                .find(|piece| piece.contains(&at))?
                .first()
                .copied()
        })
        .collect();
    let labels = match labels {
        Some(labels) => labels,
        None => return Some("an operation is in no piece"),
    };
    if !is_accepted(all, &labels) || !respects_rollback(all, &labels) {
        return Some("the cut is not allowed");
    }
    let mut found = None;
    each(all, &mut Vec::new(), &mut |other| {
        let splits = |one: usize| other[one] != other[labels[one]];
        if respects_rollback(all, other) && (0..all.len()).any(splits) && is_accepted(all, other) {
            found = Some("an allowed chopping splits a piece of the cut");
        }
    });
    found
}

/// Whether no mixed circle is there, by going along all of them.
fn is_accepted(all: &[Operation], labels: &[usize]) -> bool {
    let firsts = (0..all.len()).filter(|&at| labels[at] == at);
    let pieces: Vec<Piece> = firsts
        .map(|first| {
            let its: Vec<usize> = (0..all.len()).filter(|&at| labels[at] == first).collect();
            piece(all, &its)
        })
        .collect();
    !has_mixed_circle(&Graph::of(&pieces))
}

/// Whether of each program all operations up to a marked one are in its piece.
fn respects_rollback(all: &[Operation], labels: &[usize]) -> bool {
    (0..all.len()).filter(|&at| all[at].is_marked).all(|at| {
        let before = (0..at).filter(|&one| all[one].name == all[at].name);
        before.fold(true, |is_so, one| is_so && labels[one] == labels[at])
    })
}

/// Each chopping in turn: for each operation the first one of its piece.
fn each(all: &[Operation], labels: &mut Vec<usize>, see: &mut dyn FnMut(&[usize])) {
    let at = labels.len();
    if at == all.len() {
        return see(labels);
    }
    for first in 0..=at {
        let begins = first == at || labels[first] == first;
        if begins && all[first].name == all[at].name {
            labels.push(first);
            each(all, labels, see);
            labels.pop();
        }
    }
}
