//! Blocks: two links of a graph are on a common circle exactly if they are in one block,
//! a part that stays joined whichever piece is taken out. So a mixed circle is there
//! exactly if some block has links of both kinds.

use super::{Graph, Link};

pub fn has_mixed_block(graph: &Graph) -> bool {
    let mut search = Search {
        graph,
        order: vec![None; graph.len()],
        low: vec![0; graph.len()],
        seen: 0,
        links: Vec::new(),
        is_mixed: false,
    };
    for at in 0..graph.len() {
        if search.order[at].is_none() {
            search.visit(at, None);
        }
    }
    search.is_mixed
}

/// A search in depth. A piece's low is the earliest piece that it and those below it
/// are joined with.
struct Search<'a> {
    graph: &'a Graph,
    order: Vec<Option<usize>>,
    low: Vec<usize>,
    seen: usize,
    /// The links gone along and not yet in a block.
    links: Vec<(usize, usize, Link)>,
    is_mixed: bool,
}

impl Search<'_> {
    fn visit(&mut self, at: usize, from: Option<usize>) {
        self.order[at] = Some(self.seen);
        self.low[at] = self.seen;
        self.seen += 1;
        let nexts: Vec<(usize, Link)> = self.graph.next(at).collect();
        for (next, link) in nexts {
            match self.order[next] {
                None => {
                    self.links.push((at, next, link));
                    self.visit(next, Some(at));
                    self.low[at] = self.low[at].min(self.low[next]);
                    if Some(self.low[next]) >= self.order[at] {
                        self.block(at, next);
                    }
                }
                Some(earlier) if Some(next) != from && Some(earlier) < self.order[at] => {
                    self.links.push((at, next, link));
                    self.low[at] = self.low[at].min(earlier);
                }
                Some(_) => {}
            }
        }
    }

    /// The links since that from one piece to another are a block.
    fn block(&mut self, at: usize, next: usize) {
        let is_first = |(one, other, _): &(usize, usize, Link)| (*one, *other) == (at, next);
        let first = self.links.iter().rposition(is_first).unwrap_or(0);
        let block = self.links.split_off(first);
        let has = |kind: Link| block.iter().any(|(_, _, link)| *link == kind);
        self.is_mixed |= has(Link::Sibling) && has(Link::Conflict);
    }
}
