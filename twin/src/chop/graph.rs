//! The pieces and their links.

use super::Piece;

#[derive(Clone, Copy, Debug, PartialEq, Eq)]
pub enum Link {
    Sibling,
    Conflict,
}

/// The link of each two pieces, if there is one.
#[derive(Clone, Debug)]
pub struct Graph {
    links: Vec<Vec<Option<Link>>>,
}

impl Graph {
    pub fn of(pieces: &[Piece]) -> Graph {
        Graph::with(pieces, |one, other| {
            if one.name == other.name {
                Some(Link::Sibling)
            } else if conflict(one, other) {
                Some(Link::Conflict)
            } else {
                None
            }
        })
    }

    /// Of two different pieces this says how they are joined.
    pub fn with(pieces: &[Piece], link: impl Fn(&Piece, &Piece) -> Option<Link>) -> Graph {
        let row = |(at, one): (usize, &Piece)| {
            let all = pieces.iter().enumerate();
            all.map(|(to, other)| if at == to { None } else { link(one, other) })
                .collect()
        };
        let links = pieces.iter().enumerate().map(row).collect();
        Graph { links }
    }

    pub fn len(&self) -> usize {
        self.links.len()
    }

    pub fn is_empty(&self) -> bool {
        self.links.is_empty()
    }

    pub fn link(&self, one: usize, other: usize) -> Option<Link> {
        self.links[one][other]
    }

    pub fn is_joined(&self, one: usize, other: usize, by: Link) -> bool {
        self.links[one][other] == Some(by)
    }

    /// Those that a piece is joined with, lowest first.
    pub fn next(&self, one: usize) -> impl Iterator<Item = (usize, Link)> + '_ {
        let row = self.links[one].iter().enumerate();
        row.filter_map(|(other, link)| link.map(|link| (other, link)))
    }
}

/// "They touch a common item and at least one writes it."
pub fn conflict(one: &Piece, other: &Piece) -> bool {
    let touches =
        |piece: &Piece, item: &u64| piece.reads.contains(item) || piece.writes.contains(item);
    one.writes.iter().any(|item| touches(other, item))
        || other.writes.iter().any(|item| touches(one, item))
}
