//! Wrong judges of choppings (request E9).

use super::cut_lines::{good_pieces, is_spoken, rewritten, ConcatLines};
use crate::chop::{
    self, has_mixed_block, judge_pieces, lines, pieces, shown, Graph, Link, Piece, Verdict, ITEMS,
    MOST,
};

/// A way to be wrong.
#[derive(Clone, Copy, Debug, PartialEq, Eq)]
pub enum WrongCut {
    /// Any circle is refused, also one of conflicts alone.
    AnyCircle,
    /// Only siblings that are joined by conflicts alone are refused.
    ConflictsBetween,
    /// A piece may be on a circle twice.
    PieceTwice,
    /// Only circles of three are found.
    Triangles,
    /// Two reads of an item are a conflict,
    ReadsConflict,
    /// or a read and a write are none,
    WritesAlone,
    /// or pieces of one transaction may be in conflict instead of being siblings.
    OwnConflicts,
    /// 33 pieces are judged,
    Limit33,
    /// or 32 are not.
    Limit31,
    /// Item 64 is known,
    Item64,
    /// or 63 is not,
    Item63,
    /// or an unknown one counts as item 0.
    UnknownIgnored,
    /// An unknown item is told before too many pieces,
    UnknownFirst,
    /// or too many pieces before a bad line,
    BadLast,
    /// or only what comes before the 33rd piece is read.
    StopsAt33,
    /// Places are told from 0,
    FromZero,
    /// or by lines,
    ByLines,
    /// or the circle the other way round,
    Reversed,
    /// or beginning with its second piece,
    Turned,
    /// or not the lowest one.
    Highest,
    /// Bad lines are counted without comments,
    BadWithoutComments,
    /// or from 0.
    BadFromZero,
    /// Names are read without regard to case,
    Caseless,
    /// or by their first 31 bytes,
    Cut31,
    /// or may have 33,
    Long33,
    /// or have no `-`.
    NoDash,
    /// Two spaces are as good as one,
    Spaces,
    /// and so is one at the end.
    SpaceBehind,
    /// A part may have no item,
    EmptyPart,
    /// or `writes` may come first.
    WritesFirst,
    /// An item above 64 bits wraps.
    Wraps,
    /// A name alone is bad,
    NameAlone,
    /// and so is an empty line,
    EmptyBad,
    /// and a comment behind a piece.
    NoCommentBehind,
    /// `#` begins a comment wherever it stands.
    HashAnywhere,
    /// The last line needs its byte 10.
    LastUnended,
}

use WrongCut::*;

impl WrongCut {
    pub const ALL: [(&'static str, WrongCut); 36] = [
        ("any-circle", AnyCircle),
        ("conflicts-between", ConflictsBetween),
        ("piece-twice", PieceTwice),
        ("triangles", Triangles),
        ("reads-conflict", ReadsConflict),
        ("writes-alone", WritesAlone),
        ("own-conflicts", OwnConflicts),
        ("limit-33", Limit33),
        ("limit-31", Limit31),
        ("item-64", Item64),
        ("item-63", Item63),
        ("unknown-ignored", UnknownIgnored),
        ("unknown-first", UnknownFirst),
        ("bad-last", BadLast),
        ("stops-at-33", StopsAt33),
        ("from-0", FromZero),
        ("by-lines", ByLines),
        ("reversed", Reversed),
        ("turned", Turned),
        ("highest", Highest),
        ("bad-without-comments", BadWithoutComments),
        ("bad-from-0", BadFromZero),
        ("caseless", Caseless),
        ("cut-31", Cut31),
        ("long-33", Long33),
        ("no-dash", NoDash),
        ("spaces", Spaces),
        ("space-behind", SpaceBehind),
        ("empty-part", EmptyPart),
        ("writes-first", WritesFirst),
        ("wraps", Wraps),
        ("name-alone", NameAlone),
        ("empty-bad", EmptyBad),
        ("no-comment-behind", NoCommentBehind),
        ("hash-anywhere", HashAnywhere),
        ("last-unended", LastUnended),
    ];

    pub fn named(name: &str) -> Option<WrongCut> {
        super::named(&WrongCut::ALL, name)
    }

    pub fn names() -> Vec<&'static str> {
        super::names(&WrongCut::ALL)
    }

    pub fn judge(self, input: &[u8]) -> Verdict {
        let input = rewritten(self, input);
        let right = chop::judge(&input);
        match (self, pieces(&input)) {
            (BadWithoutComments, Err(line)) => {
                let before = &lines(&input)[..line];
                let spoken = before.iter().filter(|line| is_spoken(line));
                Verdict::BadLine(spoken.count())
            }
            (BadFromZero, Err(line)) => Verdict::BadLine(line - 1),
            (BadLast, Err(_)) if good_pieces(&input).len() > MOST => Verdict::TooMany,
            (StopsAt33, Err(line)) => {
                let before = lines(&input)[..line].concat_lines();
                match good_pieces(&before).len() > MOST {
                    true => Verdict::TooMany,
                    false => right,
                }
            }
            (_, Err(_)) => right,
            (_, Ok(pieces)) => self.of_pieces(&input, &pieces, right),
        }
    }

    fn of_pieces(self, input: &[u8], pieces: &[Piece], right: Verdict) -> Verdict {
        let count = pieces.len();
        let judged = |pieces: &[Piece]| match shown(&Graph::of(pieces)) {
            Some(circle) => Verdict::Refused(circle),
            None => Verdict::Accepted,
        };
        let is_judged = matches!(right, Verdict::Refused(_) | Verdict::Accepted);
        match (self, &right) {
            (Limit33, _) if count == MOST + 1 => match pieces.iter().any(Piece::has_unknown) {
                true => Verdict::UnknownItem,
                false => judged(pieces),
            },
            (Limit31, _) if count == MOST => Verdict::TooMany,
            (UnknownFirst, _) if pieces.iter().any(Piece::has_unknown) => Verdict::UnknownItem,
            (Item64, Verdict::UnknownItem) => {
                let is_far = |item: &u64| *item > ITEMS;
                let has_far = |piece: &Piece| piece.reads.iter().chain(&piece.writes).any(is_far);
                match pieces.iter().any(has_far) {
                    true => right,
                    false => judged(pieces),
                }
            }
            (UnknownIgnored, Verdict::UnknownItem) => {
                let known = |items: &[u64]| -> Vec<u64> {
                    items
                        .iter()
                        .map(|&item| if item < ITEMS { item } else { 0 })
                        .collect()
                };
                let pieces: Vec<Piece> = pieces
                    .iter()
                    .map(|piece| Piece {
                        name: piece.name.clone(),
                        reads: known(&piece.reads),
                        writes: known(&piece.writes),
                    })
                    .collect();
                judge_pieces(&pieces)
            }
            (Item63, _) if is_judged => {
                let has = |piece: &Piece| piece.reads.iter().chain(&piece.writes).any(|&i| i == 63);
                match pieces.iter().any(has) {
                    true => Verdict::UnknownItem,
                    false => right,
                }
            }
            (_, Verdict::Accepted) => self.of_accepted(pieces),
            (_, Verdict::Refused(circle)) => self.of_refused(input, pieces, circle),
            _ => right,
        }
    }

    fn of_accepted(self, pieces: &[Piece]) -> Verdict {
        let graph = self.graph(pieces);
        let refused =
            |circle: Option<Vec<usize>>| circle.map_or(Verdict::Accepted, Verdict::Refused);
        match self {
            AnyCircle => {
                // A circle of conflicts alone: as if one link of it were of the other kind.
                let all = (0..pieces.len()).flat_map(|a| (0..a).map(move |b| (a, b)));
                refused(
                    all.filter(|&(a, b)| graph.link(a, b).is_some())
                        .find_map(|(a, b)| {
                            let turned = Graph::with(pieces, |one, other| {
                                let same = |p: &Piece, at: usize| std::ptr::eq(p, &pieces[at]);
                                let is_it = same(one, a) && same(other, b)
                                    || same(one, b) && same(other, a);
                                if is_it {
                                    Some(Link::Sibling)
                                } else {
                                    Graph::of(&[one.clone(), other.clone()])
                                        .link(0, 1)
                                        .map(|_| Link::Conflict)
                                }
                            });
                            shown(&turned)
                        }),
                )
            }
            PieceTwice => refused((0..pieces.len()).find_map(|b| {
                let by = |kind: Link| (0..pieces.len()).find(|&a| graph.is_joined(b, a, kind));
                Some(vec![b, by(Link::Conflict)?, by(Link::Sibling)?])
            })),
            ReadsConflict | OwnConflicts if has_mixed_block(&graph) => refused(shown(&graph)),
            _ => Verdict::Accepted,
        }
    }

    fn of_refused(self, input: &[u8], pieces: &[Piece], circle: &[usize]) -> Verdict {
        let graph = self.graph(pieces);
        let mut circle = circle.to_vec();
        match self {
            ConflictsBetween => {
                let count = pieces.len();
                let mut reached = vec![vec![false; count]; count];
                for (at, row) in reached.iter_mut().enumerate() {
                    let mut todo = vec![at];
                    while let Some(one) = todo.pop() {
                        for (next, link) in graph.next(one) {
                            if link == Link::Conflict && !row[next] {
                                row[next] = true;
                                todo.push(next);
                            }
                        }
                    }
                }
                let mut pairs = (0..count).flat_map(|a| (0..count).map(move |b| (a, b)));
                let joined =
                    |(a, b): (usize, usize)| graph.is_joined(a, b, Link::Sibling) && reached[a][b];
                if !pairs.any(joined) {
                    return Verdict::Accepted;
                }
            }
            Triangles if circle.len() > 3 => return Verdict::Accepted,
            WritesAlone | ReadsConflict | OwnConflicts => match shown(&graph) {
                Some(other) => circle = other,
                None => return Verdict::Accepted,
            },
            FromZero => {
                // Places are told one more than they are.
                if circle.contains(&0) {
                    return Verdict::Refused(circle.iter().map(|at| at.wrapping_sub(1)).collect());
                }
                circle.iter_mut().for_each(|at| *at -= 1);
            }
            ByLines => {
                let all = lines(input);
                let places = all.iter().enumerate();
                let places: Vec<usize> = places
                    .filter(|(_, line)| is_spoken(line))
                    .map(|(at, _)| at)
                    .collect();
                circle.iter_mut().for_each(|at| *at = places[*at]);
            }
            Reversed => circle[1..].reverse(),
            Turned => circle.rotate_left(1),
            Highest => {
                let turned: Vec<Piece> = pieces.iter().rev().cloned().collect();
                let last = pieces.len() - 1;
                let other = shown(&Graph::of(&turned)).unwrap_or_default();
                circle = other.into_iter().map(|at| last - at).collect();
            }
            _ => {}
        }
        Verdict::Refused(circle)
    }

    fn graph(self, pieces: &[Piece]) -> Graph {
        let right =
            |one: &Piece, other: &Piece| Graph::of(&[one.clone(), other.clone()]).link(0, 1);
        let common = |one: &[u64], other: &[u64]| one.iter().any(|item| other.contains(item));
        Graph::with(pieces, |one, other| match (self, right(one, other)) {
            (ReadsConflict, None) if common(&one.reads, &other.reads) => Some(Link::Conflict),
            (WritesAlone, Some(Link::Conflict)) if !common(&one.writes, &other.writes) => None,
            (OwnConflicts, Some(Link::Sibling)) => {
                let mut apart = other.clone();
                apart.name.push(b'.');
                match right(one, &apart) {
                    Some(_) => Some(Link::Conflict),
                    None => Some(Link::Sibling),
                }
            }
            (_, link) => link,
        })
    }
}
