//! Circles of pieces: the one that is shown, and all of them on small inputs.

use super::{Graph, Link};

/// The circle that is shown: the lowest piece b that has a sibling, and a conflicting
/// piece from which one comes to its siblings without b. Then b, the lowest such piece,
/// and the shortest way to the lowest sibling, each next one the lowest that is nearer.
pub fn shown(graph: &Graph) -> Option<Vec<usize>> {
    let all = || 0..graph.len();
    all().find_map(|b| {
        let goal = all().find(|&a| graph.is_joined(b, a, Link::Sibling))?;
        let far = distances(graph, goal, b);
        let comes = |c: &usize| graph.is_joined(b, *c, Link::Conflict) && far[*c].is_some();
        let mut at = all().find(comes)?;
        let mut circle = vec![b, at];
        while at != goal {
            let left = far[at]? - 1;
            at = graph
                .next(at)
                .map(|(next, _)| next)
                .find(|&next| far[next] == Some(left))?;
            circle.push(at);
        }
        Some(circle)
    })
}

/// How many links each piece is away from the goal, going around one piece.
fn distances(graph: &Graph, goal: usize, around: usize) -> Vec<Option<usize>> {
    let mut far = vec![None; graph.len()];
    far[goal] = Some(0);
    let mut reached = vec![goal];
    let mut next = 0;
    while let Some(&at) = reached.get(next) {
        next += 1;
        for (other, _) in graph.next(at) {
            if other != around && far[other].is_none() {
                far[other] = far[at].map(|links| links + 1);
                reached.push(other);
            }
        }
    }
    far
}

/// Whether these pieces are a circle with both kinds of links on it.
pub fn is_mixed_circle(graph: &Graph, circle: &[usize]) -> bool {
    let is_twice = |at: usize| circle[..at].contains(&circle[at]);
    if circle.len() < 3 || (0..circle.len()).any(is_twice) {
        return false;
    }
    let link = |at: usize| graph.link(circle[at], circle[(at + 1) % circle.len()]);
    let links: Vec<Option<Link>> = (0..circle.len()).map(link).collect();
    !links.contains(&None)
        && links.contains(&Some(Link::Sibling))
        && links.contains(&Some(Link::Conflict))
}

/// The same of any circle, by going along all of them. For few pieces.
pub fn has_mixed_circle(graph: &Graph) -> bool {
    (0..graph.len()).any(|first| goes_on(graph, &mut vec![first]))
}

/// Whether a way can be made a mixed circle. Its first piece is its lowest.
fn goes_on(graph: &Graph, way: &mut Vec<usize>) -> bool {
    if is_mixed_circle(graph, way) {
        return true;
    }
    let last = way[way.len() - 1];
    let nexts: Vec<usize> = graph.next(last).map(|(next, _)| next).collect();
    nexts.into_iter().any(|next| {
        if next <= way[0] || way.contains(&next) {
            return false;
        }
        way.push(next);
        let found = goes_on(graph, way);
        way.pop();
        found
    })
}
