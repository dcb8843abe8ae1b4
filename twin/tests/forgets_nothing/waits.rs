//! Lines as lists, and who waits for whom.

use std::collections::BTreeSet;

use super::{Model, Txn};

impl Model {
    pub(super) fn against(&self, number: u64, is_write: bool, item: u64) -> Vec<u64> {
        let conflicts =
            |txn: &Txn| txn.written.contains_key(&item) || is_write && txn.shared.contains(&item);
        let others = self.live.iter().filter(|(other, _)| **other != number);
        let holders = others.filter(|(_, txn)| conflicts(txn));
        let mut against: Vec<u64> = holders.map(|(other, _)| *other).collect();
        for &other in self.ahead(number, item) {
            if is_write || self.live[&other].awaits == Some((true, item)) {
                against.push(other);
            }
        }
        against
    }

    /// The part of an item's line that is, or would be, ahead of this one.
    pub(super) fn ahead(&self, number: u64, item: u64) -> &[u64] {
        let line = self.lines.get(&item).map_or(&[][..], |line| line);
        let shares = |number: &u64| self.live[number].shared.contains(&item);
        if let Some(at) = line.iter().position(|other| *other == number) {
            &line[..at]
        } else if shares(&number) {
            &line[..line.iter().take_while(|other| shares(other)).count()]
        } else {
            line
        }
    }

    pub(super) fn leave(&mut self, number: u64) {
        for line in self.lines.values_mut() {
            line.retain(|other| *other != number);
        }
    }

    pub(super) fn comes_to(&self, from: u64, goal: u64, seen: &mut BTreeSet<u64>) -> bool {
        let nexts = match self.live[&from].awaits {
            Some((is_write, item)) => self.against(from, is_write, item),
            None => return false,
        };
        nexts
            .into_iter()
            .any(|next| next == goal || seen.insert(next) && self.comes_to(next, goal, seen))
    }
}
