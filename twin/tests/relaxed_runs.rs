//! Demand 3 for relaxed queries (request E11): run alone, in the order of their commits or
//! of their stamps, the updates that are committed when such a query ends and are outside
//! its set give every number that it read; and these have in them every update that one
//! of them read from or overwrote.

use std::collections::{BTreeMap, BTreeSet};

use twin::fuzz::director::Director;
use twin::rng::Rng;
use twin::sizes::*;
use twin::{code, Call, Keeper};

/// An update, as far as it was granted things.
#[derive(Clone, Default)]
struct Update {
    wrote: BTreeMap<u64, u64>,
    /// The numbers of those whose versions it read or overwrote; 0 for the first zeros.
    follows: BTreeSet<u64>,
    stamp: u64,
}

/// A relaxed query: what it read of each item, and who ever joined its set.
#[derive(Clone, Default)]
struct Query {
    read: BTreeMap<u64, u64>,
    set: BTreeSet<u64>,
}

#[derive(Default)]
struct Run {
    live: BTreeMap<u64, Update>,
    /// Those that are committed, in the order of their commits.
    committed: Vec<(u64, Update)>,
    /// Who wrote the newest version of each item.
    newest: BTreeMap<u64, u64>,
    queries: BTreeMap<u64, Query>,
    ended: u64,
    /// Ended ones with members that had committed what the query read otherwise.
    told: u64,
    /// Reads that a query begun in their place would not have given.
    fresher: u64,
}

/// The numbers that are later for a slot.
fn members(keeper: &Keeper, slot: usize) -> Vec<u64> {
    let rows = keeper.txns[TXN_HEAD..].chunks(TXN_ROW);
    let those = rows.filter(|row| row[NUMBER] != 0 && row[LATER_FOR] >> slot & 1 != 0);
    those.map(|row| row[NUMBER]).collect()
}

fn slot_of(keeper: &Keeper, number: u64) -> Option<usize> {
    let mut rows = keeper.txns[TXN_HEAD..].chunks(TXN_ROW);
    rows.position(|row| row[NUMBER] == number)
}

impl Run {
    fn see(&mut self, call: Call, keeper: &mut Keeper) {
        let answer = keeper.call(call);
        if answer.code == code::GRANTED {
            self.granted(call, answer.words(), keeper);
        }
        // A wait may have noted something too.
        for (&number, query) in &mut self.queries {
            if let Some(slot) = slot_of(keeper, number) {
                query.set.extend(members(keeper, slot));
            }
        }
    }

    fn granted(&mut self, call: Call, answer: [u64; 4], keeper: &Keeper) {
        let [_, value, number, looked] = answer;
        match call {
            Call::Update => drop(self.live.insert(number, Update::default())),
            Call::Relaxed => drop(self.queries.insert(number, Query::default())),
            Call::Read { number, item } => {
                let newest = self.newest.get(&item).copied().unwrap_or(0);
                if let Some(query) = self.queries.get_mut(&number) {
                    let before = query.read.insert(item, value);
                    assert!(before.is_none() || before == Some(value), "another number");
                    self.fresher += u64::from(looked == 1);
                } else if let Some(update) = self.live.get_mut(&number) {
                    if looked > 0 && slot_of(keeper, number).is_some() {
                        update.follows.insert(newest);
                    }
                }
            }
            Call::Write {
                number,
                item,
                value,
            } => {
                if let Some(update) = self.live.get_mut(&number) {
                    update.wrote.insert(item, value);
                }
            }
            Call::Commit { number: caller } => match self.live.remove(&caller) {
                Some(mut update) => {
                    for &item in update.wrote.keys() {
                        let before = self.newest.insert(item, caller);
                        update.follows.insert(before.unwrap_or(0));
                    }
                    update.stamp = number;
                    self.committed.push((caller, update));
                }
                None => self.end(caller),
            },
            Call::Abort { number } => {
                if self.live.remove(&number).is_none() {
                    self.end(number);
                }
            }
            _ => {}
        }
    }

    /// A relaxed query ends: what it read is held against those outside its set.
    fn end(&mut self, number: u64) {
        if let Some(query) = self.queries.remove(&number) {
            self.check(&query);
            self.ended += 1;
            let others = |(number, _): &&(u64, Update)| query.set.contains(number);
            let wrote = |update: &Update| {
                query
                    .read
                    .keys()
                    .any(|item| update.wrote.contains_key(item))
            };
            let told = self
                .committed
                .iter()
                .filter(others)
                .any(|(_, update)| wrote(update));
            self.told += u64::from(told);
        }
    }

    fn check(&self, query: &Query) {
        let is_outside = |(number, _): &&(u64, Update)| !query.set.contains(number);
        let alone: Vec<&(u64, Update)> = self.committed.iter().filter(is_outside).collect();
        let mut by_stamp = alone.clone();
        by_stamp.sort_by_key(|(_, update)| update.stamp);
        for order in [&alone, &by_stamp] {
            let mut array = [0; ITEMS];
            for (_, update) in order.iter() {
                for (&item, &value) in &update.wrote {
                    array[item as usize] = value;
                }
            }
            for (&item, &value) in &query.read {
                assert_eq!(array[item as usize], value, "item {}", item);
            }
        }
        let numbers: BTreeSet<u64> = alone.iter().map(|(number, _)| *number).collect();
        for (number, update) in &alone {
            for from in update.follows.iter().filter(|from| **from != 0) {
                assert!(numbers.contains(from), "{} follows {}", number, from);
            }
        }
    }
}

#[test]
fn those_outside_alone_give_what_was_read() {
    let (mut ended, mut told, mut members, mut fresher) = (0, 0, 0, 0);
    for seed in 0..80 {
        let (mut rng, mut director) = (Rng::new(seed), Director::new());
        let (mut keeper, mut run) = (Keeper::fresh(), Run::default());
        for _ in 0..4_000 {
            let call = director.next(&mut rng, &keeper);
            run.see(call, &mut keeper);
        }
        for query in run.queries.values() {
            run.check(query);
            members += query.set.len();
        }
        ended += run.ended;
        told += run.told;
        fresher += run.fresher;
    }
    assert!(ended > 500 && told > 100, "{} {}", ended, told);
    assert!(members > 50 && fresher > 1_000, "{} {}", members, fresher);
}
