//! A model that forgets nothing: every version ever written, locks as sets, lines as
//! lists, the later updates of relaxed queries by their numbers. The tables are built
//! anew from them.

mod waits;

use std::collections::{BTreeMap, BTreeSet};

use twin::sizes::*;
use twin::{Call, Keeper};

#[derive(Default)]
pub struct Txn {
    pub slot: usize,
    /// Of a query, and of one past its writing.
    pub start: Option<u64>,
    pub is_settled: bool,
    shared: BTreeSet<u64>,
    written: BTreeMap<u64, u64>,
    pub awaits: Option<(bool, u64)>,
    /// The places of all versions that it was granted, of a query.
    places: Vec<u64>,
    /// Of a relaxed query.
    pub relaxed: Option<Relaxed>,
}

/// What a relaxed query has read, and the numbers of its later updates, committed ones too.
#[derive(Clone, Default)]
pub struct Relaxed {
    read: BTreeSet<u64>,
    later: BTreeSet<u64>,
}

/// A committed version.
#[derive(Clone, Copy, Debug, Default, PartialEq, Eq, PartialOrd, Ord)]
pub struct Version {
    stamp: u64,
    value: u64,
    /// The number of the update that wrote it; 0 of the starting zero.
    creator: u64,
}

impl Txn {
    /// Whether its commit is one of nothing.
    pub fn is_empty(&self) -> bool {
        let is_update = self.start.is_none() && self.relaxed.is_none();
        is_update && self.awaits.is_none() && self.written.is_empty()
    }
}

#[derive(Default)]
pub struct Model {
    pub last: u64,
    pub clock: u64,
    pub live: BTreeMap<u64, Txn>,
    pub history: BTreeMap<u64, Vec<Version>>,
    /// Who awaits an item, first come first.
    lines: BTreeMap<u64, Vec<u64>>,
}

impl Model {
    pub fn call(&mut self, call: Call) -> [u64; 4] {
        let has_relaxed = self.live.values().any(|txn| txn.relaxed.is_some());
        match call {
            Call::Update => self.begin(None, None),
            Call::Query => self.begin(Some(self.clock), None),
            Call::Relaxed => self.begin(None, Some(Relaxed::default())),
            Call::Read { number, item } => self.access(number, item, None),
            Call::Write {
                number,
                item,
                value,
            } => self.access(number, item, Some(value)),
            Call::Commit { number } => match self.live.get(&number) {
                None => [3, 0, 0, 0],
                Some(txn) if txn.awaits.is_some() => [6, 0, 0, 0],
                Some(txn) if txn.is_settled => self.put(number, txn.start.unwrap()),
                Some(txn) if txn.start.is_some() || txn.relaxed.is_some() => self.end_query(number),
                // With nothing written there is nothing to stamp.
                Some(txn) if txn.written.is_empty() => self.put(number, self.clock),
                Some(_) if self.clock == LAST => [9, 0, 0, 0],
                Some(_) => {
                    self.clock += 1;
                    self.put(number, self.clock)
                }
            },
            Call::Settle { number } => match self.live.get_mut(&number) {
                None => [3, 0, 0, 0],
                Some(txn) if txn.is_settled => [12, 0, 0, 0],
                Some(txn) if txn.start.is_some() || txn.relaxed.is_some() => [5, 0, 0, 0],
                Some(txn) if txn.awaits.is_some() => [6, 0, 0, 0],
                Some(_) if self.clock == LAST => [9, 0, 0, 0],
                Some(_) if has_relaxed => [13, 0, 0, 0],
                Some(txn) => {
                    self.clock += 1;
                    txn.start = Some(self.clock);
                    txn.is_settled = true;
                    txn.shared.clear();
                    [0, 0, self.clock, 0]
                }
            },
            Call::Abort { number } => match self.live.get(&number) {
                None => [3, 0, 0, 0],
                Some(txn) if txn.start.is_some() && !txn.is_settled => self.end_query(number),
                Some(txn) if txn.relaxed.is_some() => self.end_query(number),
                Some(_) => self.end(number),
            },
        }
    }

    /// An update commits under this stamp, among the others where it belongs.
    fn put(&mut self, number: u64, stamp: u64) -> [u64; 4] {
        for (&item, &value) in &self.live[&number].written {
            let history = self.history.entry(item).or_default();
            history.push(Version {
                stamp,
                value,
                creator: number,
            });
            history.sort_unstable();
        }
        let _ = self.end(number);
        [0, 0, stamp, 0]
    }

    fn begin(&mut self, start: Option<u64>, relaxed: Option<Relaxed>) -> [u64; 4] {
        let has_settled = self.live.values().any(|txn| txn.is_settled);
        let taken: Vec<usize> = self.live.values().map(|txn| txn.slot).collect();
        let slot = match (0..SLOTS).find(|slot| !taken.contains(slot)) {
            None => return [7, 0, 0, 0],
            Some(_) if self.last == LAST => return [8, 0, 0, 0],
            Some(_) if relaxed.is_some() && has_settled => return [13, 0, 0, 0],
            Some(slot) => slot,
        };
        self.last += 1;
        let txn = Txn {
            slot,
            start,
            relaxed,
            ..Txn::default()
        };
        self.live.insert(self.last, txn);
        [0, 0, self.last, 0]
    }

    fn end(&mut self, number: u64) -> [u64; 4] {
        self.live.remove(&number);
        self.leave(number);
        [0, 0, 0, 0]
    }

    /// A query's end tells how many versions it was granted, and their places' sum.
    fn end_query(&mut self, number: u64) -> [u64; 4] {
        let places = &self.live[&number].places;
        let (count, sum) = (places.len() as u64, places.iter().sum());
        let _ = self.end(number);
        [0, sum, 0, count]
    }

    fn access(&mut self, number: u64, item: u64, value: Option<u64>) -> [u64; 4] {
        let is_write = value.is_some();
        let txn = match self.live.get(&number) {
            None => return [3, 0, 0, 0],
            Some(_) if item > 63 => return [4, 0, 0, 0],
            Some(txn) => txn,
        };
        if txn.relaxed.is_some() {
            return match is_write {
                true => [5, 0, 0, 0],
                false => self.read_relaxed(number, item),
            };
        }
        match (txn.start, txn.awaits) {
            (Some(_), _) if is_write && !txn.is_settled => return [5, 0, 0, 0],
            (Some(_), _) if txn.written.contains_key(&item) => {
                let txn = self.live.get_mut(&number).unwrap();
                let own = txn.written.get_mut(&item).unwrap();
                return match value {
                    Some(value) => {
                        *own = value;
                        [0, 0, 0, 0]
                    }
                    None => [0, *own, 0, 0],
                };
            }
            (Some(_), _) if is_write => return [12, 0, 0, 0],
            (Some(start), _) => {
                // A version is to come that belongs before this reader.
                let comes = |other: &Txn| {
                    other.is_settled
                        && other.written.contains_key(&item)
                        && other.start <= txn.start
                };
                if self.live.values().any(comes) {
                    return [1, 0, 0, 0];
                }
                let version = self.at(item, start);
                let place = self.place(item, version);
                let txn = self.live.get_mut(&number).unwrap();
                if !txn.is_settled {
                    txn.places.push(place);
                }
                return [0, version.value, 0, place];
            }
            (None, Some(awaited)) if awaited != (is_write, item) => return [6, 0, 0, 0],
            _ => {}
        }
        // Writing it would make more than 32 written items.
        let mut written: BTreeSet<u64> = txn.written.keys().copied().collect();
        if is_write && written.insert(item) && written.len() > 32 {
            return [11, 0, 0, 0];
        }
        let has_enough = txn.written.contains_key(&item) || !is_write && txn.shared.contains(&item);
        if !has_enough && !self.against(number, is_write, item).is_empty() {
            if txn.awaits.is_some() {
                self.asks(number, is_write, item);
                return [1, 0, 0, 0];
            }
            let place = self.ahead(number, item).len();
            self.lines.entry(item).or_default().insert(place, number);
            self.live.get_mut(&number).unwrap().awaits = Some((is_write, item));
            if self.comes_to(number, number, &mut BTreeSet::new()) {
                self.leave(number);
                self.live.get_mut(&number).unwrap().awaits = None;
                return [2, 0, 0, 0];
            }
            self.asks(number, is_write, item);
            return [1, 0, 0, 0];
        }
        self.leave(number);
        let newest = self.at(item, u64::MAX);
        self.asks(number, is_write, item);
        if !self.live[&number].written.contains_key(&item) {
            // It reads or overwrites the newest version.
            for query in self.live.values_mut() {
                if let Some(relaxed) = &mut query.relaxed {
                    if relaxed.later.contains(&newest.creator) {
                        relaxed.later.insert(number);
                    }
                }
            }
        }
        let txn = self.live.get_mut(&number).unwrap();
        txn.awaits = None;
        match (value, txn.written.get(&item)) {
            (Some(value), _) => {
                txn.shared.remove(&item);
                txn.written.insert(item, value);
                [0, 0, 0, 0]
            }
            (None, Some(&own)) => [0, own, 0, 0],
            (None, None) => {
                txn.shared.insert(item);
                [0, newest.value, 0, 1]
            }
        }
    }

    /// An update that asks to write what a relaxed query has read is later for it.
    fn asks(&mut self, number: u64, is_write: bool, item: u64) {
        for query in self.live.values_mut() {
            if let Some(relaxed) = &mut query.relaxed {
                if is_write && relaxed.read.contains(&item) {
                    relaxed.later.insert(number);
                }
            }
        }
    }

    /// It reads the newest version of those that its later updates did not write, and
    /// whoever writes the item now is one of them.
    fn read_relaxed(&mut self, number: u64, item: u64) -> [u64; 4] {
        let writes = |txn: &Txn| txn.written.contains_key(&item);
        let writer = self.live.iter().find(|(_, txn)| writes(txn));
        let writer = writer.map(|(writer, _)| *writer);
        let relaxed = self.live[&number].relaxed.as_ref().unwrap();
        let version = self.outside(item, relaxed);
        let place = self.place(item, version);
        let txn = self.live.get_mut(&number).unwrap();
        txn.places.push(place);
        let relaxed = txn.relaxed.as_mut().unwrap();
        relaxed.read.insert(item);
        relaxed.later.extend(writer);
        [0, version.value, 0, place]
    }

    fn outside(&self, item: u64, relaxed: &Relaxed) -> Version {
        let history = self.history.get(&item).map_or(&[][..], |list| list);
        let is_outside = |version: &&Version| !relaxed.later.contains(&version.creator);
        let newest = history.iter().rev().find(is_outside);
        newest.copied().unwrap_or_default()
    }

    /// The place of a version among those that are kept, from 1.
    fn place(&self, item: u64, version: Version) -> u64 {
        let kept = self.kept(item);
        1 + kept.iter().position(|kept| *kept == version).unwrap() as u64
    }

    /// The version of an item at a stamp.
    fn at(&self, item: u64, stamp: u64) -> Version {
        let history = self.history.get(&item).map_or(&[][..], |list| list);
        let at = history.iter().rev().find(|version| version.stamp <= stamp);
        at.copied().unwrap_or_default()
    }

    /// The newest version and those that some live reader reads, newest first.
    fn kept(&self, item: u64) -> Vec<Version> {
        let starts = self.live.values().filter_map(|txn| txn.start);
        let read = starts.map(|start| self.at(item, start));
        let relaxed = self.live.values().filter_map(|txn| txn.relaxed.as_ref());
        let read = read.chain(relaxed.map(|relaxed| self.outside(item, relaxed)));
        let all: BTreeSet<Version> = read.chain([self.at(item, u64::MAX)]).collect();
        all.into_iter().rev().collect()
    }

    /// The slots of the relaxed queries that a number is later for.
    fn later_for(&self, number: u64) -> u64 {
        let is_later = |relaxed: &Relaxed| relaxed.later.contains(&number);
        let queries = self
            .live
            .values()
            .filter(|txn| txn.relaxed.as_ref().map_or(false, is_later));
        queries.fold(0, |slots, txn| slots | 1 << txn.slot)
    }

    pub fn tables(&self) -> Keeper {
        let mut keeper = Keeper {
            txns: [0; TXN_WORDS],
            locks: [0; LOCK_WORDS],
            versions: [0; VERSION_WORDS],
        };
        keeper.txns[0] = self.last;
        keeper.txns[1] = self.clock;
        for (&number, txn) in &self.live {
            let (lock, item, rank) = match txn.awaits {
                None => (0, 0, 0),
                Some((is_write, item)) => {
                    let rank = 1 + self.ahead(number, item).len() as u64;
                    (1 + u64::from(is_write), item, rank)
                }
            };
            let kind = match &txn.relaxed {
                Some(_) => 3,
                None => u64::from(txn.start.is_some()) + u64::from(txn.is_settled),
            };
            let start = txn.start.unwrap_or(0);
            let (count, sum) = (txn.places.len() as u64, txn.places.iter().sum());
            let read = txn.relaxed.iter().flat_map(|relaxed| &relaxed.read);
            let read = read.fold(0, |items, item| items | 1 << item);
            let later_for = self.later_for(number);
            let row = [
                number, kind, start, lock, item, rank, count, sum, read, later_for,
            ];
            keeper.txns[2 + 10 * txn.slot..][..10].copy_from_slice(&row);
            for &item in &txn.shared {
                keeper.locks[3 * item as usize] |= 1 << txn.slot;
            }
            for (&item, &value) in &txn.written {
                keeper.locks[3 * item as usize + 1] = txn.slot as u64 + 1;
                keeper.locks[3 * item as usize + 2] = value;
            }
        }
        for (item, row) in keeper.versions.chunks_mut(97).enumerate() {
            let kept = self.kept(item as u64);
            row[0] = kept.len() as u64;
            for (place, version) in kept.into_iter().enumerate() {
                let pair = [version.stamp, version.value];
                row[1 + 2 * place..][..2].copy_from_slice(&pair);
                row[65 + place] = self.later_for(version.creator);
            }
        }
        keeper
    }
}
