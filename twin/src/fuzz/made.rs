//! Good tables that no run need ever come to: made by chance, any stamps, any
//! numbers, any locks and waits.

use super::line::step_in;
use super::scene::{Scene, Txn};
use super::sets;
use crate::keeper::Keeper;
use crate::rng::Rng;
use crate::sizes::*;

/// Random good tables.
pub fn made(rng: &mut Rng) -> Keeper {
    let mut keeper = Keeper::fresh();
    transactions(rng, &mut keeper);
    starts_at_stamps(rng, &mut keeper);
    let relaxed = slots(&keeper, RELAXED);
    let settled = slots(&keeper, SETTLED);
    let theirs = rng.one_of(&[0, 10, 40, 90]);
    for item in 0..ITEMS {
        let owner = rng.pick(&settled).filter(|_| rng.percent(theirs));
        versions(rng, &mut keeper, item, owner, &relaxed);
        if let Some(slot) = owner {
            take(rng, &mut keeper, item, slot);
        }
    }
    let updates: Vec<usize> = slots(&keeper, UPDATE);
    if !updates.is_empty() {
        let busy = rng.below(100);
        // Now and then one or two take nearly all.
        let greedy = match rng.below(6) {
            0 => vec![rng.one_of(&updates)],
            1 => vec![rng.one_of(&updates), rng.one_of(&updates)],
            _ => Vec::new(),
        };
        for item in 0..ITEMS {
            match rng.pick(&greedy) {
                _ if keeper.locks[item * LOCK_ROW + EXCLUSIVE] != 0 => {}
                Some(slot) if rng.percent(90) => take(rng, &mut keeper, item, slot),
                _ if rng.percent(busy) => lock(rng, &mut keeper, item, &updates),
                _ => {}
            }
        }
        let waiting = rng.below(100);
        // Few items have long lines.
        let hot: Vec<u64> = (0..rng.within(1, 4)).map(|_| rng.below(64)).collect();
        let crowded = rng.one_of(&[0, 50, 90, 100]);
        for slot in shuffled(rng, updates) {
            if rng.percent(waiting) {
                let item = match rng.percent(crowded) {
                    true => rng.one_of(&hot),
                    false => rng.below(ITEMS as u64),
                };
                wait(rng, &mut keeper, slot, item);
            }
        }
    }
    sets::join_some(rng, &mut keeper.txns);
    sets::join(&mut keeper.txns, &keeper.locks, &keeper.versions);
    keeper
}

/// Who steps into a line first need not have the lowest slot.
pub fn shuffled(rng: &mut Rng, mut slots: Vec<usize>) -> Vec<usize> {
    for last in (1..slots.len()).rev() {
        slots.swap(last, rng.index(last + 1));
    }
    slots
}

fn slots(keeper: &Keeper, kind: u64) -> Vec<usize> {
    sets::slots(&keeper.txns, kind)
}

fn transactions(rng: &mut Rng, keeper: &mut Keeper) {
    let last = match rng.below(6) {
        0 => LAST,
        1 => LAST - 1,
        2 => SLOTS as u64,
        3 => rng.within(SLOTS as u64, 100),
        _ => rng.within(SLOTS as u64, LAST),
    };
    let clock = match rng.below(6) {
        0 => LAST,
        1 => LAST - 1,
        2 => 0,
        3 => rng.within(1, 40),
        _ => rng.within(0, LAST),
    };
    keeper.txns[LAST_NUMBER] = last;
    keeper.txns[CLOCK] = clock;
    let live = rng.one_of(&[0, 20, 50, 80, 95, 100]);
    let queries = rng.one_of(&[0, 10, 50, 90, 100]);
    let near = rng.one_of(&[0, 3, 20, 200, LAST]);
    let settled = rng.one_of(&[0, 0, 0, 0, 10, 40, 100]);
    let relaxed = match settled {
        0 => rng.one_of(&[0, 20, 50, 80, 100]),
        _ => 0,
    };
    for slot in 0..SLOTS {
        if !rng.percent(live) {
            continue;
        }
        let mut number = rng.within(1, last);
        while keeper.txns[TXN_HEAD..]
            .chunks(TXN_ROW)
            .any(|row| row[NUMBER] == number)
        {
            number = number % last + 1;
        }
        let row = &mut keeper.txns[TXN_HEAD + slot * TXN_ROW..][..TXN_ROW];
        row[NUMBER] = number;
        if rng.percent(queries) {
            row[KIND] = QUERY;
            row[START] = clock - rng.within(0, clock.min(near));
            row[READS] = some_sum(rng);
            row[WEIGHT] = match rng.percent(20) {
                true => row[READS],
                false => some_sum(rng),
            };
            if rng.percent(relaxed) {
                row[KIND] = RELAXED;
                row[START] = 0;
                row[ITEMS_READ] = rng.one_of(&[0, 1, 1 << 63, u64::MAX]);
                row[ITEMS_READ] |= rng.odd_word() & rng.odd_word();
            }
        }
        let stamp = clock - rng.within(0, clock.min(near.max(40)));
        if stamp > 0 && rng.percent(settled) && !is_taken(keeper, stamp) {
            let row = &mut keeper.txns[TXN_HEAD + slot * TXN_ROW..][..TXN_ROW];
            row[KIND] = SETTLED;
            row[START] = stamp;
            row[READS..].fill(0);
        }
    }
}

/// A read count or a weight sum of a query: small, near the limit or any. Nothing ties
/// the one to the other.
pub fn some_sum(rng: &mut Rng) -> u64 {
    match rng.below(4) {
        0 => 0,
        1 => rng.below(100),
        2 => LAST - rng.one_of(&[0, 1, 2, 3, 5, 31, 32, 33]),
        _ => rng.within(0, LAST),
    }
}

/// Some queries begin right at the stamp of one past its writing.
fn starts_at_stamps(rng: &mut Rng, keeper: &mut Keeper) {
    let stamps: Vec<u64> = slots(keeper, SETTLED)
        .into_iter()
        .map(|slot| keeper.txns[TXN_HEAD + slot * TXN_ROW + START])
        .collect();
    let chance = rng.one_of(&[0, 30, 80]);
    for slot in slots(keeper, QUERY) {
        if let (Some(stamp), true) = (rng.pick(&stamps), rng.percent(chance)) {
            keeper.txns[TXN_HEAD + slot * TXN_ROW + START] = stamp;
        }
    }
}

/// Whether one past its writing has this stamp.
fn is_taken(keeper: &Keeper, stamp: u64) -> bool {
    let mut rows = keeper.txns[TXN_HEAD..].chunks(TXN_ROW);
    rows.any(|row| row[KIND] == SETTLED && row[START] == stamp)
}

/// Stamps at, before and after the starts, and of these what is to be kept. Where
/// one past its writing owns the item all are below its stamp.
fn versions(
    rng: &mut Rng,
    keeper: &mut Keeper,
    item: usize,
    owner: Option<usize>,
    relaxed: &[usize],
) {
    let start = |slot: usize| keeper.txns[TXN_HEAD + slot * TXN_ROW + START];
    let last = owner.map_or(keeper.txns[CLOCK], |slot| start(slot) - 1);
    let readers = [slots(keeper, QUERY), slots(keeper, SETTLED)].concat();
    let starts: Vec<u64> = readers.into_iter().map(start).collect();
    let earliest = starts.iter().copied().min().unwrap_or(last).min(last);
    let oldest = earliest - rng.one_of(&[0, 1, 5, earliest]).min(earliest);
    let mut stamps = vec![oldest];
    if rng.percent(20) {
        // each reader has a version of its own
        stamps.extend(starts.iter().filter(|start| **start <= last));
    }
    let most = rng.one_of(&[0, 1, 4, 20, 60]);
    for _ in 0..most {
        let near = rng.pick(&starts).unwrap_or(last);
        let stamp = match rng.below(4) {
            0 => near,
            1 => near + 1,
            2 => near.saturating_sub(rng.below(4)),
            _ => rng.within(oldest, last),
        };
        stamps.push(stamp.max(oldest).min(last));
    }
    stamps.sort_unstable_by(|one, other| other.cmp(one));
    stamps.dedup();
    let newest = stamps[0];
    let read_by = |start: u64| stamps.iter().copied().find(|&stamp| stamp <= start);
    let mut read: Vec<u64> = starts.iter().filter_map(|&start| read_by(start)).collect();
    // What is newer than the version that a relaxed query reads is hidden from it.
    let is_newest = rng.one_of(&[0, 20, 50, 95]);
    let outside: Vec<(usize, u64)> = relaxed
        .iter()
        .map(|&query| match rng.percent(is_newest) {
            true => (query, newest),
            false => (query, rng.one_of(&stamps)),
        })
        .collect();
    read.extend(outside.iter().map(|(_, stamp)| *stamp));
    let mut kept = stamps.clone();
    kept.retain(|stamp| *stamp == newest || read.contains(stamp));
    if kept.len() > PLACES {
        kept.remove(0); // the readers read as many, so the newest is in excess
    }
    let row = &mut keeper.versions[item * VERSION_ROW..][..VERSION_ROW];
    row.fill(0);
    row[COUNT] = kept.len() as u64;
    for (place, stamp) in kept.into_iter().enumerate() {
        row[pair(place)] = stamp;
        row[pair(place) + 1] = rng.odd_word();
        let is_hidden = |(_, reads): &&(usize, u64)| *reads < stamp;
        let from = outside.iter().filter(is_hidden);
        row[hidden(place)] = from.fold(0, |from, (query, _)| from | 1 << query);
    }
}

fn lock(rng: &mut Rng, keeper: &mut Keeper, item: usize, updates: &[usize]) {
    if rng.percent(40) {
        let slot = rng.one_of(updates);
        take(rng, keeper, item, slot);
    } else {
        let row = &mut keeper.locks[item * LOCK_ROW..][..LOCK_ROW];
        for _ in 0..rng.one_of(&[1, 1, 2, 3, 4, 4, 100]) {
            row[SHARED] |= 1 << rng.one_of(updates);
        }
    }
}

/// Gives an item to an update, unless that has as many as it may.
fn take(rng: &mut Rng, keeper: &mut Keeper, item: usize, slot: usize) {
    let holder = slot as u64 + 1;
    let rows = keeper.locks.chunks(LOCK_ROW);
    if rows.filter(|row| row[EXCLUSIVE] == holder).count() < QUOTA {
        let row = &mut keeper.locks[item * LOCK_ROW..][..LOCK_ROW];
        row[EXCLUSIVE] = holder;
        row[WORKING] = rng.odd_word();
    }
}

/// Whether an update may await this: it does not hold it, and no circle would
/// close.
pub fn may_wait(scene: &Scene, txn: &Txn, is_write: bool, item: u64) -> bool {
    scene.needs(txn, is_write, item) && scene.circle(txn, is_write, item).is_none()
}

/// Lets an update wait, unless it may not.
fn wait(rng: &mut Rng, keeper: &mut Keeper, slot: usize, item: u64) {
    let is_write = rng.percent(50);
    let scene = Scene::of(keeper);
    let number = keeper.txns[TXN_HEAD + slot * TXN_ROW + NUMBER];
    let txn = match scene.find(number) {
        Some(txn) => txn,
        None => return,
    };
    let has_room = !is_write || scene.exclusives(&txn) < QUOTA;
    if has_room && may_wait(&scene, &txn, is_write, item) {
        let lock = match is_write {
            true => AWAITS_EXCLUSIVE,
            false => AWAITS_SHARED,
        };
        let Keeper { txns, locks, .. } = keeper;
        step_in(txns, locks, slot, lock, item as usize);
    }
}

#[cfg(test)]
mod tests {
    use super::*;
    use crate::clauses::broken;

    #[test]
    fn made_tables_are_good() {
        for seed in 0..5000 {
            let keeper = made(&mut Rng::new(seed));
            let list = broken(&keeper.txns, &keeper.locks, &keeper.versions);
            assert!(list.is_empty(), "seed {}: {:?}", seed, list);
            assert!(keeper.is_good(), "seed {}", seed);
        }
    }
}
