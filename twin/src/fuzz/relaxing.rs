//! Relaxed queries: how they come about, several at once, who joins their sets in which
//! way, and what they and others do beside them.

use super::director::{abort, commit, read, settle, write};
use super::scene::{Held, Scene, Txn};
use crate::keeper::Call;
use crate::rng::Rng;
use crate::sizes::*;

fn is_relaxed(txn: &Txn) -> bool {
    txn.is_relaxed
}

/// Any item that is like this.
fn item_like(rng: &mut Rng, like: impl Fn(u64) -> bool) -> Option<u64> {
    let first = rng.below(ITEMS as u64);
    let mut items = (0..ITEMS as u64).map(|step| (first + step) % ITEMS as u64);
    items.find(|&item| like(item))
}

/// A relaxed query reads: what somebody writes, what is hidden from it, what it has read
/// before, or anything.
pub fn reads(rng: &mut Rng, scene: &Scene, item: u64) -> Option<Call> {
    let txn = scene.pick(rng, is_relaxed)?;
    let item = match rng.below(8) {
        0..=1 => item_like(rng, |item| scene.exclusive_holder(item).is_some())?,
        2..=3 => item_like(rng, |item| scene.hidden(item) & txn.bit() != 0)?,
        4 => item_like(rng, |item| txn.items_read >> item & 1 != 0)?,
        _ => item,
    };
    Some(read(txn, item))
}

/// One ends, either way.
pub fn end(rng: &mut Rng, scene: &Scene) -> Option<Call> {
    let txn = scene.pick(rng, is_relaxed)?;
    Some(match rng.percent(50) {
        true => commit(txn),
        false => abort(txn),
    })
}

/// An update writes what one has read, whether it is granted or waits or not.
pub fn met_by_writes(rng: &mut Rng, scene: &Scene) -> Option<Call> {
    let query = scene.pick(rng, |txn| txn.items_read != 0)?;
    let is_held = rng.percent(40);
    let item = item_like(rng, |item| {
        let held = scene.holders(item).0 != 0;
        query.items_read >> item & 1 != 0 && held == is_held
    })?;
    let txn = scene.pick(rng, Txn::is_idle)?;
    Some(write(rng, txn, item))
}

/// An update reads or overwrites a version whose creator is in a set; rather one that is
/// not in it.
pub fn follows(rng: &mut Rng, scene: &Scene) -> Option<Call> {
    let item = item_like(rng, |item| scene.hidden(item) != 0)?;
    let is_new = |txn: &Txn| txn.is_idle() && scene.hidden(item) & !txn.later_for != 0;
    let txn = match rng.percent(80) {
        true => scene.pick(rng, is_new),
        false => scene.pick(rng, Txn::is_idle),
    };
    match (txn, rng.percent(50)) {
        (None, _) if scene.live().len() < SLOTS => Some(Call::Update),
        (txn, true) => Some(read(txn?, item)),
        (txn, false) => Some(write(rng, txn?, item)),
    }
}

/// One that is in a set writes something new, or commits, so that its versions are hidden.
pub fn creates(rng: &mut Rng, scene: &Scene) -> Option<Call> {
    let txn = scene.pick(rng, |txn| txn.is_idle() && txn.later_for != 0)?;
    let is_free = |item: u64| scene.holders(item).0 == 0;
    match scene.exclusives(&txn) {
        0 => {
            let item = item_like(rng, is_free)?;
            Some(write(rng, txn, item))
        }
        _ if rng.percent(60) => Some(commit(txn)),
        _ => {
            let item = item_like(rng, is_free)?;
            Some(write(rng, txn, item))
        }
    }
}

/// An update asks to write what some have read, and would close a circle.
pub fn deadlocks(rng: &mut Rng, scene: &Scene) -> Option<Call> {
    let read = scene
        .live()
        .iter()
        .fold(0, |items, txn| items | txn.items_read);
    let closes = |txn: &Txn, item: u64| {
        read >> item & 1 != 0
            && scene.needs(txn, true, item)
            && scene.circle(txn, true, item).is_some()
    };
    let some = |txn: &Txn| {
        let has_room = scene.exclusives(txn) < QUOTA;
        txn.is_idle() && has_room && (0..ITEMS as u64).any(|item| closes(txn, item))
    };
    let txn = scene.pick(rng, some)?;
    let item = item_like(rng, |item| closes(&txn, item))?;
    Some(write(rng, txn, item))
}

/// What code 13 is for, and what a relaxed query may not do.
pub fn refused(rng: &mut Rng, scene: &Scene, item: u64) -> Option<Call> {
    match rng.below(5) {
        0..=1 if scene.count(|txn| txn.is_settled) > 0 => Some(Call::Relaxed),
        2 => Some(settle(scene.pick(rng, is_relaxed)?)),
        3 => {
            let txn = scene.pick(rng, is_relaxed)?;
            Some(write(rng, txn, item))
        }
        _ if scene.count(is_relaxed) > 0 => Some(settle(scene.pick(rng, Txn::is_writing)?)),
        _ => None,
    }
}

/// A relaxed query reads the hot items, an update writes them and commits, and again,
/// until the slots are full; then reads, and now and then an end. So each of them reads
/// another version. Now and then a strict query begins instead.
pub fn rows(rng: &mut Rng, scene: &Scene, hot: &[u64]) -> Option<Call> {
    let useless = |txn: &Txn| txn.is_settled || txn.awaits.is_some();
    if let Some(txn) = scene.pick(rng, useless) {
        return Some(abort(txn));
    }
    if scene.count(Txn::is_writing) > 1 {
        return Some(abort(scene.pick(rng, Txn::is_writing)?));
    }
    let unread = |txn: &Txn| hot.iter().find(|item| txn.items_read >> **item & 1 == 0);
    let curious = |txn: &Txn| txn.is_relaxed && unread(txn).is_some();
    if let Some(txn) = scene.pick(rng, curious) {
        return Some(read(txn, *unread(&txn)?));
    }
    if let Some(txn) = scene.pick(rng, Txn::is_writing) {
        let is_free = |item: &&u64| scene.held(&txn, **item) != Held::Exclusive;
        return match hot.iter().find(is_free) {
            Some(&item) => Some(write(rng, txn, item)),
            None => Some(commit(txn)),
        };
    }
    let room = SLOTS - scene.live().len();
    let is_new = |txn: &Txn| match txn.is_relaxed {
        true => hot.iter().all(|item| scene.hidden(*item) & txn.bit() == 0),
        false => txn.is_query && txn.start == scene.clock(),
    };
    match (room, scene.count(is_new)) {
        (0, _) => end(rng, scene),
        (1, _) => match rng.below(12) {
            0 => Some(Call::Update),
            1 => end(rng, scene),
            _ => Some(read(
                scene.pick(rng, |txn| !txn.is_writing())?,
                rng.pick(hot)?,
            )),
        },
        (_, 0) if rng.percent(15) => Some(Call::Query),
        (_, 0) => Some(Call::Relaxed),
        (_, _) => Some(Call::Update),
    }
}

/// A call that shows who has joined, what is hidden and what is kept.
pub fn telling(rng: &mut Rng, scene: &Scene) -> Option<Call> {
    let item = rng.below(ITEMS as u64);
    let wrote = |txn: &Txn| txn.is_idle() && scene.exclusives(txn) > 0;
    let outside = |txn: &Txn| wrote(txn) && txn.later_for == 0;
    match rng.below(19) {
        14..=16 => deadlocks(rng, scene),
        17..=18 => Some(commit(
            scene
                .pick(rng, outside)
                .or_else(|| scene.pick(rng, wrote))?,
        )),
        0..=4 => reads(rng, scene, item),
        5..=6 => end(rng, scene),
        7..=8 => met_by_writes(rng, scene),
        9..=10 => follows(rng, scene),
        11..=12 => creates(rng, scene),
        _ => refused(rng, scene, item),
    }
}
