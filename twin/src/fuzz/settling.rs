//! Updates past their writing: how they come about, several at once, and what
//! they and others do beside them.

use super::director::{abort, commit, read, settle, write};
use super::scene::{Held, Scene, Txn};
use super::waiters::free_item;
use crate::keeper::Call;
use crate::rng::Rng;
use crate::sizes::*;

fn is_settled(txn: &Txn) -> bool {
    txn.is_settled
}

/// An update ends its writing; now and then one that wrote nothing.
pub fn settle_some(rng: &mut Rng, scene: &Scene) -> Option<Call> {
    let wrote = |txn: &Txn| txn.is_idle() && scene.exclusives(txn) > 0;
    let bare = |txn: &Txn| txn.is_idle() && !scene.holds_any(txn);
    let read_only = |txn: &Txn| txn.is_idle() && scene.holds_any(txn) && scene.exclusives(txn) == 0;
    let txn = match rng.below(10) {
        0..=1 => scene.pick(rng, bare),
        2..=3 => scene.pick(rng, read_only),
        _ => scene.pick(rng, wrote),
    };
    Some(settle(txn?))
}

/// A settle of one that waits, of a query, or of one that did so before.
pub fn refused(rng: &mut Rng, scene: &Scene) -> Option<Call> {
    let txn = match rng.below(3) {
        0 => scene.pick(rng, |txn| txn.awaits.is_some()),
        1 => scene.pick(rng, |txn| txn.is_query),
        _ => scene.pick(rng, is_settled),
    };
    Some(settle(txn?))
}

/// One past its writing reads what it holds, what others past their writing hold,
/// what is being written, or anything.
pub fn read_by_settled(rng: &mut Rng, scene: &Scene, item: u64) -> Option<Call> {
    let txn = scene.pick(rng, is_settled)?;
    let held_by = |rng: &mut Rng, like: &dyn Fn(&Txn) -> bool| {
        let holds = |other: &Txn| like(other) && scene.exclusives(other) > 0;
        let other = scene.pick(rng, holds)?;
        scene.pick_held(rng, &other, |held| held == Held::Exclusive)
    };
    let item = match rng.below(10) {
        0..=1 => scene.pick_held(rng, &txn, |_| true)?,
        2..=3 => held_by(rng, &|other| other.is_settled && other.start < txn.start)?,
        4..=5 => held_by(rng, &|other| other.is_settled && other.start > txn.start)?,
        6 => held_by(rng, &|other| other.is_writing())?,
        _ => item,
    };
    Some(read(txn, item))
}

/// It writes what it holds, what somebody else holds, what nobody does, or an
/// item that there is not.
pub fn write_by_settled(rng: &mut Rng, scene: &Scene, item: u64) -> Option<Call> {
    let txn = scene.pick(rng, is_settled)?;
    let item = match rng.below(10) {
        0..=4 => scene.pick_held(rng, &txn, |_| true)?,
        5..=6 => {
            let other = scene.pick(rng, |other| {
                other.slot != txn.slot && scene.holds_any(other)
            })?;
            scene.pick_held(rng, &other, |_| true)?
        }
        7 => free_item(rng, scene)?,
        8 => rng.one_of(&[64, 65, 1 << 32, u64::MAX]),
        _ => item,
    };
    Some(write(rng, txn, item))
}

/// One past its writing ends, whichever stamp it has.
pub fn end(rng: &mut Rng, scene: &Scene) -> Option<Call> {
    let txn = scene.pick(rng, is_settled)?;
    Some(match rng.percent(60) {
        true => commit(txn),
        false => abort(txn),
    })
}

/// A query reads what one past its writing holds, from before its stamp, from
/// that very stamp or from later; mostly one that has to wait.
pub fn read_by_query(rng: &mut Rng, scene: &Scene) -> Option<Call> {
    let holder = scene.pick(rng, |txn| txn.is_settled && scene.exclusives(txn) > 0)?;
    let query = match rng.below(4) {
        0 => scene.pick(rng, |txn| txn.is_query),
        1 => scene.pick(rng, |txn| txn.is_query && txn.start < holder.start),
        2 => scene.pick(rng, |txn| txn.is_query && txn.start == holder.start),
        _ => scene.pick(rng, |txn| txn.is_query && txn.start > holder.start),
    };
    match query {
        Some(query) => Some(read(query, scene.pick_held(rng, &holder, |_| true)?)),
        None if rng.percent(30) => Some(Call::Query),
        None => None,
    }
}

/// An update asks for what one past its writing holds.
pub fn meet(rng: &mut Rng, scene: &Scene) -> Option<Call> {
    let holder = scene.pick(rng, |txn| txn.is_settled && scene.exclusives(txn) > 0)?;
    let item = scene.pick_held(rng, &holder, |_| true)?;
    let txn = scene.pick(rng, Txn::is_idle)?;
    Some(match rng.percent(50) {
        true => read(txn, item),
        false => write(rng, txn, item),
    })
}

/// An update begins, takes items of its own and looks at others, and ends its
/// writing; now and then a query begins in between, often right behind.
pub fn several(rng: &mut Rng, scene: &Scene) -> Option<Call> {
    let clock = scene.clock();
    let is_newest = |txn: &Txn| txn.is_settled && txn.start == clock;
    let at_clock = |txn: &Txn| txn.is_query && txn.start == clock;
    let has_room = scene.live().len() < SLOTS;
    if scene.count(is_newest) > 0 && scene.count(at_clock) == 0 && has_room && rng.percent(30) {
        return Some(Call::Query);
    }
    let txn = match scene.pick(rng, Txn::is_idle) {
        Some(txn) => txn,
        None if has_room => return Some(Call::Update),
        None => return end(rng, scene),
    };
    match (scene.exclusives(&txn), rng.below(10)) {
        (_, 0..=1) => Some(read(txn, rng.below(ITEMS as u64))),
        (0, 2) | (1.., 2..=5) => Some(settle(txn)),
        _ => {
            let item = free_item(rng, scene)?;
            Some(write(rng, txn, item))
        }
    }
}

/// A read that was made before, by one that is still there; rather one that
/// nobody stands against any more.
pub fn again(rng: &mut Rng, scene: &Scene, asked: &[Call]) -> Option<Call> {
    let is_free = |call: &&Call| match call {
        Call::Read { number, item } if *item < ITEMS as u64 => {
            let is_live = scene.find(*number).map_or(false, |txn| !txn.is_writing());
            is_live && scene.exclusive_holder(*item).is_none()
        }
        _ => false,
    };
    match asked.iter().find(is_free) {
        Some(call) if rng.percent(80) => Some(*call),
        _ => rng.pick(asked),
    }
}

/// Queries end and updates begin, write an item of their own or none, and end
/// their writing, until all slots are past it.
pub fn all(rng: &mut Rng, scene: &Scene) -> Option<Call> {
    let useless = |txn: &Txn| txn.is_query || txn.is_relaxed || txn.awaits.is_some();
    if let Some(txn) = scene.pick(rng, useless) {
        return Some(abort(txn));
    }
    match scene.pick(rng, Txn::is_idle) {
        Some(txn) if scene.holds_any(&txn) || rng.percent(20) => Some(settle(txn)),
        Some(txn) => {
            let item = free_item(rng, scene)?;
            Some(write(rng, txn, item))
        }
        None if scene.live().len() < SLOTS => Some(Call::Update),
        None if rng.percent(10) => end(rng, scene),
        None => None,
    }
}

/// A reader, by far the most often one past its writing, then an update that
/// writes the hot items and commits, and again, until the slots are full; then
/// reads, and now and then an end.
pub fn rows(rng: &mut Rng, scene: &Scene, hot: &[u64]) -> Option<Call> {
    let (clock, room) = (scene.clock(), SLOTS - scene.live().len());
    if scene.count(Txn::is_writing) > 1 {
        return Some(abort(scene.pick(rng, Txn::is_writing)?));
    }
    let reads_now = |txn: &Txn| !txn.is_writing() && txn.start == clock;
    let has_reader = scene.count(reads_now) > 0;
    if let Some(txn) = scene.pick(rng, Txn::is_writing) {
        let is_free = |item: &&u64| scene.held(&txn, **item) != Held::Exclusive;
        let is_bare = !scene.holds_any(&txn);
        return match hot.iter().find(is_free) {
            _ if txn.awaits.is_some() => Some(abort(txn)),
            _ if !has_reader && is_bare && room > 0 => Some(settle(txn)),
            Some(&item) => match scene.exclusive_holder(item) {
                Some(holder) => Some(abort(holder)),
                None => Some(write(rng, txn, item)),
            },
            None => Some(commit(txn)),
        };
    }
    match room {
        0 => end(rng, scene),
        1 => match rng.below(12) {
            0 => Some(Call::Update),
            1 => end(rng, scene),
            _ => Some(read(
                scene.pick(rng, |txn| !txn.is_writing())?,
                rng.pick(hot)?,
            )),
        },
        _ if !has_reader && rng.percent(20) => Some(Call::Query),
        _ => Some(Call::Update),
    }
}

/// A call that shows who is past its writing.
pub fn telling(rng: &mut Rng, scene: &Scene) -> Option<Call> {
    let item = rng.below(ITEMS as u64);
    // A spent clock hinders a settle, and no commit of one that is settled.
    if scene.clock() == LAST && rng.percent(60) {
        return match rng.percent(50) {
            true => settle_some(rng, scene),
            false => end(rng, scene),
        };
    }
    // Now and then the last that is writing settles.
    if scene.count(is_settled) == SLOTS - 1 && rng.percent(30) {
        return Some(settle(scene.pick(rng, Txn::is_idle)?));
    }
    match rng.below(14) {
        0..=3 => read_by_settled(rng, scene, item),
        4..=5 => write_by_settled(rng, scene, item),
        6..=7 => end(rng, scene),
        8..=9 => read_by_query(rng, scene),
        10 => meet(rng, scene),
        11..=12 => settle_some(rng, scene),
        _ => refused(rng, scene),
    }
}
