//! Monitoring jobs: updates that read, or do nothing, and commit with nothing
//! written.

use super::director::{commit, read, write};
use super::scene::{Scene, Txn};
use crate::keeper::Call;
use crate::rng::Rng;
use crate::sizes::*;

/// Whether an update may commit now with nothing written.
fn is_monitor(scene: &Scene, txn: &Txn) -> bool {
    txn.is_idle() && scene.exclusives(txn) == 0
}

/// An update begins, reads some items or none, and commits.
pub fn monitor(rng: &mut Rng, scene: &Scene, item: u64) -> Option<Call> {
    let txn = match scene.pick(rng, |txn| is_monitor(scene, txn)) {
        Some(txn) if rng.percent(85) => txn,
        _ if scene.live().len() < SLOTS => return Some(Call::Update),
        txn => txn?,
    };
    Some(match rng.below(10) {
        0..=3 => commit(txn),
        4..=5 => read(txn, rng.below(ITEMS as u64)),
        _ => read(txn, item),
    })
}

/// One of them commits.
pub fn end(rng: &mut Rng, scene: &Scene) -> Option<Call> {
    Some(commit(scene.pick(rng, |txn| is_monitor(scene, txn))?))
}

/// A writer asks for what a monitor reads, alone or beside others.
pub fn in_its_way(rng: &mut Rng, scene: &Scene) -> Option<Call> {
    let monitor = scene.pick(rng, |txn| is_monitor(scene, txn) && scene.holds_any(txn))?;
    let item = scene.pick_held(rng, &monitor, |_| true)?;
    let writer = scene.pick(rng, |txn| txn.is_idle() && txn.slot != monitor.slot)?;
    Some(write(rng, writer, item))
}

/// A writer that nobody stands against any more asks again.
pub fn goes_on(rng: &mut Rng, scene: &Scene) -> Option<Call> {
    let is_free = |txn: &Txn| matches!(txn.awaits, Some((true, _))) && scene.waits_for(txn) == 0;
    let txn = scene.pick(rng, is_free)?;
    Some(write(rng, txn, txn.awaits?.1))
}

/// A commit that shows what a keeper takes for nothing written: of nothing, of what
/// is read alone, of one item, the first or the last by preference, or of one that
/// waits.
pub fn telling(rng: &mut Rng, scene: &Scene) -> Option<Call> {
    let wrote = |txn: &Txn, items: u64| txn.is_idle() && scene.written(txn) == items;
    let edge = rng.one_of(&[1, 1 << (ITEMS - 1)]);
    let txn = match rng.below(12) {
        0..=4 => scene.pick(rng, |txn| is_monitor(scene, txn) && scene.holds_any(txn)),
        5..=6 => scene.pick(rng, |txn| wrote(txn, 0)),
        7..=8 => scene.pick(rng, |txn| wrote(txn, edge)),
        9 => scene.pick(rng, |txn| txn.is_idle() && scene.exclusives(txn) == 1),
        10 => scene.pick(rng, |txn| txn.is_idle() && scene.exclusives(txn) > 1),
        _ => scene.pick(rng, |txn| {
            txn.awaits.is_some() && scene.exclusives(txn) == 0
        }),
    };
    Some(commit(txn.or_else(|| scene.pick(rng, Txn::is_idle))?))
}
