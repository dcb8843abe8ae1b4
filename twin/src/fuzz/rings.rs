//! Circles of as many updates as there are slots: how they come about.

use super::director::{abort, ask_for_what_is_held, awaited_slots, close, read, write};
use super::scene::{Scene, Txn};
use super::waiters::free_item;
use crate::keeper::Call;
use crate::rng::Rng;
use crate::sizes::*;

/// The next step towards a circle of all slots. Queries end and updates begin
/// until all slots have one; each update takes an item of its own; then one chain
/// of waits grows over all of them, and its end asks for what its first one holds.
pub fn ring(rng: &mut Rng, scene: &Scene) -> Option<Call> {
    // Who waits and holds nothing is never waited for.
    let useless = |txn: &Txn| !txn.is_writing() || txn.awaits.is_some() && !scene.holds_any(txn);
    if let Some(txn) = scene.pick(rng, useless) {
        return Some(abort(txn));
    }
    if scene.live().len() < SLOTS {
        return Some(Call::Update);
    }
    let is_bare = |txn: &Txn| txn.is_idle() && !scene.holds_any(txn);
    if let Some(txn) = scene.pick(rng, is_bare) {
        let item = free_item(rng, scene)?;
        return Some(match rng.percent(15) {
            true => read(txn, item),
            false => write(rng, txn, item),
        });
    }
    match (scene.count(Txn::is_idle), rng.below(8)) {
        (0, _) | (1, 0) => Some(abort(scene.pick(rng, |_| true)?)),
        (1, _) => close(rng, scene),
        _ => join(rng, scene),
    }
}

/// The end of a chain asks for what the first one of another chain holds.
fn join(rng: &mut Rng, scene: &Scene) -> Option<Call> {
    let awaited = awaited_slots(scene);
    let is_end = |txn: &Txn| txn.is_idle() && awaited & txn.bit() != 0;
    let end = match scene.pick(rng, is_end) {
        Some(txn) => txn,
        None => scene.pick(rng, Txn::is_idle)?,
    };
    let leads_elsewhere = |txn: &Txn| {
        awaited & txn.bit() == 0 && end_of(scene, *txn).map_or(false, |slot| slot != end.slot)
    };
    match scene.pick(rng, leads_elsewhere) {
        Some(other) => ask_for_what_is_held(rng, scene, end, other),
        None => Some(abort(scene.pick(rng, |txn| txn.awaits.is_some())?)),
    }
}

/// Where one of the walks along the waits ends; none if a stale wait is met.
fn end_of(scene: &Scene, mut txn: Txn) -> Option<usize> {
    while txn.awaits.is_some() {
        let against = scene.waits_for(&txn);
        txn = *scene.live().iter().find(|txn| against & txn.bit() != 0)?;
    }
    Some(txn.slot)
}
