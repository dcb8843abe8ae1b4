//! Lines of waiters: how they grow, and what those in them and beside them do.

use super::director::{abort, ask, ask_for_what_is_held, commit, read, write};
use super::scene::{Held, Scene, Txn};
use crate::keeper::Call;
use crate::rng::Rng;
use crate::sizes::*;

/// The next step towards a long line at an item: it gets holders, and then one
/// more waiter, now and then one that shares it.
pub fn queue_up(rng: &mut Rng, scene: &Scene, item: u64) -> Option<Call> {
    let idle = |held: Held| move |txn: &Txn| txn.is_idle() && scene.held(txn, item) == held;
    if rng.percent(10) {
        if let Some(txn) = scene.pick(rng, idle(Held::Shared)) {
            return Some(write(rng, txn, item));
        }
    }
    match scene.pick(rng, idle(Held::Nothing)) {
        // Who holds something else can be waited for elsewhere.
        Some(txn) if !scene.holds_any(&txn) && rng.percent(40) => {
            let item = free_item(rng, scene)?;
            Some(write(rng, txn, item))
        }
        Some(txn) if rng.percent(50) => Some(read(txn, item)),
        Some(txn) => Some(write(rng, txn, item)),
        None if scene.live().len() < SLOTS => Some(Call::Update),
        None => in_line(rng, scene, item),
    }
}

/// One in the line asks again or goes, or one that holds the item does
/// something.
pub fn in_line(rng: &mut Rng, scene: &Scene, item: u64) -> Option<Call> {
    let line = scene.line(item);
    let holds = |txn: &Txn| txn.is_idle() && scene.held(txn, item) != Held::Nothing;
    match rng.below(10) {
        0..=3 => {
            let waiter = rng.pick(&line)?;
            Some(ask(rng, waiter, waiter.awaits?))
        }
        4 => {
            let first = *line.first()?;
            Some(ask(rng, first, first.awaits?))
        }
        5 => Some(abort(rng.pick(&line)?)),
        6 => Some(read(scene.pick(rng, holds)?, item)),
        7 => {
            let txn = scene.pick(rng, holds)?;
            Some(write(rng, txn, item))
        }
        8 => Some(commit(scene.pick(rng, holds)?)),
        _ => Some(abort(scene.pick(rng, holds)?)),
    }
}

/// One that shares an item waits to exchange, and a reader that it passes is
/// waited for by another who shares: step by step, with a writer between that
/// goes again.
pub fn pass(rng: &mut Rng, scene: &Scene, item: u64) -> Option<Call> {
    let shares = |txn: &Txn| txn.is_idle() && scene.held(txn, item) == Held::Shared;
    let other = |txn: &Txn| txn.is_idle() && scene.held(txn, item) == Held::Nothing;
    let line = scene.line(item);
    let writer = line
        .iter()
        .find(|txn| matches!(txn.awaits, Some((true, _))));
    let holding = |txn: &&Txn| scene.holds_any(txn) && txn.awaits == Some((false, item));
    match (writer, line.iter().find(holding)) {
        (Some(&writer), Some(_)) => Some(abort(writer)),
        (Some(_), None) => {
            let txn = scene.pick(rng, other)?;
            if scene.holds_any(&txn) {
                return Some(read(txn, item));
            }
            let item = free_item(rng, scene)?;
            Some(write(rng, txn, item))
        }
        (None, Some(&reader)) => {
            let for_it = |txn: &Txn| scene.waits_for(txn) & reader.bit() != 0;
            let is_waited_for = |txn: &Txn| for_it(txn) && scene.held(txn, item) == Held::Shared;
            let txn = scene.pick(rng, shares)?;
            match scene.count(is_waited_for) {
                0 => ask_for_what_is_held(rng, scene, txn, reader),
                _ => Some(write(rng, txn, item)),
            }
        }
        (None, None) if scene.count(shares) < 2 => Some(read(scene.pick(rng, other)?, item)),
        (None, None) => {
            let txn = scene.pick(rng, other)?;
            Some(write(rng, txn, item))
        }
    }
}

/// A call that shows how the lines stand: an exchange that closes a circle only
/// through who is passed, if there is one, or a call by one in a line.
pub fn telling(rng: &mut Rng, scene: &Scene) -> Option<Call> {
    let has_line = |item: &u64| !scene.line(*item).is_empty();
    let items: Vec<u64> = (0..ITEMS as u64).filter(has_line).collect();
    for &item in &items {
        let closes = |txn: &Txn| {
            let shares = txn.is_idle() && scene.held(txn, item) == Held::Shared;
            shares
                && scene.circle(txn, true, item).is_some()
                && scene.circle_before(txn, true, item).is_none()
        };
        if let Some(txn) = scene.pick(rng, closes) {
            return Some(write(rng, txn, item));
        }
    }
    let item = rng.pick(&items)?;
    in_line(rng, scene, item)
}

/// An item that nobody holds or awaits.
pub fn free_item(rng: &mut Rng, scene: &Scene) -> Option<u64> {
    let first = rng.below(ITEMS as u64);
    let mut items = (0..ITEMS as u64).map(|step| (first + step) % ITEMS as u64);
    items.find(|&item| scene.holders(item).0 == 0 && scene.line(item).is_empty())
}
