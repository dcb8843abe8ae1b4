//! Jobs at the limit: updates that hold 31 or 32 items exclusively, how they
//! come to that, and what they and others do then.

use super::director::{abort, commit, read, settle, write};
use super::scene::{Held, Scene, Txn};
use crate::keeper::Call;
use crate::rng::Rng;
use crate::sizes::*;

/// Whether an update is full, or would be with one item more.
fn is_near(scene: &Scene, txn: &Txn) -> bool {
    !txn.is_query && scene.exclusives(txn) + 1 >= QUOTA
}

/// The next step towards a full job: of the updates that have room the fullest
/// takes one more item. Where no item is left, somebody else has to end.
pub fn hoard(rng: &mut Rng, scene: &Scene) -> Option<Call> {
    let has_room = |txn: &&Txn| txn.is_idle() && scene.exclusives(txn) < QUOTA;
    let roomy = scene.live().iter().filter(has_room);
    let job = match roomy.max_by_key(|txn| scene.exclusives(txn)) {
        Some(job) => *job,
        None if scene.live().len() < SLOTS => return Some(Call::Update),
        None => return Some(abort(scene.pick(rng, |txn| !is_near(scene, txn))?)),
    };
    let can_take = |held: Held, against: u64| held != Held::Exclusive && against == 0;
    if let Some(item) = pick_item(rng, scene, &job, can_take) {
        // What is only read now is exchanged later.
        return Some(match rng.percent(10) {
            true => read(job, item),
            false => write(rng, job, item),
        });
    }
    let in_the_way =
        |txn: &Txn| txn.slot != job.slot && scene.holds_any(txn) && scene.exclusives(txn) < QUOTA;
    match scene.pick(rng, in_the_way) {
        Some(txn) if txn.is_idle() && rng.percent(50) => Some(commit(txn)),
        Some(txn) => Some(abort(txn)),
        None => None, // two full jobs hold everything
    }
}

/// A job at the limit writes a further item or one that it has, reads, ends or,
/// where it waits, asks again or for something else.
pub fn at_limit(rng: &mut Rng, scene: &Scene) -> Option<Call> {
    let job = scene.pick(rng, |txn| is_near(scene, txn))?;
    if let Some((is_write, item)) = job.awaits {
        return Some(match (rng.below(10), is_write) {
            (0..=3, true) => write(rng, job, item),
            (0..=3, false) => read(job, item),
            (4, true) => read(job, item),
            (4, false) => write(rng, job, item),
            (5..=6, _) => further(rng, scene, job)?,
            (7, _) => rewrite(rng, scene, job)?,
            (8, _) => commit(job),
            _ => abort(job),
        });
    }
    match rng.below(20) {
        0..=8 => further(rng, scene, job),
        9..=11 => rewrite(rng, scene, job),
        12..=16 => Some(read(job, rng.below(ITEMS as u64))),
        17 => Some(write(rng, job, ITEMS as u64)),
        18 if rng.percent(50) => Some(settle(job)),
        18 => Some(commit(job)),
        _ => Some(abort(job)),
    }
}

/// Another update waits for a job at the limit, shares an item, or takes one
/// that the job may then ask for.
pub fn beside(rng: &mut Rng, scene: &Scene) -> Option<Call> {
    let job = scene.pick(rng, |txn| is_near(scene, txn))?;
    let other = scene.pick(rng, |txn| txn.is_idle() && !is_near(scene, txn))?;
    match rng.below(4) {
        0 => {
            let item = pick_item(rng, scene, &other, |held, against| {
                held == Held::Nothing && against == 0
            });
            Some(write(rng, other, item?))
        }
        1 => {
            let item = pick_item(rng, scene, &job, |held, _| held == Held::Shared);
            Some(read(other, item?))
        }
        2 => Some(read(other, rng.below(ITEMS as u64))),
        _ => {
            let item = scene.pick_held(rng, &job, |held| held == Held::Exclusive)?;
            Some(match rng.percent(50) {
                true => read(other, item),
                false => write(rng, other, item),
            })
        }
    }
}

fn rewrite(rng: &mut Rng, scene: &Scene, job: Txn) -> Option<Call> {
    let item = scene.pick_held(rng, &job, |held| held == Held::Exclusive)?;
    Some(write(rng, job, item))
}

/// A write of an item that the job does not hold exclusively: held by who waits
/// for the job, by others, by nobody, or shared by the job, alone or not.
fn further(rng: &mut Rng, scene: &Scene, job: Txn) -> Option<Call> {
    let waiting_for_it: u64 = scene
        .live()
        .iter()
        .filter(|txn| scene.waits_for(txn) & job.bit() != 0)
        .map(Txn::bit)
        .sum();
    let first = rng.below(5);
    for way in (first..5).chain(0..first) {
        let item = pick_item(rng, scene, &job, |held, against| match way {
            0 => held != Held::Exclusive && against & waiting_for_it != 0,
            1 => held == Held::Nothing && against != 0,
            2 => held == Held::Nothing && against == 0,
            3 => held == Held::Shared && against == 0,
            _ => held == Held::Shared && against != 0,
        });
        if let Some(item) = item {
            return Some(write(rng, job, item));
        }
    }
    None
}

/// An item by how this update holds it and which others stand against its
/// write.
fn pick_item(
    rng: &mut Rng,
    scene: &Scene,
    txn: &Txn,
    like: impl Fn(Held, u64) -> bool,
) -> Option<u64> {
    let first = rng.below(ITEMS as u64);
    let mut items = (0..ITEMS as u64).map(|step| (first + step) % ITEMS as u64);
    items.find(|&item| like(scene.held(txn, item), scene.against(txn, true, item)))
}
