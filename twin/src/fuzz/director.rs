//! What to call next, so that much happens: moods that change, and in each the
//! actions that lead to waits, long lines, circles, full slots, full rows, full
//! jobs and updates past their writing.

use super::actions::Action::{self, *};
use super::moods::{Mood, MIXED, MOODS};
use super::scene::{Held, Scene, Txn};
use super::{jobs, monitors, relaxing, rings, settling, waiters};
use crate::keeper::{Call, Keeper};
use crate::rng::Rng;
use crate::sizes::*;

/// How many calls are kept in mind.
const ASKED: usize = 12;

/// Chooses calls for the tables it is shown.
pub struct Director {
    mood: Mood,
    left: u64,
    hot: Vec<u64>,
    /// What readers by start asked for last.
    asked: Vec<Call>,
}

impl Director {
    pub fn new() -> Director {
        Director {
            mood: MIXED,
            left: 0,
            hot: Vec::new(),
            asked: Vec::new(),
        }
    }

    /// The next call.
    pub fn next(&mut self, rng: &mut Rng, keeper: &Keeper) -> Call {
        let scene = Scene::of(keeper);
        if self.left == 0 {
            self.mood = rng.one_of(&MOODS);
            self.left = rng.within(20, 600);
            let hot = rng.within(1, self.mood.0);
            self.hot = (0..hot).map(|_| rng.below(ITEMS as u64)).collect();
        }
        self.left -= 1;
        for _ in 0..20 {
            let action = self.choose(rng);
            if let Some(call) = self.realise(rng, &scene, action) {
                if let QueryMeets | SettledReads = action {
                    self.asked.truncate(ASKED - 1);
                    self.asked.insert(0, call);
                }
                return call;
            }
        }
        rng.one_of(&[Call::Update, Call::Query])
    }

    fn choose(&self, rng: &mut Rng) -> Action {
        let actions = self.mood.1;
        let sum = actions.iter().map(|(_, weight)| weight).sum();
        let mut at = rng.below(sum);
        for &(action, weight) in actions {
            if at < weight {
                return action;
            }
            at -= weight;
        }
        Action::Update
    }

    fn item(&self, rng: &mut Rng) -> u64 {
        match rng.pick(&self.hot) {
            Some(item) if !rng.percent(5) => item,
            _ => rng.below(ITEMS as u64),
        }
    }

    /// The call that an action comes to, if it can be done now.
    fn realise(&self, rng: &mut Rng, scene: &Scene, action: Action) -> Option<Call> {
        let item = self.item(rng);
        match action {
            // Full slots are worth a try, but not every time.
            Update | Query | Relaxed if scene.live().len() == SLOTS && rng.percent(75) => None,
            Update => Some(Call::Update),
            Query => Some(Call::Query),
            Relaxed => Some(Call::Relaxed),
            Read => Some(read(scene.pick(rng, Txn::is_idle)?, item)),
            Write => {
                let txn = scene.pick(rng, Txn::is_idle)?;
                Some(write(rng, txn, item))
            }
            Upgrade => {
                let shares = |txn: &Txn| {
                    let mut items = 0..ITEMS as u64;
                    txn.is_idle() && items.any(|item| scene.held(txn, item) == Held::Shared)
                };
                let txn = scene.pick(rng, shares)?;
                let item = scene.pick_held(rng, &txn, |held| held == Held::Shared)?;
                Some(write(rng, txn, item))
            }
            Retry => {
                let txn = scene.pick(rng, |txn| txn.awaits.is_some())?;
                Some(ask(rng, txn, txn.awaits?))
            }
            Stray => {
                let txn = scene.pick(rng, |txn| txn.awaits.is_some())?;
                let (is_write, awaited) = txn.awaits?;
                match (rng.below(5), is_write) {
                    (0, _) => Some(commit(txn)),
                    (4, _) => Some(settle(txn)),
                    (1, true) => Some(read(txn, awaited)),
                    (1, false) => Some(write(rng, txn, awaited)),
                    (2, _) => Some(read(txn, item)),
                    _ => Some(write(rng, txn, item)),
                }
            }
            Settle => settling::settle_some(rng, scene),
            SettleRefused => settling::refused(rng, scene),
            SettledReads => settling::read_by_settled(rng, scene, item),
            SettledWrites => settling::write_by_settled(rng, scene, item),
            SettledEnds => settling::end(rng, scene),
            QueryMeets => settling::read_by_query(rng, scene),
            UpdateMeets => settling::meet(rng, scene),
            ReadAgain => settling::again(rng, scene, &self.asked),
            Several => settling::several(rng, scene),
            All => settling::all(rng, scene),
            SettledRows => settling::rows(rng, scene, &self.hot),
            Monitor => monitors::monitor(rng, scene, item),
            MonitorEnds => monitors::end(rng, scene),
            InItsWay => monitors::in_its_way(rng, scene),
            GoesOn => monitors::goes_on(rng, scene),
            RelaxedReads => relaxing::reads(rng, scene, item),
            RelaxedEnds => relaxing::end(rng, scene),
            MetByWrites => relaxing::met_by_writes(rng, scene),
            Follows => relaxing::follows(rng, scene),
            Creates => relaxing::creates(rng, scene),
            RelaxedRefused => relaxing::refused(rng, scene, item),
            RelaxedRows => relaxing::rows(rng, scene, &self.hot),
            CommitUpdate => Some(commit(scene.pick(rng, Txn::is_idle)?)),
            AbortUpdate => Some(abort(scene.pick(rng, |txn| !txn.is_query)?)),
            QueryRead => Some(read(scene.pick(rng, |txn| txn.is_query)?, item)),
            QueryWrite => {
                let txn = scene.pick(rng, |txn| txn.is_query)?;
                Some(write(rng, txn, item))
            }
            EndQuery => {
                let txn = scene.pick(rng, |txn| txn.is_query)?;
                let call = if rng.percent(50) { commit } else { abort };
                Some(call(txn))
            }
            HighItem => {
                let txn = scene.pick(rng, |_| true)?;
                let item = match rng.below(4) {
                    0 => rng.within(64, 70),
                    1 => item + rng.one_of(&[1 << 6, 1 << 7, 1 << 8, 1 << 16, 1 << 32, 1 << 63]),
                    2 => rng.odd_word().max(64),
                    _ => 64,
                };
                Some(if rng.percent(50) {
                    read(txn, item)
                } else {
                    write(rng, txn, item)
                })
            }
            UnknownNumber => Some(unknown_number(rng, scene, item)),
            OwnItem => {
                let txn = scene.pick(rng, |txn| txn.is_idle() && !scene.holds_any(txn))?;
                let item = rng.below(ITEMS as u64);
                match (scene.holders(item).0, rng.percent(70)) {
                    (0, true) => Some(write(rng, txn, item)),
                    (0, false) => Some(read(txn, item)),
                    _ => None,
                }
            }
            Ring => rings::ring(rng, scene),
            Chain => chain(rng, scene),
            Close => close(rng, scene),
            Rows => self.rows(rng, scene),
            Hoard => jobs::hoard(rng, scene),
            AtLimit => jobs::at_limit(rng, scene),
            BesideFull => jobs::beside(rng, scene),
            QueueUp => waiters::queue_up(rng, scene, item),
            InLine => waiters::in_line(rng, scene, item),
            Pass => waiters::pass(rng, scene, item),
        }
    }

    /// A query, an update that writes the hot items and commits, and again,
    /// until the slots are full; then reads, and now and then an end.
    fn rows(&self, rng: &mut Rng, scene: &Scene) -> Option<Call> {
        if scene.count(|txn| !txn.is_query) > 1 {
            return Some(abort(scene.pick(rng, |txn| !txn.is_query)?));
        }
        if let Some(txn) = scene.pick(rng, |txn| !txn.is_query) {
            let free = |item: &&u64| scene.held(&txn, **item) != Held::Exclusive;
            return match self.hot.iter().find(free) {
                Some(&item) if txn.is_idle() => Some(write(rng, txn, item)),
                None if txn.is_idle() => Some(commit(txn)),
                _ => Some(abort(txn)),
            };
        }
        let clock = scene.clock();
        let room = SLOTS - scene.live().len();
        let at_clock = scene.count(|txn| txn.is_query && txn.start == clock) > 0;
        match (room, at_clock) {
            (0, _) => self.realise(rng, scene, EndQuery),
            (1, _) => match rng.below(12) {
                0 => Some(Call::Update),
                1 => self.realise(rng, scene, EndQuery),
                _ => self.realise(rng, scene, QueryRead),
            },
            (_, false) => Some(Call::Query),
            (_, true) => Some(Call::Update),
        }
    }
}

impl Default for Director {
    fn default() -> Director {
        Director::new()
    }
}

pub fn read(txn: Txn, item: u64) -> Call {
    let number = txn.number;
    Call::Read { number, item }
}

pub fn write(rng: &mut Rng, txn: Txn, item: u64) -> Call {
    Call::Write {
        number: txn.number,
        item,
        value: rng.odd_word(),
    }
}

/// The call that asks for a lock on an item.
pub fn ask(rng: &mut Rng, txn: Txn, (is_write, item): (bool, u64)) -> Call {
    match is_write {
        true => write(rng, txn, item),
        false => read(txn, item),
    }
}

pub fn commit(txn: Txn) -> Call {
    let number = txn.number;
    Call::Commit { number }
}

pub fn abort(txn: Txn) -> Call {
    let number = txn.number;
    Call::Abort { number }
}

pub fn settle(txn: Txn) -> Call {
    let number = txn.number;
    Call::Settle { number }
}

/// A number that was never given, is not live any more, or is a live one with
/// something on top.
fn unknown_number(rng: &mut Rng, scene: &Scene, item: u64) -> Call {
    let live = scene.pick(rng, |_| true).map_or(1, |txn| txn.number);
    let number = match rng.below(8) {
        0 => 0,
        1 => scene.last() + rng.within(1, 3),
        2 => live + rng.one_of(&[1 << 8, 1 << 16, 1 << 32, 1 << 33, 1 << 63]),
        3 => rng.odd_word(),
        _ => rng.within(0, scene.last()),
    };
    let value = rng.odd_word();
    match rng.below(5) {
        0 => Call::Read { number, item },
        1 => Call::Write {
            number,
            item,
            value,
        },
        2 => Call::Commit { number },
        3 => Call::Settle { number },
        _ => Call::Abort { number },
    }
}

/// The slots that some update waits for.
pub fn awaited_slots(scene: &Scene) -> u64 {
    let waits = scene.live().iter().map(|txn| scene.waits_for(txn));
    waits.fold(0, |all, some| all | some)
}

/// An update, the end of a chain if there is one, asks for an item of another
/// that waits for nothing and that nobody waits for.
fn chain(rng: &mut Rng, scene: &Scene) -> Option<Call> {
    let awaited = awaited_slots(scene);
    let end = |txn: &Txn| txn.is_idle() && awaited & txn.bit() != 0;
    let txn = scene
        .pick(rng, end)
        .or_else(|| scene.pick(rng, Txn::is_idle))?;
    let fresh = |other: &Txn| {
        other.is_idle()
            && other.slot != txn.slot
            && awaited & other.bit() == 0
            && scene.holds_any(other)
    };
    let other = scene.pick(rng, fresh)?;
    ask_for_what_is_held(rng, scene, txn, other)
}

/// From a waiting update, one nobody waits for by preference, along the chain
/// to its end, which then asks for an item of the first one.
pub fn close(rng: &mut Rng, scene: &Scene) -> Option<Call> {
    let awaited = awaited_slots(scene);
    let first = |txn: &Txn| txn.awaits.is_some() && awaited & txn.bit() == 0;
    let waits = |txn: &Txn| txn.awaits.is_some();
    let first = match rng.percent(70) {
        true => scene.pick(rng, first)?,
        false => scene.pick(rng, waits)?,
    };
    let mut end = first;
    while end.awaits.is_some() {
        let against = scene.waits_for(&end);
        end = scene.pick(rng, |txn| against & txn.bit() != 0)?;
    }
    ask_for_what_is_held(rng, scene, end, first)
}

pub fn ask_for_what_is_held(rng: &mut Rng, scene: &Scene, txn: Txn, other: Txn) -> Option<Call> {
    let item = scene.pick_held(rng, &other, |_| true)?;
    if scene.held(&other, item) == Held::Exclusive && rng.percent(50) {
        return Some(read(txn, item));
    }
    Some(write(rng, txn, item))
}
