//! Damage to rows of transactions.

use super::set;
use crate::protocol::Tables;
use crate::rng::Rng;
use crate::sizes::*;

pub fn free(row: &[u64]) -> bool {
    row[NUMBER] == 0
}

pub fn live(row: &[u64]) -> bool {
    row[NUMBER] != 0
}

pub fn update(row: &[u64]) -> bool {
    live(row) && row[KIND] == UPDATE
}

pub fn query(row: &[u64]) -> bool {
    live(row) && row[KIND] == QUERY
}

pub fn settled(row: &[u64]) -> bool {
    live(row) && row[KIND] == SETTLED
}

pub fn relaxed(row: &[u64]) -> bool {
    live(row) && row[KIND] == RELAXED
}

pub fn waiting(row: &[u64]) -> bool {
    live(row) && row[AWAITED_LOCK] != AWAITS_NONE
}

pub fn not_waiting(row: &[u64]) -> bool {
    live(row) && row[AWAITED_LOCK] == AWAITS_NONE
}

pub fn pick_slot(rng: &mut Rng, t: &Tables, like: impl Fn(&[u64]) -> bool) -> Option<usize> {
    let rows = t.txns[TXN_HEAD..].chunks(TXN_ROW).enumerate();
    let slots: Vec<usize> = rows
        .filter(|(_, row)| like(row))
        .map(|(slot, _)| slot)
        .collect();
    rng.pick(&slots)
}

/// Changes one word of one row that is like this.
pub fn on_txn(
    rng: &mut Rng,
    t: &mut Tables,
    like: fn(&[u64]) -> bool,
    place: usize,
    value: fn(&mut Rng, u64) -> u64,
) -> bool {
    match pick_slot(rng, t, like) {
        Some(slot) => {
            let clock = t.txns[CLOCK];
            set(
                &mut t.txns[TXN_HEAD + slot * TXN_ROW + place],
                value(rng, clock),
            )
        }
        None => false,
    }
}

pub fn above_clock(rng: &mut Rng, clock: u64) -> u64 {
    match rng.below(3) {
        0 => u64::MAX,
        _ => clock + rng.within(1, 3),
    }
}

pub fn free_row(rng: &mut Rng, t: &mut Tables) -> bool {
    let place = rng.within(KIND as u64, LATER_FOR as u64) as usize;
    on_txn(rng, t, free, place, |rng, _| rng.odd_word().max(1))
}

pub fn equal_numbers(rng: &mut Rng, t: &mut Tables) -> bool {
    let (one, other) = match (pick_slot(rng, t, live), pick_slot(rng, t, live)) {
        (Some(one), Some(other)) if one != other => (one, other),
        _ => return false,
    };
    let number = t.txns[TXN_HEAD + one * TXN_ROW];
    set(&mut t.txns[TXN_HEAD + other * TXN_ROW], number)
}

pub fn number_above_last(rng: &mut Rng, t: &mut Tables) -> bool {
    let slot = match pick_slot(rng, t, live) {
        Some(slot) => slot,
        None => return false,
    };
    let at = TXN_HEAD + slot * TXN_ROW;
    if rng.percent(30) {
        t.txns[LAST_NUMBER] = t.txns[at] - 1;
        return true;
    }
    let above = t.txns[LAST_NUMBER] + rng.one_of(&[1, 1, 2, 1 << 32]);
    set(&mut t.txns[at], above)
}
