//! Damage to rows of versions.

use super::set;
use super::txns::{query, settled};
use crate::protocol::Tables;
use crate::rng::Rng;
use crate::sizes::*;

pub fn pick_row<'a>(
    rng: &mut Rng,
    t: &'a mut Tables,
    like: impl Fn(&[u64]) -> bool,
) -> Option<&'a mut [u64]> {
    let rows = t.versions.chunks(VERSION_ROW).enumerate();
    let items: Vec<usize> = rows
        .filter(|(_, row)| like(row))
        .map(|(item, _)| item)
        .collect();
    let item = rng.pick(&items)?;
    Some(&mut t.versions[item * VERSION_ROW..][..VERSION_ROW])
}

/// The same, but mostly a long row, if there is one.
fn pick_long<'a>(
    rng: &mut Rng,
    t: &'a mut Tables,
    like: impl Fn(&[u64]) -> bool,
) -> Option<&'a mut [u64]> {
    let is_long = |row: &[u64]| like(row) && row[COUNT] > PLACES as u64 / 2;
    let has_long = t.versions.chunks(VERSION_ROW).any(is_long);
    match has_long && rng.percent(90) {
        true => pick_row(rng, t, is_long),
        false => pick_row(rng, t, like),
    }
}

pub fn count(rng: &mut Rng, t: &mut Tables, value: fn(&mut Rng) -> u64) -> bool {
    let value = value(rng);
    // Of a row whose words would all be zero behind a count of 0, if there is one.
    let zero = |row: &[u64]| row[1..].iter().all(|&word| word == 0);
    let row = match pick_row(rng, t, zero) {
        Some(row) => row,
        None => &mut t.versions[..VERSION_ROW],
    };
    set(&mut row[COUNT], value)
}

pub fn unused_pair(rng: &mut Rng, t: &mut Tables) -> bool {
    match pick_row(rng, t, |row| row[COUNT] < PLACES as u64) {
        Some(row) => {
            let first = 1 + 2 * row[COUNT] as usize;
            let at = match rng.below(3) {
                0 => first,
                1 => pair(PLACES) - 1,
                _ => first + rng.index(pair(PLACES) - first),
            };
            set(&mut row[at], rng.odd_word().max(1))
        }
        None => false,
    }
}

pub fn stamps(rng: &mut Rng, t: &mut Tables, change: fn(&mut Rng, &mut [u64]) -> bool) -> bool {
    match pick_long(rng, t, |row| row[COUNT] >= 2) {
        Some(row) => change(rng, row),
        None => false,
    }
}

/// Sets the stamp of a newer version from its own and the next older one, or
/// the other way round.
pub fn row_stamp(rng: &mut Rng, row: &mut [u64], other: fn(u64, u64) -> u64) -> bool {
    let newer = 1 + 2 * rng.index(row[COUNT] as usize - 1);
    let older = newer + 2;
    if rng.percent(50) {
        row[older] = other(row[newer], row[older]);
    } else if other(1, 0) == 1 {
        row[newer] = row[older];
    } else {
        row.swap(newer, older);
    }
    true
}

pub fn first_stamp(rng: &mut Rng, t: &mut Tables) -> bool {
    let clock = t.txns[CLOCK];
    match pick_row(rng, t, |row| row[COUNT] >= 1) {
        Some(row) => {
            let above = if rng.percent(70) { clock + 1 } else { u64::MAX };
            set(&mut row[1], above)
        }
        None => false,
    }
}

pub fn last_stamp(rng: &mut Rng, t: &mut Tables) -> bool {
    let clock = t.txns[CLOCK];
    let rows = t.txns[TXN_HEAD..].chunks(TXN_ROW);
    let readers = rows.filter(|row| query(row) || settled(row));
    let earliest = match readers.map(|row| row[START]).min() {
        Some(start) if start < clock => start,
        _ => return false,
    };
    // A row of one version has nothing else that this could break.
    match pick_row(rng, t, |row| row[COUNT] == 1) {
        Some(row) => set(
            &mut row[1],
            rng.within(earliest + 1, clock.min(earliest + 3)),
        ),
        None => false,
    }
}

/// One more version, just below another one of the row.
pub fn unread_version(rng: &mut Rng, t: &mut Tables) -> bool {
    let last = |row: &[u64]| row[2 * row[COUNT] as usize - 1];
    let roomy = |row: &[u64]| row[COUNT] < PLACES as u64 && last(row) > 0;
    match pick_long(rng, t, roomy) {
        Some(row) => {
            let count = row[COUNT] as usize;
            // Late in the row, mostly.
            let first = match rng.percent(25) {
                true => 1,
                false => 1 + count / 2,
            };
            let at = 1 + 2 * rng.within(first.min(count) as u64, count as u64) as usize;
            row.copy_within(at..pair(count), at + 2);
            // It is hidden from whom the next newer one is hidden from.
            let place = at / 2;
            row.copy_within(hidden(place)..hidden(count), hidden(place + 1));
            row[hidden(place)] = match place == count {
                true => 0,
                false => row[hidden(place - 1)],
            };
            row[at] = row[at - 2] - 1;
            row[at + 1] = rng.odd_word();
            row[COUNT] += 1;
            true
        }
        None => false,
    }
}
