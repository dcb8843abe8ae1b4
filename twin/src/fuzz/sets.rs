//! The sets of relaxed queries in tables that are made or changed: who must be in them.

use crate::rng::Rng;
use crate::sizes::*;

fn live(row: &[u64], kind: u64) -> bool {
    row[NUMBER] != 0 && row[KIND] == kind
}

/// The slots of the live transactions of a kind.
pub fn slots(txns: &[u64], kind: u64) -> Vec<usize> {
    let rows = txns[TXN_HEAD..].chunks(TXN_ROW).enumerate();
    let alike = rows.filter(|(_, row)| live(row, kind));
    alike.map(|(slot, _)| slot).collect()
}

/// The sets that a slot must be in for what it holds of an item, shared and exclusively.
pub fn must_join(
    txns: &[u64],
    locks: &[u64],
    versions: &[u64],
    slot: usize,
    item: usize,
) -> (u64, u64) {
    let lock = &locks[item * LOCK_ROW..][..LOCK_ROW];
    let hidden = versions[item * VERSION_ROW + hidden(0)];
    let rows = txns[TXN_HEAD..].chunks(TXN_ROW).enumerate();
    let readers = rows.filter(|(_, row)| live(row, RELAXED) && row[ITEMS_READ] >> item & 1 != 0);
    let seen = readers.fold(0, |sets, (query, _)| sets | 1 << query);
    match (lock[SHARED] >> slot & 1, lock[EXCLUSIVE]) {
        (_, holder) if holder == slot as u64 + 1 => (0, hidden | seen),
        (1, _) => (hidden, 0),
        _ => (0, 0),
    }
}

/// All updates that write join the sets that they must be in.
pub fn join(txns: &mut [u64], locks: &[u64], versions: &[u64]) {
    for slot in slots(txns, UPDATE) {
        let all = (0..ITEMS).map(|item| must_join(txns, locks, versions, slot, item));
        let all = all.fold(0, |sets, (shared, exclusive)| sets | shared | exclusive);
        txns[TXN_HEAD + slot * TXN_ROW + LATER_FOR] |= all;
    }
}

/// They join others too, by chance.
pub fn join_some(rng: &mut Rng, txns: &mut [u64]) {
    let relaxed = slots(txns, RELAXED);
    let chance = rng.one_of(&[0, 0, 20, 80]);
    for slot in slots(txns, UPDATE) {
        let some = relaxed.iter().filter(|_| rng.percent(chance));
        let some = some.fold(0, |sets, query| sets | 1 << query);
        txns[TXN_HEAD + slot * TXN_ROW + LATER_FOR] |= some;
    }
}
