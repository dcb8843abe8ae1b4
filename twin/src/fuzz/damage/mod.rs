//! Damage to good tables: one word by chance, or one clause on purpose.

mod locks;
mod quota;
mod ranks;
mod reads;
mod relaxed;
mod settled;
mod txns;
mod versions;
mod written;

use crate::fuzz::line::{step_in, step_out};
use crate::fuzz::sets;
use crate::protocol::Tables;
use crate::rng::Rng;
use crate::sizes::*;

use locks::*;
use quota::*;
use ranks::*;
use reads::*;
use relaxed::*;
use settled::*;
use txns::*;
use versions::*;
use written::*;

/// Does its damage, or says that these tables give no occasion for it.
pub type Damage = fn(&mut Rng, &mut Tables) -> bool;

/// The kinds of damage by name. The first ones leave good tables good.
pub const KINDS: [(&str, Damage); 86] = [
    ("none", |_, _| true),
    ("numbers or clock nearly spent", nearly_spent),
    ("32 held exclusively", |rng, t| holds(rng, t, QUOTA)),
    ("32 held, shared awaited", |rng, t| {
        holds_and_awaits(rng, t, QUOTA, AWAITS_SHARED)
    }),
    ("31 held, exclusive awaited", |rng, t| {
        holds_and_awaits(rng, t, QUOTA - 1, AWAITS_EXCLUSIVE)
    }),
    ("a line of waiters", |rng, t| long_line(rng, t).is_some()),
    ("an exchange would close a circle", exchange_closes),
    ("one more past its writing", |rng, t| {
        made_settled(rng, t).is_some()
    }),
    ("past its writing, 32 held", |rng, t| {
        settled_holds(rng, t, QUOTA)
    }),
    ("little or nothing written", little_written),
    ("the same with the clock spent", little_written_spent),
    ("a query's counts near the limit", nearly_held),
    ("one word", one_word),
    ("some words", some_words),
    ("one size off by one", size_off_by_one),
    ("one size off by some", size_off_by_some),
    ("empty tables", empty_tables),
    ("last number above the limit", |rng, t| {
        set(&mut t.txns[LAST_NUMBER], above_limit(rng))
    }),
    ("clock above the limit", |rng, t| {
        set(&mut t.txns[CLOCK], above_limit(rng))
    }),
    ("free row not zero", free_row),
    ("equal live numbers", equal_numbers),
    ("number above the last given", number_above_last),
    ("kind 4", |rng, t| {
        on_txn(rng, t, live, KIND, |rng, _| rng.odd_word().max(4))
    }),
    ("another kind", another_kind),
    ("awaited lock 3", |rng, t| {
        on_txn(rng, t, update, AWAITED_LOCK, |rng, _| rng.odd_word().max(3))
    }),
    ("update's start not 0", |rng, t| {
        on_txn(rng, t, update, START, |rng, _| rng.odd_word().max(1))
    }),
    ("query's start above the clock", |rng, t| {
        on_txn(rng, t, query, START, above_clock)
    }),
    ("query awaits", query_awaits),
    ("awaited item 64", |rng, t| {
        on_txn(rng, t, waiting, AWAITED_ITEM, |rng, _| {
            rng.odd_word().max(64)
        })
    }),
    ("item without awaited lock", |rng, t| {
        on_txn(rng, t, not_waiting, AWAITED_ITEM, |rng, _| {
            rng.within(1, 64)
        })
    }),
    ("awaits shared what it holds", |rng, t| {
        awaits_held(rng, t, AWAITS_SHARED)
    }),
    ("awaits exclusive what it so holds", |rng, t| {
        awaits_held(rng, t, AWAITS_EXCLUSIVE)
    }),
    ("shared holder not live", |rng, t| {
        shared_holder(rng, t, free)
    }),
    ("shared holder a query", |rng, t| {
        shared_holder(rng, t, query)
    }),
    ("shared bit 32 and above", shared_high_bit),
    ("exclusive holder not live", |rng, t| {
        exclusive_holder(rng, t, free)
    }),
    ("exclusive holder a query", |rng, t| {
        exclusive_holder(rng, t, query)
    }),
    ("exclusive holder 33 and above", exclusive_high),
    ("both kinds of holders", both_holders),
    ("working value without holder", working_value),
    ("33 held exclusively and above", |rng, t| {
        let above = rng.one_of(&[1, 1, 1, 2, ITEMS - QUOTA]);
        holds(rng, t, QUOTA + above)
    }),
    ("32 held, exclusive awaited", |rng, t| {
        holds_and_awaits(rng, t, QUOTA, AWAITS_EXCLUSIVE)
    }),
    ("rank where nothing is awaited", |rng, t| {
        on_txn(rng, t, not_waiting, RANK, |rng, _| some_rank(rng))
    }),
    ("a waiter without a rank", no_rank),
    ("a rank twice", rank_twice),
    ("a gap between ranks", rank_gap),
    ("a rank far above", rank_far_above),
    ("an exchanger behind a reader", exchanger_behind),
    ("past its writing, awaits", settled_awaits),
    ("past its writing, stamp 0", stamp_zero),
    ("past its writing, stamp above the clock", stamp_above),
    ("two past their writing, one stamp", stamp_twice),
    ("past its writing, shares", settled_shares),
    ("past its writing, version not below", held_version),
    ("past its writing, last stamp above", last_above),
    ("past its writing, 33 held", |rng, t| {
        settled_holds(rng, t, QUOTA + 1)
    }),
    ("past its writing, kind 0", |rng, t| {
        on_txn(rng, t, settled, KIND, |_, _| UPDATE)
    }),
    ("read count above the limit", |rng, t| {
        sum_above(rng, t, READS)
    }),
    ("weight sum above the limit", |rng, t| {
        sum_above(rng, t, WEIGHT)
    }),
    ("an update with a read count", |rng, t| {
        update_has(rng, t, READS)
    }),
    ("an update with a weight sum", |rng, t| {
        update_has(rng, t, WEIGHT)
    }),
    ("relaxed, start not 0", |rng, t| {
        on_txn(rng, t, txns::relaxed, START, |rng, clock| {
            rng.one_of(&[1, clock.max(1), u64::MAX])
        })
    }),
    ("relaxed, awaits", relaxed_awaits),
    ("relaxed beside one past its writing", beside_settled),
    ("items read, and not relaxed", items_read),
    ("later for, and no update", later_for),
    ("later for what is not relaxed", later_for_others),
    ("shares, and has not joined", sharer_leaves),
    ("holds, and has not joined", holder_leaves),
    ("holds what was read, not joined", holder_leaves_reader),
    ("hidden behind the versions", unused_hidden),
    ("hidden from what is not relaxed", hidden_others),
    ("hidden, and a newer one not", not_nested),
    ("the last version hidden", last_hidden),
    ("count 0", |rng, t| count(rng, t, |_| 0)),
    ("count 33 and above", |rng, t| {
        count(rng, t, |rng| rng.odd_word().max(PLACES as u64 + 1))
    }),
    ("count 2^63", |rng, t| count(rng, t, |_| 1 << 63)),
    ("unused pair not zero", unused_pair),
    ("stamps equal", |rng, t| {
        stamps(rng, t, |rng, row| row_stamp(rng, row, |newer, _| newer))
    }),
    ("stamps rising", |rng, t| {
        stamps(rng, t, |rng, row| row_stamp(rng, row, |newer, _| newer + 1))
    }),
    ("first stamp above the clock", first_stamp),
    ("last stamp above a query's start", last_stamp),
    ("a version nobody reads", unread_version),
    ("a circle of two", circle_of_two),
    ("a circle along waits", circle_along_waits),
    ("a circle through an earlier waiter", circle_in_line),
];

/// How many of the kinds leave the tables good.
pub const HARMLESS: usize = 12;
/// How many come before the kinds that break one clause on purpose.
pub const UNAIMED: usize = 14;

fn set(word: &mut u64, value: u64) -> bool {
    *word = value;
    true
}

/// All updates join the sets of relaxed queries that they must be in.
fn join(t: &mut Tables) {
    sets::join(&mut t.txns, &t.locks, &t.versions);
}

/// Lets a slot await a lock on an item, and nothing else.
fn waits(t: &mut Tables, slot: usize, lock: u64, item: usize) -> bool {
    step_out(&mut t.txns, slot);
    step_in(&mut t.txns, &t.locks, slot, lock, item);
    join(t);
    true
}

fn above_limit(rng: &mut Rng) -> u64 {
    match rng.below(3) {
        0 => LAST + 1,
        1 => u64::MAX,
        _ => rng.odd_word().max(LAST + 1),
    }
}

fn nearly_spent(rng: &mut Rng, t: &mut Tables) -> bool {
    let spent = LAST - rng.below(2);
    if rng.percent(70) {
        t.txns[LAST_NUMBER] = t.txns[LAST_NUMBER].max(spent);
    }
    if rng.percent(70) {
        t.txns[CLOCK] = t.txns[CLOCK].max(spent);
    }
    true
}

fn table<'a>(rng: &mut Rng, t: &'a mut Tables) -> &'a mut Vec<u64> {
    match rng.below(3) {
        0 => &mut t.txns,
        1 => &mut t.locks,
        _ => &mut t.versions,
    }
}

fn one_word(rng: &mut Rng, t: &mut Tables) -> bool {
    let table = table(rng, t);
    let at = rng.index(table.len());
    let other = table[rng.index(table.len())];
    table[at] = match rng.below(6) {
        0 => table[at].wrapping_add(1),
        1 => table[at].wrapping_sub(1),
        2 => table[at] ^ 1 << rng.below(64),
        3 => other,
        _ => rng.odd_word(),
    };
    true
}

fn some_words(rng: &mut Rng, t: &mut Tables) -> bool {
    for _ in 0..rng.within(2, 4) {
        one_word(rng, t);
    }
    true
}

fn size_off_by_one(rng: &mut Rng, t: &mut Tables) -> bool {
    let table = table(rng, t);
    if rng.percent(50) {
        table.pop();
    } else {
        table.push(rng.one_of(&[0, 0, 1]));
    }
    true
}

/// At most eight words over: a program may have no room for more.
fn size_off_by_some(rng: &mut Rng, t: &mut Tables) -> bool {
    let table = table(rng, t);
    if rng.percent(50) {
        let left = rng.index(table.len());
        table.truncate(left);
    } else {
        for _ in 0..rng.within(2, 8) {
            table.push(rng.one_of(&[0, 0, 1]));
        }
    }
    true
}

fn empty_tables(rng: &mut Rng, t: &mut Tables) -> bool {
    table(rng, t).clear();
    if rng.percent(50) {
        table(rng, t).clear();
        table(rng, t).clear();
    }
    true
}

#[cfg(test)]
mod tests {
    use super::*;
    use crate::clauses::{broken, Clause};
    use crate::fuzz::made::made;

    /// How often, of a hundred times, a damage breaks just these clauses.
    pub fn share(damage: impl Fn(&mut Rng, &mut Tables) -> bool, expected: &[Clause]) -> usize {
        let (mut done, mut alone) = (0, 0);
        for seed in 0..4000 {
            let mut rng = Rng::new(seed);
            let mut t = Tables::from(&made(&mut rng));
            if damage(&mut rng, &mut t) {
                let list = broken(&t.txns, &t.locks, &t.versions);
                assert_eq!(t.good(), list.is_empty(), "seed {}: {:?}", seed, list);
                alone += usize::from(list == expected);
                done += 1;
            }
            if done == 500 {
                break;
            }
        }
        assert!(done > 300, "{} times", done);
        100 * alone / done
    }
}
