//! The exact condition of code 10: a pass or two over the words of each table.

use std::cmp::Ordering;

use crate::ids::{Item, Number, Slot, SlotSet, Stamp};
use crate::row::{self, Starts};
use crate::sizes::*;
use crate::view::{as_row, Holders, Lock};

/// Whether the tables are good in the sense of documents 01 and 02.
pub fn good(txns: &[u64], locks: &[u64], versions: &[u64]) -> bool {
    match (txns.try_into(), locks.try_into(), versions.try_into()) {
        (Ok(txns), Ok(locks), Ok(versions)) => holds(txns, locks, versions),
        _ => false,
    }
}

/// The same for tables whose sizes are known to be exact.
pub(crate) fn holds(
    txns: &[u64; TXN_WORDS],
    locks: &[u64; LOCK_WORDS],
    versions: &[u64; VERSION_WORDS],
) -> bool {
    match Crowd::of(txns) {
        Some(crowd) => {
            locks_are_good(locks, crowd.updates, crowd.settled)
                && crowd.stamps_are_ahead(locks, versions)
                && crowd.quotas_are_kept(locks)
                && crowd.waits_are_good(locks)
                && versions_are_good(versions, txns[CLOCK], &crowd.starts, crowd.relaxed)
                && crowd.holders_have_joined(txns, locks, versions)
        }
        None => false,
    }
}

/// What the other tables are held against: who is live, and who waits.
struct Crowd {
    updates: SlotSet,
    /// Those past their writing, and their stamps.
    settled: SlotSet,
    stamps: [u64; SLOTS],
    starts: Starts,
    /// Relaxed queries, and all that updates are later for.
    relaxed: SlotSet,
    waiting: SlotSet,
    /// What each waiting slot awaits.
    awaited: [(Lock, usize); SLOTS],
    /// Its place in that item's line.
    ranks: [u64; SLOTS],
}

impl Crowd {
    /// Reads the transaction table; none if its own words are not good.
    fn of(txns: &[u64; TXN_WORDS]) -> Option<Crowd> {
        let (last, clock) = (txns[LAST_NUMBER], txns[CLOCK]);
        if last > LAST || clock > LAST {
            return None;
        }
        let mut crowd = Crowd {
            updates: SlotSet::EMPTY,
            settled: SlotSet::EMPTY,
            stamps: [0; SLOTS],
            starts: Starts::none(),
            relaxed: SlotSet::EMPTY,
            waiting: SlotSet::EMPTY,
            awaited: [(Lock::Shared, 0); SLOTS],
            ranks: [0; SLOTS],
        };
        let mut later_for = SlotSet::EMPTY;
        let mut numbers = [0; SLOTS];
        let mut live = 0;
        for (slot, row) in Slot::all().zip(txns[TXN_HEAD..].chunks_exact(TXN_ROW)) {
            let (kind, start) = (row[KIND], row[START]);
            let (lock, item, rank) = (row[AWAITED_LOCK], row[AWAITED_ITEM], row[RANK]);
            let (reads, weight) = (row[READS], row[WEIGHT]);
            let (items_read, later) = (row[ITEMS_READ], row[LATER_FOR]);
            if row[NUMBER] == 0 {
                let all = kind | start | lock | item | rank | reads | weight | items_read | later;
                if all != 0 {
                    return None;
                }
                continue;
            }
            let number = Number::new(row[NUMBER])?.word();
            if number > last || numbers[..live].contains(&number) {
                return None;
            }
            numbers[live] = number;
            live += 1;
            // Only a query counts what it reads, and no further than to the last number.
            let most = match kind {
                QUERY | RELAXED => LAST,
                _ => 0,
            };
            if reads > most || weight > most {
                return None;
            }
            // Only a relaxed query has items read, and only an update that writes joins.
            if kind != RELAXED && items_read != 0 || kind != UPDATE && later != 0 {
                return None;
            }
            later_for = later_for.and(SlotSet::of_bits(later));
            match kind {
                UPDATE if start == 0 => crowd.updates = crowd.updates.with(slot),
                QUERY if start <= clock && lock == AWAITS_NONE => {
                    crowd.starts.insert(Stamp::of(start));
                }
                RELAXED if start == 0 && lock == AWAITS_NONE => {
                    crowd.relaxed = crowd.relaxed.with(slot);
                }
                SETTLED if (1..=clock).contains(&start) && lock == AWAITS_NONE => {
                    if crowd.stamps.contains(&start) {
                        return None; // a stamp is taken once
                    }
                    crowd.stamps[slot.index()] = start;
                    crowd.settled = crowd.settled.with(slot);
                    crowd.starts.insert(Stamp::of(start));
                }
                _ => return None,
            }
            match Lock::of_awaited(lock) {
                Some(lock) => {
                    crowd.waiting = crowd.waiting.with(slot);
                    crowd.awaited[slot.index()] = (lock, Item::new(item)?.index());
                    crowd.ranks[slot.index()] = rank;
                }
                None if lock == AWAITS_NONE && item == 0 && rank == 0 => {}
                None => return None,
            }
        }
        // Those past their writing and relaxed queries never meet.
        let is_apart = crowd.settled.is_empty() || crowd.relaxed.is_empty();
        match is_apart && later_for.is_within(crowd.relaxed) {
            true => Some(crowd),
            false => None,
        }
    }

    /// Who holds an item has joined the sets in which the creator of its newest version
    /// is, and who holds it exclusively those of all who have read it.
    fn holders_have_joined(
        &self,
        txns: &[u64; TXN_WORDS],
        locks: &[u64; LOCK_WORDS],
        versions: &[u64; VERSION_WORDS],
    ) -> bool {
        let word = |slot: Slot, place: usize| txns[TXN_HEAD + slot.index() * TXN_ROW + place];
        let has_joined =
            |slot: Slot, those: SlotSet| those.is_within(SlotSet::of_bits(word(slot, LATER_FOR)));
        let rows = versions.chunks_exact(VERSION_ROW).map(as_row);
        let mut held = locks.chunks_exact(LOCK_ROW).zip(rows).enumerate();
        held.all(|(item, (lock, row))| {
            let Holders { shared, exclusive } = Holders::of(lock);
            let hidden = row::hidden_from(row, 0);
            let has_read = |slot: &Slot| word(*slot, ITEMS_READ) >> item & 1 != 0;
            let readers = || self.relaxed.into_iter().filter(has_read);
            let seen = |slot: Slot| has_joined(slot, readers().fold(SlotSet::EMPTY, SlotSet::with));
            shared.into_iter().all(|slot| has_joined(slot, hidden))
                && exclusive
                    .into_iter()
                    .all(|slot| has_joined(slot, hidden) && seen(slot))
        })
    }

    /// Nobody holds more than 32 items exclusively, and who holds 32 awaits no
    /// exclusive lock. Whom the exclusive holders' words name is known to live.
    fn quotas_are_kept(&self, locks: &[u64; LOCK_WORDS]) -> bool {
        let mut held = [0; SLOTS + 1];
        for row in locks.chunks_exact(LOCK_ROW) {
            held[row[EXCLUSIVE] as usize] += 1;
        }
        Slot::all().all(|slot| {
            let awaits_further =
                self.waiting.contains(slot) && self.awaited[slot.index()].0 == Lock::Exclusive;
            held[slot.as_holder() as usize] + usize::from(awaits_further) <= QUOTA
        })
    }

    /// What one past its writing holds has only versions below its stamp: below the
    /// first one all others are. Whom the holders' words name is known to live.
    fn stamps_are_ahead(&self, locks: &[u64; LOCK_WORDS], versions: &[u64; VERSION_WORDS]) -> bool {
        let rows = versions.chunks_exact(VERSION_ROW);
        let mut held = locks.chunks_exact(LOCK_ROW).zip(rows);
        held.all(|(lock, row)| match lock[EXCLUSIVE] {
            0 => true,
            holder => match self.stamps[holder as usize - 1] {
                0 => true, // it is still writing
                stamp => row::first_stamp(as_row(row)) < stamp,
            },
        })
    }

    /// Nobody awaits what it holds, the lines are in order, and no circle of
    /// waits exists.
    fn waits_are_good(&self, locks: &[u64; LOCK_WORDS]) -> bool {
        let mut waits_for = [SlotSet::EMPTY; SLOTS];
        for slot in self.waiting {
            let (lock, item) = self.awaited[slot.index()];
            let holders = Holders::of(&locks[item * LOCK_ROW..]);
            match (lock, holders.held_by(slot)) {
                (_, None) | (Lock::Exclusive, Some(Lock::Shared)) => {}
                _ => return false,
            }
            let ahead = match self.ahead_of(slot) {
                Some(ahead) => ahead,
                None => return false,
            };
            // Only who shares the item stands ahead of one that does.
            if holders.shared.contains(slot) && !ahead.is_within(holders.shared) {
                return false;
            }
            let earlier = ahead.into_iter().filter(|other| {
                let (wanted, _) = self.awaited[other.index()];
                lock.conflicts(wanted)
            });
            let held = holders.against(slot, lock);
            waits_for[slot.index()] = earlier.fold(held, SlotSet::with);
        }
        // Who waits for nobody that still waits is on no circle. Letting go of
        // those again and again leaves nobody exactly if there is no circle.
        let mut left = self.waiting;
        loop {
            let before = left;
            for slot in before {
                if waits_for[slot.index()].common(left).is_empty() {
                    left = left.without(slot);
                }
            }
            if left == before {
                return left.is_empty();
            }
        }
    }

    /// Those ahead of a waiting slot in its line; none if its rank is not one
    /// more than their number, or another's too.
    fn ahead_of(&self, slot: Slot) -> Option<SlotSet> {
        let (item, rank) = (self.awaited[slot.index()].1, self.ranks[slot.index()]);
        let mut ahead = SlotSet::EMPTY;
        let mut count = 0;
        for other in self.waiting.without(slot) {
            if self.awaited[other.index()].1 != item {
                continue;
            }
            match self.ranks[other.index()].cmp(&rank) {
                Ordering::Less => {
                    ahead = ahead.with(other);
                    count += 1;
                }
                Ordering::Equal => return None,
                Ordering::Greater => {}
            }
        }
        if rank == count + 1 {
            Some(ahead)
        } else {
            None
        }
    }
}

/// Holders are live updates, shared ones still writing, of one kind a row; no
/// holder, no working value.
fn locks_are_good(locks: &[u64; LOCK_WORDS], updates: SlotSet, settled: SlotSet) -> bool {
    locks.chunks_exact(LOCK_ROW).all(|row| {
        if row[SHARED] | row[EXCLUSIVE] | row[WORKING] == 0 {
            return true; // most rows: nobody holds it
        }
        let Holders { shared, exclusive } = Holders::of(row);
        let one_kind = shared.is_empty() || exclusive.is_empty();
        let backed = row[WORKING] == 0 || !exclusive.is_empty();
        let live = shared.is_within(updates) && exclusive.is_within(updates.and(settled));
        live && one_kind && backed
    })
}

fn versions_are_good(
    versions: &[u64; VERSION_WORDS],
    clock: u64,
    starts: &Starts,
    relaxed: SlotSet,
) -> bool {
    versions
        .chunks_exact(VERSION_ROW)
        .all(|words| row::is_good(as_row(words), clock, starts, relaxed))
}
