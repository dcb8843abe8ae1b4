//! "Tables are good when all of this holds", clause by clause and slowly.
//!
//! A second reading beside [`good`](crate::good): it tells which clauses a
//! table breaks, for tests, for the fuzzer's counts, and to check the fast test.

pub use crate::clause::Clause;
use crate::plain::{is_update, newest_at, Tables, MOST};
use crate::sizes::*;

/// The clauses that these tables break, each once. With wrong sizes the others
/// say nothing.
pub fn broken(txns: &[u64], locks: &[u64], versions: &[u64]) -> Vec<Clause> {
    if txns.len() != TXN_WORDS || locks.len() != LOCK_WORDS || versions.len() != VERSION_WORDS {
        return vec![Clause::Sizes];
    }
    let tables = Tables {
        last: txns[LAST_NUMBER],
        clock: txns[CLOCK],
        txns: txns[TXN_HEAD..].chunks(TXN_ROW).collect(),
        locks: locks.chunks(LOCK_ROW).collect(),
        versions: versions.chunks(VERSION_ROW).collect(),
    };
    Clause::ALL
        .into_iter()
        .filter(|&clause| !tables.keep(clause))
        .collect()
}

impl Tables<'_> {
    fn keep(&self, clause: Clause) -> bool {
        match clause {
            Clause::Sizes => true,
            Clause::LastNumber => self.last <= LAST,
            Clause::Clock => self.clock <= LAST,
            Clause::FreeRow => self.rows(|row| row[NUMBER] != 0 || row.iter().all(|&w| w == 0)),
            Clause::DistinctNumbers => self.live(|row| {
                let same = |other: &&&[u64]| other[NUMBER] == row[NUMBER];
                self.txns.iter().filter(same).count() == 1
            }),
            Clause::NumberGiven => self.live(|row| row[NUMBER] <= self.last),
            Clause::Kind => self.live(|row| row[KIND] <= RELAXED),
            Clause::AwaitedLock => self.live(|row| row[AWAITED_LOCK] <= AWAITS_EXCLUSIVE),
            Clause::UpdateStart => self.live(|row| row[KIND] != UPDATE || row[START] == 0),
            Clause::QueryStart => self.live(|row| row[KIND] != QUERY || row[START] <= self.clock),
            Clause::QueryAwaits => {
                self.live(|row| row[KIND] != QUERY || row[AWAITED_LOCK] == AWAITS_NONE)
            }
            Clause::AwaitedItem => self.live(|row| row[AWAITED_ITEM] < ITEMS as u64),
            Clause::NothingAwaited => {
                self.live(|row| row[AWAITED_LOCK] != AWAITS_NONE || row[AWAITED_ITEM] == 0)
            }
            Clause::AwaitsSharedHeld => (0..SLOTS).all(|slot| match self.awaited(slot) {
                Some((AWAITS_SHARED, item)) => {
                    !self.holds_shared(slot, item) && !self.holds_exclusive(slot, item)
                }
                _ => true,
            }),
            Clause::AwaitsExclusiveHeld => (0..SLOTS).all(|slot| match self.awaited(slot) {
                Some((AWAITS_EXCLUSIVE, item)) => !self.holds_exclusive(slot, item),
                _ => true,
            }),
            Clause::SharedHolders => self.locks.iter().all(|row| {
                (0..64).all(|bit| row[SHARED] >> bit & 1 == 0 || self.is_live_update(bit))
            }),
            Clause::ExclusiveHolder => self.locks.iter().all(|row| match row[EXCLUSIVE] {
                0 => true,
                holder => holder <= SLOTS as u64 && self.is_live_update(holder as usize - 1),
            }),
            Clause::BothHolders => {
                let both = |row: &&[u64]| row[SHARED] != 0 && row[EXCLUSIVE] != 0;
                !self.locks.iter().any(both)
            }
            Clause::WorkingValue => {
                let loose = |row: &&[u64]| row[EXCLUSIVE] == 0 && row[WORKING] != 0;
                !self.locks.iter().any(loose)
            }
            // "Good tables show at most 32 for each update,
            Clause::Quota => self.updates(|slot| self.exclusives(slot) <= QUOTA),
            // and one with 32 awaits no exclusive lock."
            Clause::FullAwaitsExclusive => self.updates(|slot| match self.awaited(slot) {
                Some((AWAITS_EXCLUSIVE, _)) => self.exclusives(slot) != QUOTA,
                _ => true,
            }),
            // "Its rank on the awaited item, .. 0 if it awaits nothing,
            Clause::RankUnawaited => {
                self.live(|row| row[AWAITED_LOCK] != AWAITS_NONE || row[RANK] == 0)
            }
            // from 1
            Clause::RankMissing => self.in_line(|slot, _| self.rank(slot) != 0),
            // (an order gives no two the same; of a rank 0 the last clause speaks)
            Clause::RankTwice => self.in_line(|slot, line| {
                let same = |other: &&usize| self.rank(**other) == self.rank(slot);
                self.rank(slot) == 0 || line.iter().filter(same).count() == 1
            }),
            // without gaps",
            Clause::RankGap => self.in_line(|slot, line| {
                let next = |other: &usize| self.rank(*other) == self.rank(slot) - 1;
                self.rank(slot) <= 1 || line.iter().any(next)
            }),
            // and a holder of shared "stands ahead of all who hold nothing there".
            Clause::ExchangerBehind => self.in_line(|slot, line| {
                let item = self.txns[slot][AWAITED_ITEM] as usize;
                let passed = |other: &usize| {
                    let holds =
                        self.holds_shared(*other, item) || self.holds_exclusive(*other, item);
                    !holds && self.rank(*other) < self.rank(slot)
                };
                !self.holds_shared(slot, item) || !line.iter().any(passed)
            }),
            // "Such a row holds no shared lock
            Clause::SettledShares => self.settled(|slot, _| {
                let mut items = 0..ITEMS;
                !items.any(|item| self.holds_shared(slot, item))
            }),
            // and awaits nothing;
            Clause::SettledAwaits => {
                self.settled(|slot, _| self.txns[slot][AWAITED_LOCK] == AWAITS_NONE)
            }
            // its stamp is 1
            Clause::SettledStampZero => self.settled(|_, stamp| stamp >= 1),
            // to the clock,
            Clause::SettledStampAbove => self.settled(|_, stamp| stamp <= self.clock),
            // no other such row has it,
            Clause::SettledStampTwice => self
                .settled(|slot, stamp| self.settled(|other, same| other == slot || same != stamp)),
            // and every version of an item it holds has a lower one."
            Clause::SettledVersion => self.settled(|slot, stamp| {
                let mut held = (0..ITEMS).filter(|&item| self.holds_exclusive(slot, item));
                held.all(|item| self.stamps_of(item).iter().all(|&older| older < stamp))
            }),
            // "A read count and a weight sum, both held at 4,294,967,295 once there,
            Clause::ReadCount => self.live(|row| is_update(row) || row[READS] <= LAST),
            Clause::WeightSum => self.live(|row| is_update(row) || row[WEIGHT] <= LAST),
            // and both 0 for every update."
            Clause::UpdateReads => self.live(|row| !is_update(row) || row[READS] == 0),
            Clause::UpdateWeight => self.live(|row| !is_update(row) || row[WEIGHT] == 0),
            // "Kind 3, start 0";
            Clause::RelaxedStart => self.live(|row| row[KIND] != RELAXED || row[START] == 0),
            // it never waits.
            Clause::RelaxedAwaits => {
                self.live(|row| row[KIND] != RELAXED || row[AWAITED_LOCK] == AWAITS_NONE)
            }
            // Code 13 keeps these two apart.
            Clause::RelaxedBesideSettled => {
                !self.has_any(SETTLED) || (0..SLOTS).all(|slot| !self.is_relaxed(slot))
            }
            // What the sets need is kept where it is needed, and nowhere else:
            Clause::ItemsRead => self.live(|row| row[KIND] == RELAXED || row[ITEMS_READ] == 0),
            Clause::LaterFor => self.live(|row| row[KIND] == UPDATE || row[LATER_FOR] == 0),
            // sets are those of live relaxed queries.
            Clause::LaterForOthers => self.live(|row| self.are_relaxed(row[LATER_FOR])),
            // "An update joins when .. it reads .. a version whose creator is in the set",
            Clause::SharerLater => self.holders(|slot, item| {
                !self.holds_shared(slot, item) || self.has_joined(slot, self.hidden(item, 0))
            }),
            // "or overwrites" it,
            Clause::HolderLater => self.holders(|slot, item| {
                !self.holds_exclusive(slot, item) || self.has_joined(slot, self.hidden(item, 0))
            }),
            // and "when it asks to write what the query has read", or "the query reads what
            // it holds exclusively".
            Clause::HolderLaterRead => self.holders(|slot, item| {
                let has_read = |query: &usize| self.has_read(*query, item);
                let readers = (0..SLOTS).filter(has_read);
                let seen = readers.fold(0, |seen, query| seen | 1 << query);
                !self.holds_exclusive(slot, item) || self.has_joined(slot, seen)
            }),
            Clause::Count => self
                .versions
                .iter()
                .all(|row| (1..=MOST).contains(&row[COUNT])),
            Clause::UnusedPairs => self.versions.iter().all(|row| match row[COUNT] {
                count @ 0..=MOST => {
                    let unused = &row[pair(count as usize)..pair(PLACES)];
                    unused.iter().all(|&w| w == 0)
                }
                _ => true,
            }),
            Clause::UnusedHidden => self.versions.iter().all(|row| match row[COUNT] {
                count @ 0..=MOST => row[hidden(count as usize)..].iter().all(|&w| w == 0),
                _ => true,
            }),
            Clause::HiddenOthers => {
                self.hiddens(|hiddens| hiddens.iter().all(|&from| self.are_relaxed(from)))
            }
            // Who overwrites what is hidden joins too, so all that is newer is hidden.
            Clause::HiddenNested => {
                self.hiddens(|hiddens| hiddens.windows(2).all(|pair| pair[1] & !pair[0] == 0))
            }
            // Everyone has something to read.
            Clause::HiddenLast => self.hiddens(|hiddens| hiddens[hiddens.len() - 1] == 0),
            Clause::StampsFall => {
                self.stamps(|stamps| stamps.windows(2).all(|pair| pair[0] > pair[1]))
            }
            Clause::FirstStamp => self.stamps(|stamps| stamps[0] <= self.clock),
            Clause::LastStamp => {
                let starts = self.starts();
                self.stamps(|stamps| {
                    let last = stamps[stamps.len() - 1];
                    starts.iter().all(|&start| last <= start)
                })
            }
            Clause::UnreadVersion => {
                let starts = self.starts();
                (0..ITEMS).all(|item| {
                    let stamps = self.stamps_of(item);
                    let is_read = |place: usize| {
                        let reads = |&start: &u64| newest_at(&stamps, start) == Some(stamps[place]);
                        let by_set = |query: usize| self.newest_outside(query, item) == Some(place);
                        starts.iter().any(reads)
                            || (0..SLOTS).any(|slot| self.is_relaxed(slot) && by_set(slot))
                    };
                    (1..stamps.len()).all(is_read)
                })
            }
            Clause::Circle => {
                let waits = |slot: &usize| self.awaited(*slot).is_some();
                !(0..SLOTS).filter(waits).any(|slot| self.on_circle(slot))
            }
        }
    }
}
