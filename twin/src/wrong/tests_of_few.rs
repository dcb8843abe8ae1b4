//! Tests of tables that are right as long as there are few slots and versions.

use super::sizes::FEW;
use crate::answer::{code, Answer};
use crate::clauses::{broken, Clause};
use crate::protocol::Tables;
use crate::sizes::*;

/// A wrong test.
#[derive(Clone, Copy, Debug, PartialEq, Eq)]
pub enum WrongTest {
    /// This clause is tested of the first 16 slots, or of the first 16 versions of
    /// a row.
    Forgets(Clause),
    /// Shared holders are tested in the lower half of their word.
    HalfWord,
    /// More live transactions than this are called bad.
    StrictLive(usize),
    /// So is a shared holder in a slot from this one on,
    StrictShared(usize),
    /// an exclusive holder above this,
    StrictHolder(usize),
    /// a count above this,
    StrictCount(usize),
    /// and a rank above this.
    StrictRank(usize),
}

use WrongTest::*;

impl WrongTest {
    pub const ALL: [(&'static str, WrongTest); 47] = [
        ("forgets-free-row", Forgets(Clause::FreeRow)),
        ("forgets-distinct-numbers", Forgets(Clause::DistinctNumbers)),
        ("forgets-number-given", Forgets(Clause::NumberGiven)),
        ("forgets-kind", Forgets(Clause::Kind)),
        ("forgets-awaited-lock", Forgets(Clause::AwaitedLock)),
        ("forgets-update-start", Forgets(Clause::UpdateStart)),
        ("forgets-query-start", Forgets(Clause::QueryStart)),
        ("forgets-query-awaits", Forgets(Clause::QueryAwaits)),
        ("forgets-awaited-item", Forgets(Clause::AwaitedItem)),
        ("forgets-nothing-awaited", Forgets(Clause::NothingAwaited)),
        ("forgets-awaits-shared", Forgets(Clause::AwaitsSharedHeld)),
        (
            "forgets-awaits-exclusive",
            Forgets(Clause::AwaitsExclusiveHeld),
        ),
        ("forgets-shared-holders", Forgets(Clause::SharedHolders)),
        ("forgets-exclusive-holder", Forgets(Clause::ExclusiveHolder)),
        ("forgets-quota", Forgets(Clause::Quota)),
        ("forgets-full-awaits", Forgets(Clause::FullAwaitsExclusive)),
        ("forgets-rank-unawaited", Forgets(Clause::RankUnawaited)),
        ("forgets-rank-missing", Forgets(Clause::RankMissing)),
        ("forgets-rank-twice", Forgets(Clause::RankTwice)),
        ("forgets-rank-gap", Forgets(Clause::RankGap)),
        ("forgets-exchanger", Forgets(Clause::ExchangerBehind)),
        ("forgets-settled-awaits", Forgets(Clause::SettledAwaits)),
        ("forgets-settled-zero", Forgets(Clause::SettledStampZero)),
        ("forgets-settled-above", Forgets(Clause::SettledStampAbove)),
        ("forgets-settled-twice", Forgets(Clause::SettledStampTwice)),
        ("forgets-settled-shares", Forgets(Clause::SettledShares)),
        ("forgets-settled-version", Forgets(Clause::SettledVersion)),
        ("forgets-read-count", Forgets(Clause::ReadCount)),
        ("forgets-weight-sum", Forgets(Clause::WeightSum)),
        ("forgets-update-reads", Forgets(Clause::UpdateReads)),
        ("forgets-update-weight", Forgets(Clause::UpdateWeight)),
        ("forgets-unused-pairs", Forgets(Clause::UnusedPairs)),
        ("forgets-stamps-fall", Forgets(Clause::StampsFall)),
        ("forgets-last-stamp", Forgets(Clause::LastStamp)),
        ("forgets-unread-version", Forgets(Clause::UnreadVersion)),
        ("forgets-circle", Forgets(Clause::Circle)),
        ("half-word", HalfWord),
        ("strict-live-16", StrictLive(FEW)),
        ("strict-live-31", StrictLive(SLOTS - 1)),
        ("strict-shared-16", StrictShared(FEW)),
        ("strict-shared-31", StrictShared(SLOTS - 1)),
        ("strict-holder-16", StrictHolder(FEW)),
        ("strict-holder-31", StrictHolder(SLOTS - 1)),
        ("strict-count-16", StrictCount(FEW)),
        ("strict-count-31", StrictCount(PLACES - 1)),
        ("strict-rank-16", StrictRank(FEW)),
        ("strict-rank-31", StrictRank(SLOTS - 1)),
    ];

    /// What it says of tables to which the right test says this.
    pub(super) fn call(self, before: &Tables, right: Answer) -> Option<Answer> {
        if right.code == code::BAD_TABLES {
            let clause = match self {
                Forgets(clause) => clause,
                HalfWord => Clause::SharedHolders,
                _ => return None,
            };
            let is_seen = |t: &Tables| broken(&t.txns, &t.locks, &t.versions).contains(&clause);
            let alone = broken(&before.txns, &before.locks, &before.versions) == [clause];
            return match alone && !is_seen(&self.what_is_seen(before)) {
                true => Some(Answer::granted()),
                false => None,
            };
        }
        match self.refuses(before) {
            true => Some(Answer::bare(code::BAD_TABLES)),
            false => None,
        }
    }

    /// The tables without what is not tested.
    fn what_is_seen(self, tables: &Tables) -> Tables {
        let mut seen = tables.clone();
        match self {
            HalfWord => {
                for row in seen.locks.chunks_mut(LOCK_ROW) {
                    row[SHARED] &= (1 << 32) - 1;
                }
            }
            Forgets(Clause::UnusedPairs | Clause::StampsFall | Clause::UnreadVersion) => {
                for row in seen.versions.chunks_mut(VERSION_ROW) {
                    row[COUNT] = row[COUNT].min(FEW as u64);
                    row[1 + 2 * FEW..].fill(0);
                }
            }
            _ => {
                seen.txns[TXN_HEAD + FEW * TXN_ROW..].fill(0);
                for row in seen.locks.chunks_mut(LOCK_ROW) {
                    row[SHARED] &= (1 << FEW) - 1;
                    if row[EXCLUSIVE] > FEW as u64 && row[EXCLUSIVE] <= SLOTS as u64 {
                        row[EXCLUSIVE..].fill(0);
                    }
                }
            }
        }
        seen
    }

    /// Whether good tables are called bad.
    fn refuses(self, good: &Tables) -> bool {
        let mut txns = good.txns[TXN_HEAD..].chunks(TXN_ROW);
        let mut locks = good.locks.chunks(LOCK_ROW);
        let mut versions = good.versions.chunks(VERSION_ROW);
        match self {
            Forgets(_) | HalfWord => false,
            StrictLive(most) => txns.filter(|row| row[NUMBER] != 0).count() > most,
            StrictShared(slot) => locks.any(|row| row[SHARED] >> slot != 0),
            StrictHolder(most) => locks.any(|row| row[EXCLUSIVE] > most as u64),
            StrictCount(most) => versions.any(|row| row[COUNT] > most as u64),
            StrictRank(most) => txns.any(|row| row[RANK] > most as u64),
        }
    }
}
