//! The clauses of good tables, by name.

/// One clause of good tables.
#[derive(Clone, Copy, Debug, PartialEq, Eq)]
pub enum Clause {
    Sizes,
    LastNumber,
    Clock,
    FreeRow,
    DistinctNumbers,
    NumberGiven,
    Kind,
    AwaitedLock,
    UpdateStart,
    QueryStart,
    QueryAwaits,
    AwaitedItem,
    NothingAwaited,
    AwaitsSharedHeld,
    AwaitsExclusiveHeld,
    SharedHolders,
    ExclusiveHolder,
    BothHolders,
    WorkingValue,
    Quota,
    FullAwaitsExclusive,
    RankUnawaited,
    RankMissing,
    RankTwice,
    RankGap,
    ExchangerBehind,
    SettledAwaits,
    SettledStampZero,
    SettledStampAbove,
    SettledStampTwice,
    SettledShares,
    SettledVersion,
    ReadCount,
    WeightSum,
    UpdateReads,
    UpdateWeight,
    RelaxedStart,
    RelaxedAwaits,
    RelaxedBesideSettled,
    ItemsRead,
    LaterFor,
    LaterForOthers,
    SharerLater,
    HolderLater,
    HolderLaterRead,
    Count,
    UnusedPairs,
    UnusedHidden,
    HiddenOthers,
    HiddenNested,
    HiddenLast,
    StampsFall,
    FirstStamp,
    LastStamp,
    UnreadVersion,
    Circle,
}

/// Each clause with its name on command lines and in reports, in their order.
const NAMED: [(Clause, &str); 56] = [
    (Clause::Sizes, "sizes"),
    (Clause::LastNumber, "last-number"),
    (Clause::Clock, "clock"),
    (Clause::FreeRow, "free-row"),
    (Clause::DistinctNumbers, "distinct-numbers"),
    (Clause::NumberGiven, "number-given"),
    (Clause::Kind, "kind"),
    (Clause::AwaitedLock, "awaited-lock"),
    (Clause::UpdateStart, "update-start"),
    (Clause::QueryStart, "query-start"),
    (Clause::QueryAwaits, "query-awaits"),
    (Clause::AwaitedItem, "awaited-item"),
    (Clause::NothingAwaited, "nothing-awaited"),
    (Clause::AwaitsSharedHeld, "awaits-shared-held"),
    (Clause::AwaitsExclusiveHeld, "awaits-exclusive-held"),
    (Clause::SharedHolders, "shared-holders"),
    (Clause::ExclusiveHolder, "exclusive-holder"),
    (Clause::BothHolders, "both-holders"),
    (Clause::WorkingValue, "working-value"),
    (Clause::Quota, "quota"),
    (Clause::FullAwaitsExclusive, "full-awaits-exclusive"),
    (Clause::RankUnawaited, "rank-unawaited"),
    (Clause::RankMissing, "rank-missing"),
    (Clause::RankTwice, "rank-twice"),
    (Clause::RankGap, "rank-gap"),
    (Clause::ExchangerBehind, "exchanger-behind"),
    (Clause::SettledAwaits, "settled-awaits"),
    (Clause::SettledStampZero, "settled-stamp-zero"),
    (Clause::SettledStampAbove, "settled-stamp-above"),
    (Clause::SettledStampTwice, "settled-stamp-twice"),
    (Clause::SettledShares, "settled-shares"),
    (Clause::SettledVersion, "settled-version"),
    (Clause::ReadCount, "read-count"),
    (Clause::WeightSum, "weight-sum"),
    (Clause::UpdateReads, "update-reads"),
    (Clause::UpdateWeight, "update-weight"),
    (Clause::RelaxedStart, "relaxed-start"),
    (Clause::RelaxedAwaits, "relaxed-awaits"),
    (Clause::RelaxedBesideSettled, "relaxed-beside-settled"),
    (Clause::ItemsRead, "items-read"),
    (Clause::LaterFor, "later-for"),
    (Clause::LaterForOthers, "later-for-others"),
    (Clause::SharerLater, "sharer-later"),
    (Clause::HolderLater, "holder-later"),
    (Clause::HolderLaterRead, "holder-later-read"),
    (Clause::Count, "count"),
    (Clause::UnusedPairs, "unused-pairs"),
    (Clause::UnusedHidden, "unused-hidden"),
    (Clause::HiddenOthers, "hidden-others"),
    (Clause::HiddenNested, "hidden-nested"),
    (Clause::HiddenLast, "hidden-last"),
    (Clause::StampsFall, "stamps-fall"),
    (Clause::FirstStamp, "first-stamp"),
    (Clause::LastStamp, "last-stamp"),
    (Clause::UnreadVersion, "unread-version"),
    (Clause::Circle, "circle"),
];

impl Clause {
    pub const ALL: [Clause; NAMED.len()] = {
        let mut all = [Clause::Sizes; NAMED.len()];
        let mut at = 0;
        while at < NAMED.len() {
            all[at] = NAMED[at].0;
            at += 1;
        }
        all
    };

    pub fn name(self) -> &'static str {
        NAMED[self as usize].1
    }

    pub fn named(name: &str) -> Option<Clause> {
        Clause::ALL.into_iter().find(|clause| clause.name() == name)
    }
}

#[cfg(test)]
mod tests {
    use super::*;

    #[test]
    fn the_list_is_in_order() {
        for (at, clause) in Clause::ALL.into_iter().enumerate() {
            assert_eq!(clause as usize, at);
            assert_eq!(Clause::named(clause.name()), Some(clause));
        }
    }
}
