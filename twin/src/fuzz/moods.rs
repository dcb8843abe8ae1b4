//! The moods of the director: what it does how often.

use super::actions::Action::{self, *};

/// A mood: how many items are hot at most, and how often each action comes.
pub type Mood = (u64, &'static [(Action, u64)]);

pub const MIXED: Mood = (
    12,
    &[
        (Update, 8),
        (Query, 5),
        (Read, 12),
        (Write, 12),
        (Upgrade, 4),
        (Retry, 8),
        (Stray, 2),
        (CommitUpdate, 8),
        (AbortUpdate, 3),
        (QueryRead, 8),
        (QueryWrite, 1),
        (EndQuery, 4),
        (HighItem, 1),
        (UnknownNumber, 2),
        (Chain, 3),
        (Close, 4),
        (Settle, 3),
        (SettledReads, 3),
        (SettledWrites, 1),
        (SettledEnds, 2),
        (QueryMeets, 2),
        (MonitorEnds, 3),
        (Relaxed, 2),
        (RelaxedReads, 4),
        (RelaxedEnds, 3),
        (MetByWrites, 2),
        (Follows, 2),
        (Creates, 1),
    ],
);
const HOT: Mood = (
    3,
    &[
        (Update, 8),
        (Query, 2),
        (Read, 10),
        (Write, 8),
        (Upgrade, 8),
        (Retry, 12),
        (Stray, 2),
        (CommitUpdate, 7),
        (AbortUpdate, 2),
        (QueryRead, 3),
        (EndQuery, 1),
        (Settle, 1),
        (SettledReads, 1),
        (SettledEnds, 1),
        (RelaxedReads, 2),
        (RelaxedEnds, 1),
        (Close, 4),
    ],
);
const CIRCLES: Mood = (
    64,
    &[
        (RelaxedEnds, 3),
        (Update, 12),
        (OwnItem, 16),
        (Chain, 12),
        (Close, 3),
        (Retry, 3),
        (Stray, 1),
        (CommitUpdate, 1),
        (AbortUpdate, 1),
        (EndQuery, 4),
        (SettledEnds, 3),
    ],
);
const RINGS: Mood = (
    1,
    &[
        (RelaxedEnds, 3),
        (Ring, 120),
        (Retry, 2),
        (Stray, 1),
        (CommitUpdate, 1),
        (AbortUpdate, 1),
    ],
);
const ROWS: Mood = (
    3,
    &[
        (RelaxedEnds, 3),
        (Rows, 60),
        (QueryRead, 12),
        (EndQuery, 1),
        (CommitUpdate, 1),
        (AbortUpdate, 1),
    ],
);
const JOBS: Mood = (
    6,
    &[
        (RelaxedEnds, 3),
        (Hoard, 40),
        (AtLimit, 25),
        (BesideFull, 15),
        (Update, 3),
        (Query, 2),
        (Retry, 5),
        (Stray, 2),
        (Close, 2),
        (QueryRead, 3),
        (EndQuery, 3),
        (SettledEnds, 3),
    ],
);
/// Two full jobs leave nothing to others, so both have to be quick.
const TWO_JOBS: Mood = (
    6,
    &[
        (RelaxedEnds, 2),
        (Hoard, 90),
        (AtLimit, 4),
        (BesideFull, 2),
        (Retry, 2),
        (EndQuery, 2),
        (SettledEnds, 2),
    ],
);
const LINES: Mood = (
    2,
    &[
        (RelaxedEnds, 8),
        (QueueUp, 50),
        (InLine, 20),
        (Retry, 3),
        (Stray, 2),
        (Close, 4),
        (Upgrade, 2),
        (EndQuery, 10),
        (SettledEnds, 8),
    ],
);
const PASSES: Mood = (
    1,
    &[
        (RelaxedEnds, 5),
        (Pass, 60),
        (Update, 10),
        (InLine, 3),
        (CommitUpdate, 2),
        (Close, 2),
        (EndQuery, 6),
        (SettledEnds, 5),
    ],
);
const SETTLED: Mood = (
    6,
    &[
        (RelaxedEnds, 12),
        (Several, 40),
        (SettledReads, 20),
        (SettledWrites, 10),
        (SettledEnds, 8),
        (QueryMeets, 16),
        (ReadAgain, 10),
        (UpdateMeets, 6),
        (MonitorEnds, 6),
        (SettleRefused, 4),
        (Read, 6),
        (Write, 4),
        (Retry, 6),
        (Query, 4),
        (EndQuery, 6),
        (CommitUpdate, 4),
        (AbortUpdate, 1),
    ],
);
const ALL_SETTLED: Mood = (
    8,
    &[
        (RelaxedEnds, 12),
        (All, 60),
        (SettledReads, 8),
        (SettledWrites, 4),
        (ReadAgain, 2),
        (SettleRefused, 1),
        (SettledEnds, 1),
    ],
);
const SETTLED_ROWS: Mood = (
    3,
    &[
        (RelaxedEnds, 12),
        (SettledRows, 60),
        (SettledReads, 12),
        (QueryRead, 4),
        (SettledWrites, 1),
        (SettledEnds, 1),
        (EndQuery, 1),
        (QueryMeets, 2),
    ],
);
const MONITORS: Mood = (
    8,
    &[
        (RelaxedEnds, 12),
        (Monitor, 60),
        (InItsWay, 10),
        (GoesOn, 10),
        (MonitorEnds, 4),
        (Several, 20),
        (SettledReads, 4),
        (SettledEnds, 8),
        (Write, 4),
        (Retry, 2),
        (CommitUpdate, 4),
        (Query, 3),
        (QueryRead, 3),
        (QueryMeets, 3),
        (EndQuery, 4),
    ],
);
/// Nobody writes, so the clock stays.
const IDLE: Mood = (
    20,
    &[
        (RelaxedEnds, 1),
        (Monitor, 60),
        (Query, 4),
        (QueryRead, 4),
        (EndQuery, 4),
        (SettledReads, 4),
        (SettledEnds, 1),
        (AbortUpdate, 1),
    ],
);
/// Sets that grow: many reads, and updates that join in every way.
const RELAXED: Mood = (
    10,
    &[
        (Relaxed, 5),
        (RelaxedReads, 30),
        (RelaxedEnds, 4),
        (MetByWrites, 12),
        (Follows, 14),
        (Creates, 16),
        (RelaxedRefused, 2),
        (Update, 8),
        (Query, 3),
        (Read, 6),
        (Write, 8),
        (Upgrade, 4),
        (Retry, 6),
        (Stray, 1),
        (CommitUpdate, 4),
        (AbortUpdate, 2),
        (QueryRead, 3),
        (EndQuery, 4),
        (SettledEnds, 20),
    ],
);
/// Few items and many waits beside relaxed queries.
const RELAXED_HOT: Mood = (
    3,
    &[
        (Relaxed, 3),
        (RelaxedReads, 16),
        (RelaxedEnds, 3),
        (MetByWrites, 10),
        (Follows, 8),
        (Update, 8),
        (Read, 6),
        (Write, 8),
        (Upgrade, 6),
        (Retry, 12),
        (Close, 4),
        (CommitUpdate, 8),
        (AbortUpdate, 2),
        (EndQuery, 3),
        (SettledEnds, 20),
    ],
);
const RELAXED_ROWS: Mood = (
    3,
    &[
        (RelaxedRows, 60),
        (RelaxedReads, 8),
        (QueryRead, 3),
        (RelaxedEnds, 1),
        (EndQuery, 1),
        (RelaxedRefused, 1),
    ],
);
const CROWD: Mood = (
    6,
    &[
        (Relaxed, 4),
        (RelaxedEnds, 2),
        (Update, 12),
        (Query, 12),
        (Read, 4),
        (Write, 4),
        (Retry, 3),
        (QueryRead, 3),
        (CommitUpdate, 3),
        (AbortUpdate, 2),
        (EndQuery, 4),
    ],
);
const REFUSED: Mood = (
    4,
    &[
        (Relaxed, 1),
        (RelaxedRefused, 10),
        (RelaxedEnds, 2),
        (Update, 4),
        (Query, 4),
        (Write, 6),
        (Read, 4),
        (Retry, 2),
        (Stray, 12),
        (QueryWrite, 12),
        (HighItem, 12),
        (UnknownNumber, 16),
        (Settle, 2),
        (SettleRefused, 8),
        (SettledWrites, 6),
        (SettledEnds, 2),
        (CommitUpdate, 2),
        (EndQuery, 2),
    ],
);
const DRAIN: Mood = (
    8,
    &[
        (RelaxedEnds, 8),
        (Retry, 8),
        (CommitUpdate, 12),
        (AbortUpdate, 6),
        (EndQuery, 10),
        (QueryRead, 4),
        (SettledEnds, 8),
        (SettledReads, 3),
    ],
);

/// Some moods are more fruitful than others.
pub const MOODS: [Mood; 28] = [
    MIXED,
    MIXED,
    HOT,
    HOT,
    CIRCLES,
    CIRCLES,
    RINGS,
    RINGS,
    LINES,
    LINES,
    PASSES,
    ROWS,
    JOBS,
    TWO_JOBS,
    SETTLED,
    SETTLED,
    ALL_SETTLED,
    SETTLED_ROWS,
    MONITORS,
    MONITORS,
    IDLE,
    RELAXED,
    RELAXED,
    RELAXED_HOT,
    RELAXED_ROWS,
    CROWD,
    REFUSED,
    DRAIN,
];
