//! What the director may do next.

/// Something to do next.
#[derive(Clone, Copy, Debug)]
pub enum Action {
    Update,
    Query,
    /// An update that waits for nothing reads or writes.
    Read,
    Write,
    /// It writes what it holds shared.
    Upgrade,
    /// A waiting update makes its awaited call again.
    Retry,
    /// It makes another call.
    Stray,
    CommitUpdate,
    AbortUpdate,
    QueryRead,
    QueryWrite,
    EndQuery,
    HighItem,
    UnknownNumber,
    /// An update without locks takes an item that nobody holds.
    OwnItem,
    /// An update begins to wait, so that chains of waits grow.
    Chain,
    /// The end of a chain asks for what a waiting update holds.
    Close,
    /// The next step towards a circle of all slots.
    Ring,
    /// The next step towards a full row with many queries.
    Rows,
    /// The next step towards updates that hold as many items as they may.
    Hoard,
    /// An update that holds so many, or one less, does something.
    AtLimit,
    /// Another one does something beside it.
    BesideFull,
    /// The next step towards a long line of waiters.
    QueueUp,
    /// One in a line, or one that it waits for, does something.
    InLine,
    /// The next step towards an exchanger that passes waiters.
    Pass,
    /// An update ends its writing.
    Settle,
    /// One that may not asks to.
    SettleRefused,
    /// One past its writing reads, writes or ends.
    SettledReads,
    SettledWrites,
    SettledEnds,
    /// A query, or an update, asks for what one past its writing holds.
    QueryMeets,
    UpdateMeets,
    /// A query, or one past its writing, reads what it read not long ago.
    ReadAgain,
    /// The next step towards several past their writing, with items of their own.
    Several,
    /// The next step towards as many as there are slots.
    All,
    /// The next step towards rows with many versions that such readers read.
    SettledRows,
    /// An update begins, reads or commits, and never writes.
    Monitor,
    /// One that wrote nothing commits.
    MonitorEnds,
    /// A writer asks for what one only reads, and asks again when that is gone.
    InItsWay,
    GoesOn,
    /// A relaxed query begins, reads or ends.
    Relaxed,
    RelaxedReads,
    RelaxedEnds,
    /// An update writes what one has read.
    MetByWrites,
    /// An update reads or overwrites what one in a set has written.
    Follows,
    /// One in a set writes and commits.
    Creates,
    /// Calls that are refused beside relaxed queries, or to them.
    RelaxedRefused,
    /// The next step towards rows with many versions that relaxed queries read.
    RelaxedRows,
}
