//! The sizes of document 01 with its requests, and where each word stands in its
//! table.

/// Items are 0 to 63.
pub const ITEMS: usize = 64;
/// Slots for live transactions (request E5). A word has a bit for each.
pub const SLOTS: usize = 32;
/// Versions an item may have (request E5): as many as there are slots are enough.
pub const PLACES: usize = 32;
/// Items that one update may hold exclusively at most (request E2). It is the same
/// number by chance.
pub const QUOTA: usize = 32;

/// The last stamp, and the last transaction number; read count and weight sum are held
/// there.
pub const LAST: u64 = 4_294_967_295;

/// Words of the transaction table before its rows: last number given, clock.
pub const TXN_HEAD: usize = 2;
/// Words of one transaction row: number, kind, start, awaited lock, awaited item,
/// rank (request E4), read count and weight sum (request E8), items read and later for
/// (request E11).
pub const TXN_ROW: usize = 10;
/// Words of one lock row: shared holders, exclusive holder, working value.
pub const LOCK_ROW: usize = 3;
/// Words of one version row: a count, then pairs of stamp and value, then for each pair
/// the relaxed queries that it is hidden from (request E11).
pub const VERSION_ROW: usize = 1 + 2 * PLACES + PLACES;

/// Words of the transaction table: 322.
pub const TXN_WORDS: usize = TXN_HEAD + SLOTS * TXN_ROW;
/// Words of the lock table: 192.
pub const LOCK_WORDS: usize = ITEMS * LOCK_ROW;
/// Words of the version table: 6,208.
pub const VERSION_WORDS: usize = ITEMS * VERSION_ROW;

/// Place of the last number given in the transaction table.
pub const LAST_NUMBER: usize = 0;
/// Place of the clock in the transaction table.
pub const CLOCK: usize = 1;

/// Places in a transaction row.
pub const NUMBER: usize = 0;
pub const KIND: usize = 1;
pub const START: usize = 2;
pub const AWAITED_LOCK: usize = 3;
pub const AWAITED_ITEM: usize = 4;
pub const RANK: usize = 5;
pub const READS: usize = 6;
pub const WEIGHT: usize = 7;
/// Of a relaxed query: bit x for an item x that it has read.
pub const ITEMS_READ: usize = 8;
/// Of an update that is writing: bit q for a relaxed query in slot q that it is later for.
pub const LATER_FOR: usize = 9;

/// Kinds of transaction. One that is settled is an update past its writing
/// (request E6); its start is its stamp.
pub const UPDATE: u64 = 0;
pub const QUERY: u64 = 1;
pub const SETTLED: u64 = 2;
/// A relaxed query (request E11); its start is 0.
pub const RELAXED: u64 = 3;

/// Awaited locks.
pub const AWAITS_NONE: u64 = 0;
pub const AWAITS_SHARED: u64 = 1;
pub const AWAITS_EXCLUSIVE: u64 = 2;

/// Places in a lock row.
pub const SHARED: usize = 0;
pub const EXCLUSIVE: usize = 1;
pub const WORKING: usize = 2;

/// Place of the count in a version row; the pairs follow.
pub const COUNT: usize = 0;

/// Where pair `place` (from 0) begins in its row.
pub const fn pair(place: usize) -> usize {
    1 + 2 * place
}

/// Where in its row stands whom the version of a pair is hidden from.
pub const fn hidden(place: usize) -> usize {
    pair(PLACES) + place
}

const _: () = assert!(TXN_WORDS == 322 && LOCK_WORDS == 192 && VERSION_WORDS == 6208);
const _: () = assert!(SLOTS <= PLACES && SLOTS < 64);
