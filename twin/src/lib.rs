//! The twin: a second lock and version keeper, written in ordinary Rust from
//! documents 01 and 02 alone, to be held against the proved keeper.
//!
//! The eight calls work on three lent tables of 64-bit words, of any length and
//! content. They need no heap.

#![forbid(unsafe_code)]

mod answer;
mod calls;
mod clause;
mod good;
mod ids;
mod keeper;
mod line;
mod plain;
mod relaxed;
mod row;
mod settled;
mod view;

pub mod chop;
pub mod clauses;
pub mod decimal;
pub mod fuzz;
pub mod journal;
pub mod protocol;
pub mod rng;
pub mod script;
pub mod sizes;
pub mod wrong;

pub use answer::{code, Answer};
pub use calls::{
    abort, begin_query, begin_relaxed, begin_update, commit, fresh, read, settle, write,
};
pub use good::good;
pub use keeper::{Call, Keeper};
