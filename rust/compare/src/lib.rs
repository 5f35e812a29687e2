//! The proved library held against the independent program, which was written
//! from document 01 alone: the same call on the same bytes must give the same
//! answer and leave the same words in all lent memory, and around it.
//!
//! The comparisons themselves are in `tests/`.  Here stands what they share:
//! the [`calls`] made on both sides, memory to lend with guards around it
//! ([`Lent`]), hubs and sheets to try ([`Hub`], [`damage`]), lists of deliveries
//! that do something ([`lists`]), and how often each refusal was met
//! ([`Tally`]).

#![forbid(unsafe_code)]

pub mod calls;
mod chance;
mod hubs;
mod lent;
pub mod lists;
mod tally;

pub use chance::Chance;
pub use hubs::{Hub, TRAILER, after_others, damage};
pub use lent::Lent;
pub use tally::Tally;
