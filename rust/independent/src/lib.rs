//! The hub of document 01 as a plain program, written from that document
//! alone, so that another hub can be compared with it in results and in speed.
//!
//! The calls are those of document 01: [`read`] and [`write()`] for the link
//! sheet, [`allowance`], [`run`] for a list of deliveries, [`drain`] to the end
//! with a budget, and [`routes`] for the text of the printing program.  Below
//! them stands the [`Hub`], which can be watched by an [`Observer`], and beside
//! them [`rest`], which says what the sheet alone fixes without running a hub.
//!
//! Every call either answers or refuses; a [`Refusal`] leaves every lent word
//! as it was.

#![forbid(unsafe_code)]

mod calls;
mod hub;
mod message;
mod refusal;
pub mod rest;
mod routes;
mod sets;
mod sheet;
mod wires;

pub use calls::{Drained, drain, run};
pub use hub::{Hub, Observer, State};
pub use message::Message;
pub use refusal::Refusal;
pub use routes::{KEPT, routes};
pub use sets::{Ones, all_below, ones};
pub use sheet::{Sheet, allowance, parse, read, write};
pub use wires::Counts;

/// The most boxes a sheet may name (refusal 3).
pub const MOST_BOXES: usize = 16;

/// The most links a sheet may hold (refusal 4).
pub const MOST_LINKS: usize = 120;

/// The most messages that may wait on one wire and its receiving queue
/// together (refusal 13).
pub const ROOM: usize = 20;

/// The words of the board that belong to one box.
pub const BLOCK: usize = 66;

/// The most bytes a list of deliveries may have (refusal 9).
pub const LONGEST_LIST: usize = 60_000;
