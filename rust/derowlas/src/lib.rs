//! The proved hub of document 01 for Rust programs.
//!
//! A hub has N boxes, 0 to N - 1, and links between them.  A set of boxes is a
//! 16-bit number in which box k has the value 2^k.  A link sheet is a file that
//! says which boxes are joined; [`read`] makes a table of it, [`write()`] a
//! sheet of a table, and [`allowance`] says what a full broadcast sends.
//!
//! Boxes that are started tell each other who links to whom.  [`drain`] starts
//! boxes and lets that go on to the end; [`run`] delivers the messages in the
//! order of a list.  Both write a board, on which each box has what it found
//! out, and [`Board`] reads it.
//!
//! ```
//! // The line 0-1-2: the pairs (0, 1) and (1, 2), then B, P, N, version.
//! let sheet = derowlas::read(&[0, 1, 1, 2, 8, 2, 3, 1])?;
//! assert_eq!((sheet.boxes, sheet.links), (3, 2));
//! assert_eq!(sheet.table[1], 0b101);
//! # Ok::<(), derowlas::Refusal>(())
//! ```
//!
//! Every call answers for every input, or refuses with a [`Refusal`], and a
//! refusal has changed nothing.  The calls are those of `libderowlas_c.a`,
//! which `bin/archive` writes; they are proved to answer as
//! `crates/rules/specs/Calls.antt` defines.  They keep no state, and any
//! thread may call them that has 64 KiB of stack left.

#![deny(missing_docs, unsafe_code)]

mod board;
#[allow(unsafe_code)]
mod c;
mod refusal;

pub use board::{Board, State};
pub use refusal::Refusal;

/// The most boxes of a hub.
///
/// ```
/// let mut sheet = [4, 0, derowlas::BOXES as u8, 1];
/// assert_eq!(derowlas::read(&sheet).map(|read| read.boxes), Ok(16));
/// sheet[2] += 1;
/// assert_eq!(derowlas::read(&sheet), Err(derowlas::Refusal::Boxes));
/// ```
pub const BOXES: usize = 16;

/// The most links of a hub: one between any two boxes.
///
/// ```
/// assert_eq!(derowlas::LINKS, derowlas::BOXES * (derowlas::BOXES - 1) / 2);
/// ```
pub const LINKS: usize = 120;

/// The words of a link table: the link set of each box.
///
/// ```
/// let mut table = [0; derowlas::TABLE_WORDS];
/// assert!(derowlas::read_into(&[4, 0, 1, 1], &mut table).is_ok());
/// ```
pub const TABLE_WORDS: usize = 16;

/// The bytes of the longest sheet.  A buffer of this size is never too short.
///
/// ```
/// // Every box linked to every other.
/// let table: Vec<u16> = (0..16).map(|k| 0xffff ^ (1 << k)).collect();
/// let mut buffer = [0; derowlas::SHEET_BYTES];
/// assert_eq!(derowlas::write(16, &table, &mut buffer), Ok(derowlas::SHEET_BYTES));
/// ```
pub const SHEET_BYTES: usize = 4 + 2 * LINKS;

/// The words that a box has on a board.
///
/// ```
/// // The line 0-1-2 needs three blocks, and no word less.
/// let line = [0, 1, 1, 2, 8, 2, 3, 1];
/// let mut board = [0; 3 * derowlas::BLOCK_WORDS];
/// assert!(derowlas::run(&line, &[], &mut board).is_ok());
/// assert_eq!(derowlas::run(&line, &[], &mut board[1..]), Err(derowlas::Refusal::Room));
/// ```
pub const BLOCK_WORDS: usize = 66;

/// The words of a board that serves every hub.  A hub of N boxes fills the
/// first [`BLOCK_WORDS`] * N of it, which are what [`Board::new`] is to be lent.
///
/// ```
/// let mut board = [0; derowlas::BOARD_WORDS];
/// assert!(derowlas::drain(&[4, 0, 16, 1], 0xffff, 0, &mut board).is_ok());
/// ```
pub const BOARD_WORDS: usize = BOXES * BLOCK_WORDS;

/// The bytes of the longest list.
///
/// ```
/// use derowlas::{LIST_BYTES, Refusal, run};
///
/// let list = vec![0; LIST_BYTES + 2]; // starts box 0, again and again
/// let mut board = [0; derowlas::BLOCK_WORDS];
/// assert!(run(&[4, 0, 1, 1], &list[2..], &mut board).is_ok());
/// assert_eq!(run(&[4, 0, 1, 1], &list, &mut board), Err(Refusal::ListLength));
/// ```
pub const LIST_BYTES: usize = 60_000;

/// A budget with which the drain of every sheet finishes.
///
/// ```
/// // The most that 16 boxes could need: E(N + 2) + N(N - 1), for E wires.
/// let (wires, boxes) = (2 * derowlas::LINKS, derowlas::BOXES);
/// assert_eq!(derowlas::BUDGET as usize, wires * (boxes + 2) + boxes * (boxes - 1));
/// ```
pub const BUDGET: u32 = 4_560;

/// What a sheet says.
///
/// ```
/// // The link 0-1.
/// let sheet = derowlas::read(&[0, 1, 6, 1, 2, 1])?;
/// let mut table = [0; 16];
/// table[0] = 0b10;
/// table[1] = 0b01;
/// assert_eq!(sheet, derowlas::Sheet { boxes: 2, links: 1, table });
/// # Ok::<(), derowlas::Refusal>(())
/// ```
#[derive(Clone, Copy, Debug, PartialEq, Eq)]
pub struct Sheet {
    /// N, 1 to 16.
    pub boxes: u32,
    /// P, 0 to 120.
    pub links: u32,
    /// The link set of each box, 0 from N on.
    pub table: [u16; TABLE_WORDS],
}

/// What [`read_into`] answers beside the table.
///
/// ```
/// let mut table = [0; 16];
/// let reading = derowlas::read_into(&[0, 1, 6, 1, 2, 1], &mut table)?;
/// assert_eq!(reading, derowlas::Reading { boxes: 2, links: 1 });
/// # Ok::<(), derowlas::Refusal>(())
/// ```
#[derive(Clone, Copy, Debug, PartialEq, Eq)]
pub struct Reading {
    /// N, 1 to 16.
    pub boxes: u32,
    /// P, 0 to 120.
    pub links: u32,
}

/// 0 is acceptance; any other number is a refusal.
fn accepted(number: u32) -> Result<(), Refusal> {
    if number == 0 {
        return Ok(());
    }
    match Refusal::from_number(number) {
        Some(refusal) => Err(refusal),
        None => unreachable!("the library refused with {number}, which document 01 does not have"),
    }
}

/// Reads a link sheet.  Bytes before its pairs have no effect.
///
/// Refusals: 1 to 8.
///
/// ```
/// let sheet = derowlas::read(b"any bytes before\x00\x01\x06\x01\x02\x01")?;
/// assert_eq!((sheet.boxes, sheet.links), (2, 1));
/// assert_eq!(derowlas::read(b"no"), Err(derowlas::Refusal::ShortSheet));
/// # Ok::<(), derowlas::Refusal>(())
/// ```
pub fn read(sheet: &[u8]) -> Result<Sheet, Refusal> {
    let mut table = [0; TABLE_WORDS];
    let Reading { boxes, links } = read_into(sheet, &mut table)?;
    Ok(Sheet {
        boxes,
        links,
        table,
    })
}

/// Reads a link sheet into a lent table, which must have 16 words.  A refusal
/// leaves the table as it was.
///
/// Refusals: 1 to 8, then 12.
///
/// ```
/// use derowlas::{Refusal, read_into};
///
/// let sheet = [0, 1, 6, 1, 2, 1];
/// let mut table = [7; 17];
/// assert_eq!(read_into(&sheet, &mut table), Err(Refusal::Room));
/// assert_eq!(table, [7; 17]);
///
/// read_into(&sheet, &mut table[..16])?;
/// assert_eq!(table[..3], [0b10, 0b01, 0]);
/// assert_eq!(table[16], 7);
/// # Ok::<(), Refusal>(())
/// ```
pub fn read_into(sheet: &[u8], table: &mut [u16]) -> Result<Reading, Refusal> {
    let c::Reading {
        number,
        boxes,
        links,
    } = c::read(sheet, table);
    accepted(number)?;
    Ok(Reading { boxes, links })
}

/// Writes the sheet of N boxes and a link table of 16 words to the start of a
/// lent buffer, and answers its length, 4 + 2P.  The rest of the buffer stays;
/// a refusal leaves all of it as it was.
///
/// Refusals: 3, 14, 15.
///
/// ```
/// let mut table = [0; 16];
/// table[0] = 0b10;
/// table[1] = 0b01;
/// let mut buffer = [9; 8];
/// assert_eq!(derowlas::write(2, &table, &mut buffer), Ok(6));
/// assert_eq!(buffer, [0, 1, 6, 1, 2, 1, 9, 9]);
///
/// table[1] = 0; // the link is there one way only
/// assert_eq!(derowlas::write(2, &table, &mut buffer), Err(derowlas::Refusal::Table));
/// ```
pub fn write(boxes: u32, table: &[u16], buffer: &mut [u8]) -> Result<usize, Refusal> {
    let c::Written { number, length } = c::write(boxes, table, buffer);
    accepted(number)?;
    Ok(length as usize)
}

/// The allowance, which planners use for line charges: the identities that a
/// full broadcast sends, E x (2N - 1) for E wires, two a link.
///
/// Refusals: 1 to 8.
///
/// ```
/// // The line 0-1-2 has 4 wires.
/// assert_eq!(derowlas::allowance(&[0, 1, 1, 2, 8, 2, 3, 1]), Ok(20));
/// // No link.
/// assert_eq!(derowlas::allowance(&[4, 0, 16, 1]), Ok(0));
/// ```
pub fn allowance(sheet: &[u8]) -> Result<u32, Refusal> {
    let c::Allowed { number, identities } = c::allowance(sheet);
    accepted(number)?;
    Ok(identities)
}

/// What [`run`] answers beside the board.  `sent` is always `moved` and
/// `under_way` together.
///
/// ```
/// // The line 0-1-2: box 0 is started, and its message delivered to box 1.
/// let mut board = [0; 3 * derowlas::BLOCK_WORDS];
/// let ran = derowlas::run(&[0, 1, 1, 2, 8, 2, 3, 1], &[0, 0, 0, 1], &mut board)?;
/// assert_eq!(ran, derowlas::Ran { sent: 3, moved: 1, under_way: 2 });
/// # Ok::<(), derowlas::Refusal>(())
/// ```
#[derive(Clone, Copy, Debug, PartialEq, Eq)]
pub struct Ran {
    /// The messages that boxes sent.
    pub sent: u32,
    /// The messages that were taken off wires.
    pub moved: u32,
    /// The messages that are still on wires.
    pub under_way: u32,
}

/// What [`drain`] answers beside the board.
///
/// ```
/// // The line 0-1-2, in which box 0 alone is started and nothing delivered.
/// let mut board = [0; 3 * derowlas::BLOCK_WORDS];
/// let drained = derowlas::drain(&[0, 1, 1, 2, 8, 2, 3, 1], 0b001, 0, &mut board)?;
/// let told = derowlas::Drained { sent: 1, moved: 0, under_way: 1, finished: false };
/// assert_eq!(drained, told);
/// # Ok::<(), derowlas::Refusal>(())
/// ```
#[derive(Clone, Copy, Debug, PartialEq, Eq)]
pub struct Drained {
    /// The messages that boxes sent.
    pub sent: u32,
    /// The messages that were taken off wires, at most the budget.
    pub moved: u32,
    /// The messages that are still on wires.
    pub under_way: u32,
    /// Whether none is under way.
    pub finished: bool,
}

/// Runs a list of deliveries, from a hub in which every box is asleep, and
/// writes the board.
///
/// The list is pairs of bytes.  (a, a) starts box a, if it is asleep; (a, b)
/// delivers the oldest message on the wire from a to b, if there is one.  The
/// board needs [`BLOCK_WORDS`] words for each box; words past those stay, and
/// a refusal leaves all of them as they were.
///
/// Refusals: 1 to 8; 9; then pair by pair 10 and 11; 12; 13.
///
/// ```
/// use derowlas::{BLOCK_WORDS, Board, Refusal, run};
///
/// let line = [0, 1, 1, 2, 8, 2, 3, 1]; // 0-1-2
/// let mut board = [0; 3 * BLOCK_WORDS];
/// let ran = run(&line, &[0, 0, 0, 1, 1, 0], &mut board)?;
/// assert_eq!((ran.sent, ran.moved, ran.under_way), (4, 2, 2));
/// assert_eq!(Board::new(&board).hop(0), Some(1));
///
/// // No link joins 0 and 2, and the list is checked before it is begun.
/// let before = board;
/// assert_eq!(run(&line, &[0, 0, 0, 2], &mut board), Err(Refusal::ListLink));
/// assert_eq!(board, before);
/// # Ok::<(), Refusal>(())
/// ```
pub fn run(sheet: &[u8], list: &[u8], board: &mut [u16]) -> Result<Ran, Refusal> {
    let c::Ran {
        number,
        sent,
        moved,
        under_way,
    } = c::run(sheet, list, board);
    accepted(number)?;
    Ok(Ran {
        sent,
        moved,
        under_way,
    })
}

/// Starts a set of boxes, ascending, then delivers one message at a time until
/// none is under way or as many as the budget were moved, and writes the board.
///
/// The message is always the oldest on the first wire that holds one: senders
/// ascending, then receivers.  Budget 0 only starts, and [`BUDGET`] finishes
/// for every sheet.  The board is written as by [`run`].
///
/// Refusals: 1 to 8; 10; 12; 13.
///
/// ```
/// use derowlas::{BLOCK_WORDS, BUDGET, Refusal, drain};
///
/// let ring = [0, 1, 0, 2, 1, 3, 2, 3, 12, 4, 4, 1];
/// let mut board = [0; 4 * BLOCK_WORDS];
/// let drained = drain(&ring, 0b1111, BUDGET, &mut board)?;
/// assert_eq!((drained.sent, drained.finished), (52, true));
///
/// // There is no box 4 to start.
/// assert_eq!(drain(&ring, 0b10000, BUDGET, &mut board), Err(Refusal::ListBox));
/// # Ok::<(), Refusal>(())
/// ```
pub fn drain(
    sheet: &[u8],
    starts: u16,
    budget: u32,
    board: &mut [u16],
) -> Result<Drained, Refusal> {
    let c::Drained {
        number,
        sent,
        moved,
        under_way,
        finished,
    } = c::drain(sheet, starts, budget, board);
    accepted(number)?;
    Ok(Drained {
        sent,
        moved,
        under_way,
        finished,
    })
}

/// The Rust examples of README.md, run as the examples above are.
#[cfg(doctest)]
#[doc = include_str!("../../../README.md")]
struct Readme;
