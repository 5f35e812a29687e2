//! Document 01, "Lists and the drain".

use crate::hub::Hub;
use crate::refusal::Refusal;
use crate::sets::{all_below, ones};
use crate::sheet::{Sheet, parse};
use crate::wires::Counts;
use crate::{BLOCK, LONGEST_LIST, ROOM};

/// The answer of a drain.
#[derive(Clone, Copy, Debug, PartialEq, Eq)]
pub struct Drained {
    pub counts: Counts,
    /// Whether none is under way.
    pub finished: bool,
}

/// Runs a list of deliveries and writes the board.  Refusals 1 to 13; the
/// whole list is checked before its first pair is done.
pub fn run(sheet: &[u8], list: &[u8], board: &mut [u16]) -> Result<Counts, Refusal> {
    run_within::<ROOM>(sheet, list, board)
}

/// Starts the boxes of a set, ascending, and then delivers from the first wire
/// that holds a message until none is under way or `budget` messages have
/// moved; writes the board.  Refusals 1 to 8, 10, 12 and 13.
pub fn drain(
    sheet: &[u8],
    starts: u16,
    budget: u32,
    board: &mut [u16],
) -> Result<Drained, Refusal> {
    drain_within::<ROOM>(sheet, starts, budget, board)
}

/// [`run`] with another room than document 01's.
fn run_within<const LIMIT: usize>(
    sheet: &[u8],
    list: &[u8],
    board: &mut [u16],
) -> Result<Counts, Refusal> {
    let sheet = parse(sheet)?;
    check_list(&sheet, list)?;
    check_board(&sheet, board)?;
    let mut hub = Hub::<(), LIMIT>::with_limit(&sheet, ());
    for pair in list.chunks_exact(2) {
        let (a, b) = (usize::from(pair[0]), usize::from(pair[1]));
        if a == b {
            hub.start(a)?;
        } else {
            hub.deliver(a, b)?;
        }
    }
    hub.write_board(board);
    Ok(hub.counts())
}

/// [`drain`] with another room than document 01's.
fn drain_within<const LIMIT: usize>(
    sheet: &[u8],
    starts: u16,
    budget: u32,
    board: &mut [u16],
) -> Result<Drained, Refusal> {
    let sheet = parse(sheet)?;
    if starts & !all_below(sheet.boxes) != 0 {
        return Err(Refusal::plain(10));
    }
    check_board(&sheet, board)?;
    let mut hub = Hub::<(), LIMIT>::with_limit(&sheet, ());
    for b in ones(starts) {
        hub.start(b)?;
    }
    while hub.moved() < budget {
        let Some((a, b)) = hub.first_wire() else {
            break;
        };
        hub.deliver(a, b)?;
    }
    hub.write_board(board);
    let counts = hub.counts();
    Ok(Drained {
        counts,
        finished: counts.under_way == 0,
    })
}

/// Refusal 9, then 10 and 11 pair by pair.
fn check_list(sheet: &Sheet, list: &[u8]) -> Result<(), Refusal> {
    if !list.len().is_multiple_of(2) || list.len() > LONGEST_LIST {
        return Err(Refusal::plain(9));
    }
    for (place, pair) in list.chunks_exact(2).enumerate() {
        let (a, b) = (usize::from(pair[0]), usize::from(pair[1]));
        if a >= sheet.boxes || b >= sheet.boxes {
            return Err(Refusal::at(10, place));
        }
        if a != b && sheet.table[a] >> b & 1 == 0 {
            return Err(Refusal::at(11, place));
        }
    }
    Ok(())
}

/// Refusal 12.
fn check_board(sheet: &Sheet, board: &[u16]) -> Result<(), Refusal> {
    if board.len() < BLOCK * sheet.boxes {
        return Err(Refusal::plain(12));
    }
    Ok(())
}

#[cfg(test)]
mod tests {
    use super::*;

    /// The line 0-1-2.
    const LINE: [u8; 8] = [0, 1, 1, 2, 8, 2, 3, 1];

    /// Refusal 13 in the middle of a run touches no word of the board.  With
    /// room for one message, box 1 has no place for a second one on its wire
    /// to 0, which still holds the first when round 0 comes.
    #[test]
    fn refused_in_the_middle() {
        let list = [0, 0, 1, 1, 2, 2, 0, 1, 2, 1];
        let mut board = [0xa5a5; 3 * BLOCK];
        let refused = run_within::<1>(&LINE, &list, &mut board);
        assert_eq!(refused, Err(Refusal::plain(13)));
        assert!(board.iter().all(|&word| word == 0xa5a5));
        // The pairs before the last are done without refusal, and with room
        // for two messages so is the last.
        let counts = run_within::<1>(&LINE, &list[..8], &mut board);
        assert_eq!(counts.map(|c| c.moved), Ok(1));
        assert!(run_within::<2>(&LINE, &list, &mut board).is_ok());
    }

    #[test]
    fn drain_refused_in_the_middle() {
        let mut board = [0xa5a5; 3 * BLOCK];
        let refused = drain_within::<1>(&LINE, 7, 4_560, &mut board);
        assert_eq!(refused, Err(Refusal::plain(13)));
        assert!(board.iter().all(|&word| word == 0xa5a5));
        let done = drain_within::<1>(&LINE, 7, 0, &mut board);
        assert_eq!(done.map(|d| d.counts.sent), Ok(4));
    }
}
