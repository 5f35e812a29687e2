//! Each call, made on both sides and compared: the answer, and all lent memory
//! with what lies around it.  A refusal must have changed nothing.

use derowlas::{BLOCK_WORDS, Board, State};
use independent::rest::Rest;

use crate::Lent;

/// N and P of a sheet.
pub type Size = (u32, u32);

/// Both sides gave one answer and left the same memory; a refusal left what
/// was there before.
fn same<A: PartialEq + std::fmt::Debug, T: PartialEq + std::fmt::Debug>(
    ours: (&Result<A, u32>, &Lent<T>),
    theirs: (&Result<A, u32>, &Lent<T>),
    before: &Lent<T>,
    of: &dyn std::fmt::Debug,
) {
    assert_eq!(ours.0, theirs.0, "answers differ on {of:?}");
    assert_eq!(ours.1, theirs.1, "lent memory differs on {of:?}");
    if ours.0.is_err() {
        assert_eq!(ours.1, before, "refused, and memory changed, on {of:?}");
    }
}

/// Reads a sheet into a lent table.
pub fn read(sheet: &[u8], table: &Lent<u16>) -> Result<Size, u32> {
    let (mut ours, mut theirs) = (table.clone(), table.clone());
    let answer = derowlas::read_into(sheet, ours.lend())
        .map(|read| (read.boxes, read.links))
        .map_err(|refusal| refusal.number());
    let other = independent::read(sheet, theirs.lend())
        .map(|read| (read.boxes as u32, read.links as u32))
        .map_err(|refusal| refusal.number);
    same((&answer, &ours), (&other, &theirs), table, &sheet);
    answer
}

/// Reads a sheet to a table that the call makes itself.
pub fn read_alone(sheet: &[u8]) -> Result<derowlas::Sheet, u32> {
    let answer = derowlas::read(sheet).map_err(|refusal| refusal.number());
    let other = independent::parse(sheet)
        .map(|read| derowlas::Sheet {
            boxes: read.boxes as u32,
            links: read.links as u32,
            table: read.table,
        })
        .map_err(|refusal| refusal.number);
    assert_eq!(answer, other, "answers differ on {sheet:?}");
    answer
}

/// Writes a sheet to a lent buffer.
pub fn write(boxes: u32, table: &[u16], buffer: &Lent<u8>) -> Result<usize, u32> {
    let (mut ours, mut theirs) = (buffer.clone(), buffer.clone());
    let answer = derowlas::write(boxes, table, ours.lend()).map_err(|refusal| refusal.number());
    let other = independent::write(boxes, table, theirs.lend()).map_err(|refusal| refusal.number);
    same((&answer, &ours), (&other, &theirs), buffer, &(boxes, table));
    answer
}

/// Sent, moved and under way, and whether none is.
pub type Counts = (u32, u32, u32, bool);

/// Runs a list.  `finished` is then whether none is under way, which a run does
/// not answer.
pub fn run(sheet: &[u8], list: &[u8], board: &Lent<u16>) -> Result<Counts, u32> {
    let (mut ours, mut theirs) = (board.clone(), board.clone());
    let answer = derowlas::run(sheet, list, ours.lend())
        .map(|ran| (ran.sent, ran.moved, ran.under_way, ran.under_way == 0))
        .map_err(|refusal| refusal.number());
    let other = independent::run(sheet, list, theirs.lend())
        .map(|ran| (ran.sent, ran.moved, ran.under_way, ran.under_way == 0))
        .map_err(|refusal| refusal.number);
    let of = (sheet, list);
    same((&answer, &ours), (&other, &theirs), board, &of);
    if let Ok(counts) = answer {
        let starts = list.chunks_exact(2).filter(|pair| pair[0] == pair[1]);
        let starts = starts.fold(0, |set, pair| set | 1 << pair[0]);
        by_the_sheet(sheet, starts, counts, ours.lend(), &of);
    }
    answer
}

pub fn drain(sheet: &[u8], starts: u16, budget: u32, board: &Lent<u16>) -> Result<Counts, u32> {
    let (mut ours, mut theirs) = (board.clone(), board.clone());
    let answer = derowlas::drain(sheet, starts, budget, ours.lend())
        .map(|drained| {
            let derowlas::Drained {
                sent,
                moved,
                under_way,
                finished,
            } = drained;
            (sent, moved, under_way, finished)
        })
        .map_err(|refusal| refusal.number());
    let other = independent::drain(sheet, starts, budget, theirs.lend())
        .map(|drained| {
            let counts = drained.counts;
            (
                counts.sent,
                counts.moved,
                counts.under_way,
                drained.finished,
            )
        })
        .map_err(|refusal| refusal.number);
    let of = (sheet, starts, budget);
    same((&answer, &ours), (&other, &theirs), board, &of);
    if let Ok(counts) = answer {
        assert!(counts.1 <= budget, "budget passed on {of:?}");
        by_the_sheet(sheet, starts, counts, ours.lend(), &of);
    }
    answer
}

/// What the sheet alone fixes, which no hub has to be run for: the counts add
/// up, and where none is under way they and the board are those of the tables
/// at rest, found by plain search, for the groups that were started; all other
/// boxes are asleep.
fn by_the_sheet(
    sheet: &[u8],
    starts: u16,
    (sent, moved, under_way, finished): Counts,
    board: &[u16],
    of: &dyn std::fmt::Debug,
) {
    assert_eq!(sent, moved + under_way, "counts don't add up on {of:?}");
    assert_eq!(finished, under_way == 0, "finished or not on {of:?}");
    if !finished {
        return;
    }
    let rest = Rest::new(&independent::parse(sheet).expect("an accepted sheet"));
    let boxes = rest.sheet().boxes;
    let started = rest.started(starts);
    assert_eq!(sent, rest.sent(starts), "sent at rest on {of:?}");
    let words = &board[..BLOCK_WORDS * boxes];
    for (i, block) in words.chunks_exact(BLOCK_WORDS).enumerate() {
        if started >> i & 1 == 1 {
            assert_eq!(block, rest.block(i), "box {i} at rest on {of:?}");
            named(Board::new(words), i, &rest);
        } else {
            assert!(block.iter().all(|&word| word == 0), "box {i} of {of:?}");
        }
    }
}

/// The board's names for the parts of a stopped box are those of the search.
fn named(board: Board, i: usize, rest: &Rest) {
    assert_eq!(board.boxes(), rest.sheet().boxes);
    assert_eq!(board.state(i), Some(State::Stopped));
    assert_eq!(board.hop(i).map(usize::from), Some(rest.hop(i)));
    for k in 0..16 {
        assert_eq!(board.nodes(i, k), rest.ring(i, k));
        assert_eq!(board.hops(i, k), rest.hops(i, k));
        assert_eq!(board.origins(i, k), rest.in_spt(i, k));
        assert_eq!(board.incoming(i, k), rest.takes_from(i, k));
        assert_eq!(board.not_taken(i, k), rest.not_spt(i, k));
        let known = rest.hops(i, k).is_some();
        let links = if known { rest.sheet().table[k] } else { 0 };
        assert_eq!(board.neighbors(i, k), links);
    }
}

pub fn allowance(sheet: &[u8]) -> Result<u32, u32> {
    let answer = derowlas::allowance(sheet).map_err(|refusal| refusal.number());
    let other = independent::allowance(sheet).map_err(|refusal| refusal.number);
    assert_eq!(answer, other, "answers differ on {sheet:?}");
    answer
}
