//! The printing program of document 01, "Sample hubs".

use std::fmt::Write;

use crate::calls::drain;
use crate::refusal::Refusal;
use crate::sets::{all_below, ones};
use crate::sheet::{Sheet, parse};
use crate::{BLOCK, MOST_BOXES};

/// The bytes of an input that are kept, its last: B is never more.
pub const KEPT: usize = 244;

/// A budget that suffices for every sheet.
const BUDGET: u32 = 4_560;

/// The text that the printing program prints for an input: starts every box,
/// drains, and gives the routes of each box; or the refusal.
pub fn routes(input: &[u8]) -> String {
    let kept = &input[input.len().saturating_sub(KEPT)..];
    match accepted(kept) {
        Ok(text) => text,
        Err(refusal) => format!("refused {} {}\n", refusal.number, refusal.word()),
    }
}

fn accepted(bytes: &[u8]) -> Result<String, Refusal> {
    let sheet = parse(bytes)?;
    let mut board = [0; BLOCK * MOST_BOXES];
    let drained = drain(bytes, all_below(sheet.boxes), BUDGET, &mut board)?;
    Ok(text(&sheet, drained.counts.moved, &board))
}

fn text(sheet: &Sheet, moved: u32, board: &[u16]) -> String {
    let (boxes, links) = (sheet.boxes, sheet.links);
    let mut text = format!("boxes {boxes} links {links} moved {moved}\n");
    for (here, block) in board.chunks_exact(BLOCK).take(boxes).enumerate() {
        let (nodes, in_spt) = (&block[2..18], &block[18..34]);
        let group = nodes.iter().fold(0, |all, ring| all | ring);
        for origin in ones(group & !(1 << here)) {
            let hops = which(nodes, origin);
            let neighbour = which(in_spt, origin);
            // Writing to a String does not fail.
            let _ = writeln!(text, "{here} {origin} {hops} {neighbour}");
        }
    }
    text
}

/// The index of the set that `origin` is in.
fn which(sets: &[u16], origin: usize) -> usize {
    sets.iter()
        .take_while(|&set| set >> origin & 1 == 0)
        .count()
}
