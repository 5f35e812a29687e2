//! Document 01, "The link sheet": reading, writing and the allowance.

use crate::refusal::Refusal;
use crate::sets::{all_below, ones};
use crate::{MOST_BOXES, MOST_LINKS};

/// The trailer's bytes: B, P, N, version.
const TRAILER: usize = 4;

/// What a sheet says: N, P and the link set of each box, zero from N on.
#[derive(Clone, Copy, Debug, PartialEq, Eq)]
pub struct Sheet {
    pub boxes: usize,
    pub links: usize,
    pub table: [u16; 16],
}

impl Sheet {
    /// E, the number of wires: each link makes two.
    pub fn wires(&self) -> usize {
        2 * self.links
    }
}

/// Reads a sheet without a lent table.  Refusals 1 to 8.
pub fn parse(sheet: &[u8]) -> Result<Sheet, Refusal> {
    let (boxes, pairs) = trailer(sheet)?;
    let table = pair_table(boxes, pairs)?;
    Ok(Sheet {
        boxes,
        links: pairs.len() / 2,
        table,
    })
}

/// Reads a sheet and fills the lent table.  Refusals 1 to 8, then 12 when the
/// table does not have 16 words.
pub fn read(sheet: &[u8], table: &mut [u16]) -> Result<Sheet, Refusal> {
    let answer = parse(sheet)?;
    if table.len() != MOST_BOXES {
        return Err(Refusal::plain(12));
    }
    table.copy_from_slice(&answer.table);
    Ok(answer)
}

/// Refusals 1 to 5.  Answers N and the part of the file that starts B bytes
/// from its end, without the trailer.
fn trailer(sheet: &[u8]) -> Result<(usize, &[u8]), Refusal> {
    let Some((before, &[back, links, boxes, version])) = sheet.split_last_chunk::<TRAILER>() else {
        return Err(Refusal::plain(1));
    };
    if version != 1 {
        return Err(Refusal::plain(2));
    }
    let boxes = usize::from(boxes);
    if boxes == 0 || boxes > MOST_BOXES {
        return Err(Refusal::plain(3));
    }
    let links = usize::from(links);
    if links > MOST_LINKS {
        return Err(Refusal::plain(4));
    }
    let back = usize::from(back);
    if back != TRAILER + 2 * links || back > sheet.len() {
        return Err(Refusal::plain(5));
    }
    Ok((boxes, &before[before.len() - 2 * links..]))
}

/// Refusals 6 to 8, pair by pair.  Answers the link set of each box.
fn pair_table(boxes: usize, pairs: &[u8]) -> Result<[u16; 16], Refusal> {
    let mut table = [0; 16];
    let mut before = None;
    for (place, pair) in pairs.chunks_exact(2).enumerate() {
        let (low, high) = (usize::from(pair[0]), usize::from(pair[1]));
        if low >= boxes || high >= boxes {
            return Err(Refusal::at(6, place));
        }
        if low >= high {
            return Err(Refusal::at(7, place));
        }
        // No pair stands before the first, and None is below every Some.
        if before >= Some((low, high)) {
            return Err(Refusal::at(8, place));
        }
        before = Some((low, high));
        table[low] |= 1 << high;
        table[high] |= 1 << low;
    }
    Ok(table)
}

/// Writes the sheet of N and a link table at the start of the lent buffer and
/// answers its length, 4 + 2P; the rest of the buffer stays.  Refusals 3, 14
/// and 15, in that order.
pub fn write(boxes: u32, table: &[u16], buffer: &mut [u8]) -> Result<usize, Refusal> {
    if boxes == 0 || boxes > MOST_BOXES as u32 {
        return Err(Refusal::plain(3));
    }
    let Some(table) = sound_table(boxes as usize, table) else {
        return Err(Refusal::plain(14));
    };
    let links = table.iter().map(|set| set.count_ones()).sum::<u32>() as usize / 2;
    let length = TRAILER + 2 * links;
    if buffer.len() < length {
        return Err(Refusal::plain(15));
    }
    let (pairs, end) = buffer[..length].split_at_mut(2 * links);
    let mut places = pairs.chunks_exact_mut(2);
    for (low, set) in table.iter().enumerate() {
        // Only the higher end of each link, so that each is written once.
        for high in ones(set & !all_below(low + 1)) {
            if let Some(place) = places.next() {
                place.copy_from_slice(&[low as u8, high as u8]);
            }
        }
    }
    end.copy_from_slice(&[length as u8, links as u8, boxes as u8, 1]);
    Ok(length)
}

/// The table, if it has 16 words, is the same both ways, links no box to
/// itself and names no box of N or above.
fn sound_table(boxes: usize, table: &[u16]) -> Option<&[u16; 16]> {
    let table: &[u16; 16] = table.try_into().ok()?;
    for (here, &set) in table.iter().enumerate() {
        // A box of N or above that has links is named back by them, so that it
        // is enough to look for such boxes among the named.
        if set & !all_below(boxes) != 0 || set >> here & 1 != 0 {
            return None;
        }
        if ones(set).any(|there| table[there] >> here & 1 == 0) {
            return None;
        }
    }
    Some(table)
}

/// The identities a full broadcast sends: E x (2N - 1).  Refusals 1 to 8.
pub fn allowance(sheet: &[u8]) -> Result<u32, Refusal> {
    let sheet = parse(sheet)?;
    Ok((sheet.wires() * (2 * sheet.boxes - 1)) as u32)
}
