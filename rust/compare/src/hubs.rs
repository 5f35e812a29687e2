//! Hubs to try: their sheets, whole and damaged, and their link tables.

use crate::Chance;

/// The trailer's bytes: B, P, N, version.
pub const TRAILER: usize = 4;

/// N, and the links in the order of a sheet.
#[derive(Clone, Debug)]
pub struct Hub {
    pub boxes: u8,
    pub pairs: Vec<(u8, u8)>,
}

impl Hub {
    /// The hub in which two boxes are joined where `joined` says so.
    pub fn of(boxes: u8, mut joined: impl FnMut(u8, u8) -> bool) -> Hub {
        let all = (0..boxes).flat_map(|low| (low + 1..boxes).map(move |high| (low, high)));
        let pairs = all.filter(|&(low, high)| joined(low, high)).collect();
        Hub { boxes, pairs }
    }

    /// Every box joined to every other.
    pub fn mesh(boxes: u8) -> Hub {
        Hub::of(boxes, |_, _| true)
    }

    pub fn line(boxes: u8) -> Hub {
        Hub::of(boxes, |low, high| low + 1 == high)
    }

    /// Any number of boxes; no link, every link, or anything between.
    pub fn by_chance(chance: &mut Chance) -> Hub {
        let boxes = 1 + chance.below(16) as u8;
        let eighths = chance.below(9);
        Hub::of(boxes, |_, _| chance.below(8) < eighths)
    }

    /// Any number of boxes, in the shapes that make hops many or few: a line, a
    /// ring, a star, a tree with some links more, several groups; or any links.
    /// Which box stands where is chance too.
    pub fn shaped(chance: &mut Chance) -> Hub {
        let boxes = 1 + chance.below(16) as u8;
        let shape = chance.below(8);
        // For each box its place in the shape, and the place before it in a tree.
        let mut place: Vec<usize> = (0..boxes.into()).collect();
        for last in (1..place.len()).rev() {
            place.swap(last, chance.below(last + 1));
        }
        let before: Vec<usize> = (0..place.len()).map(|at| chance.below(at.max(1))).collect();
        let groups = 2 + chance.below(3);
        let eighths = chance.below(9);
        let end = place.len() - 1;
        Hub::of(boxes, |low, high| {
            let (low, high) = (place[usize::from(low)], place[usize::from(high)]);
            let (low, high) = (low.min(high), low.max(high));
            match shape {
                0 => low + 1 == high,
                1 => low + 1 == high || (low == 0 && high == end),
                2 => low == 0,
                3 => before[high] == low || chance.one_in(16),
                4 => low % groups == high % groups && !chance.one_in(3),
                5 => low + 1 == high || chance.one_in(12),
                _ => chance.below(8) < eighths,
            }
        })
    }

    /// The words of a board to lend: mostly what the hub needs, or more; one in
    /// eight times one word less, or any length.
    pub fn words(&self, chance: &mut Chance) -> usize {
        let needed = derowlas::BLOCK_WORDS * usize::from(self.boxes);
        match chance.below(16) {
            0 => needed - 1,
            1 => chance.below(derowlas::BOARD_WORDS + 9),
            2..8 => needed + 1 + chance.below(140),
            _ => needed,
        }
    }

    pub fn sheet(&self) -> Vec<u8> {
        let mut sheet: Vec<u8> = self
            .pairs
            .iter()
            .flat_map(|&(low, high)| [low, high])
            .collect();
        let links = self.pairs.len();
        sheet.extend([(TRAILER + 2 * links) as u8, links as u8, self.boxes, 1]);
        sheet
    }

    pub fn table(&self) -> [u16; 16] {
        let mut table = [0; 16];
        for &(low, high) in &self.pairs {
            table[low as usize] |= 1 << high;
            table[high as usize] |= 1 << low;
        }
        table
    }
}

/// The sheet at the end of a file that begins, one in four times, with bytes of
/// other programs.
pub fn after_others(mut sheet: Vec<u8>, chance: &mut Chance) -> Vec<u8> {
    if chance.one_in(4) {
        let others = chance.below(57);
        sheet.splice(0..0, (0..others).map(|_| chance.byte()));
    }
    sheet
}

/// Damages a hub and its sheet in one of the ways that sheets go wrong, and
/// answers the sheet.  Some leave it a sheet that is accepted.
pub fn damage(mut hub: Hub, chance: &mut Chance) -> Vec<u8> {
    let links = hub.pairs.len();
    let (here, there) = (chance.below(links.max(1)), chance.below(links.max(1)));
    // What is wrong with the pairs, under a trailer that fits them.
    let way = chance.below(16);
    match way {
        _ if links == 0 => {}
        0 | 1 => hub.pairs.swap(here, there),
        2 => hub.pairs[here] = hub.pairs[there],
        3 => hub.pairs.insert(here, hub.pairs[there]),
        4 => hub.pairs[here].0 = chance.byte(),
        5 => hub.pairs[here].1 = chance.byte(),
        6 => hub.pairs[here] = (hub.pairs[here].1, hub.pairs[here].0),
        7 => hub.pairs[here].0 = hub.pairs[here].1,
        8 => hub.boxes = chance.below(18) as u8,
        _ => {}
    }
    let mut sheet = hub.sheet();
    let end = sheet.len();
    // What is wrong with the bytes.
    match way {
        9 => sheet[end - TRAILER] = chance.byte(),
        10 => sheet[end - 3] = chance.byte(),
        11 => sheet[end - 2] = chance.byte(),
        12 => sheet[end - 1] = chance.byte(),
        13 => sheet.truncate(chance.below(end)),
        14 => {
            sheet.drain(..chance.below(end));
        }
        15 => {
            // Any bytes of any length, with a trailer that begins well.
            sheet = (0..chance.below(301)).map(|_| chance.byte()).collect();
            let version = 1 + chance.below(8) as u8 / 7;
            let links = chance.below(125) as u8;
            let trailer = [
                4 + 2 * (links % 124),
                links,
                chance.below(18) as u8,
                version,
            ];
            for (place, byte) in sheet.iter_mut().rev().zip(trailer.into_iter().rev()) {
                *place = byte;
            }
        }
        _ => {}
    }
    sheet
}
