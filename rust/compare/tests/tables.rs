//! Writing, on tables that are proper and tables that are not, to buffers of
//! every length; and the round trip.

use compare::{Chance, Hub, Lent, TRAILER, Tally, calls};

/// Writes to a buffer of so many bytes.
struct Tried {
    chance: Chance,
    writing: Tally,
}

impl Tried {
    fn new() -> Tried {
        Tried {
            chance: Chance::new(),
            writing: Tally::writing(),
        }
    }

    fn table(&mut self, boxes: u32, table: &[u16], bytes: usize) {
        let buffer = Lent::junk(bytes, || self.chance.byte());
        self.writing.add(&calls::write(boxes, table, &buffer));
    }
}

/// N of the hub, or one that may be wrong for it.
fn boxes(hub: &Hub, chance: &mut Chance) -> u32 {
    match chance.below(16) {
        0 => chance.below(20) as u32,
        1 => chance.number() as u32,
        2 => 16,
        _ => u32::from(hub.boxes),
    }
}

/// The hub's table, or a damaged one: one way only, a box linked to itself, of
/// 0 to 40 words, or of any words.
fn table(hub: &Hub, chance: &mut Chance) -> Vec<u16> {
    let mut table = hub.table().to_vec();
    let (here, there) = (chance.below(16), chance.below(16));
    match chance.below(12) {
        0 => table[here] ^= 1 << there,
        1 => table[here] |= 1 << here,
        2 => table.resize(chance.below(41), 0),
        3 => table = (0..chance.below(41)).map(|_| chance.word()).collect(),
        4 => {
            // A link more or less, both ways: of N or above for some.
            table[here] ^= 1 << there;
            table[there] ^= 1 << here;
        }
        _ => {}
    }
    table
}

#[test]
fn by_chance() {
    let mut tried = Tried::new();
    for _ in 0..1_000_000 {
        let hub = Hub::by_chance(&mut tried.chance);
        let boxes = boxes(&hub, &mut tried.chance);
        let table = table(&hub, &mut tried.chance);
        let bytes = if tried.chance.one_in(2) {
            tried.chance.below(261)
        } else {
            // Near the sheet's own length.
            (TRAILER + 2 * hub.pairs.len() + tried.chance.below(5)).saturating_sub(2)
        };
        tried.table(boxes, &table, bytes);
    }
    tried.writing.print("tables by chance");
    tried.writing.all_met();
}

/// Every number of links, to a buffer of every length.
#[test]
fn every_buffer() {
    let mut tried = Tried::new();
    for links in 0..=120 {
        let mut hub = Hub::mesh(16);
        // The first pairs, and then as many by chance.
        let mut table = {
            let mut first = hub.clone();
            first.pairs.truncate(links);
            first.table()
        };
        for _ in 0..2 {
            for bytes in 0..=260 {
                tried.table(16, &table, bytes);
            }
            while hub.pairs.len() > links {
                hub.pairs.remove(tried.chance.below(hub.pairs.len()));
            }
            table = hub.table();
        }
    }
    tried.writing.print("every buffer");
    assert_eq!(tried.writing.cases(), 121 * 2 * 261);
}

/// Every word of the table changed in every bit, for each N, and with the bit
/// the other way too.
#[test]
fn every_bit() {
    let mut tried = Tried::new();
    for hub in [Hub::line(3), Hub::line(16), Hub::mesh(5), Hub::mesh(16)] {
        for boxes in 0..=18 {
            for here in 0..16 {
                for there in 0..16 {
                    let mut table = hub.table();
                    table[here] ^= 1 << there;
                    tried.table(boxes, &table, 244);
                    table[there] ^= 1 << here;
                    tried.table(boxes, &table, 244);
                }
            }
        }
    }
    tried.writing.print("every bit");
}

/// Every length of the table and of the buffer, for each N.
#[test]
fn every_table_length() {
    let mut tried = Tried::new();
    let line = Hub::line(3).table();
    for boxes in 0..=18 {
        for words in 0..=40 {
            let mut table = line.to_vec();
            table.resize(words, 0);
            for bytes in 0..=12 {
                tried.table(boxes, &table, bytes);
            }
        }
    }
    tried.writing.print("every table length");
}

/// "Reading a written sheet gives the table back. Writing a read one gives its
/// last B bytes."
#[test]
fn round_trip() {
    let mut chance = Chance::new();
    for _ in 0..100_000 {
        let hub = Hub::by_chance(&mut chance);
        let sheet = hub.sheet();
        let mut file: Vec<u8> = (0..chance.below(9)).map(|_| chance.byte()).collect();
        file.extend(&sheet);
        let read = derowlas::read(&file).expect("a sheet");
        assert_eq!(read.table, hub.table());
        let mut buffer = [chance.byte(); derowlas::SHEET_BYTES];
        let length = derowlas::write(read.boxes, &read.table, &mut buffer).expect("room");
        assert_eq!(buffer[..length], sheet);
        assert_eq!(derowlas::read(&buffer[..length]), Ok(read));
    }
}
