//! Reading and the allowance, on sheets whole and damaged.

use compare::{Chance, Hub, Lent, TRAILER, Tally, after_others, calls, damage};

/// Reads the sheet, with and without a lent table, and asks for its allowance.
struct Tried {
    chance: Chance,
    reading: Tally,
    allowance: Tally,
}

impl Tried {
    fn new() -> Tried {
        Tried {
            chance: Chance::new(),
            reading: Tally::reading(),
            allowance: Tally::allowance(),
        }
    }

    fn sheet(&mut self, sheet: &[u8], words: usize) {
        let table = Lent::junk(words, || self.chance.word());
        self.reading.add(&calls::read(sheet, &table));
        self.allowance.add(&calls::allowance(sheet));
        let _ = calls::read_alone(sheet);
    }

    fn print(&self, test: &str) {
        self.reading.print(test);
        self.allowance.print(test);
    }
}

/// Three cases in four have a table of 16 words.
fn words(chance: &mut Chance) -> usize {
    if chance.one_in(4) {
        chance.below(41)
    } else {
        16
    }
}

#[test]
fn by_chance() {
    let mut tried = Tried::new();
    for case in 0..600_000 {
        let hub = Hub::by_chance(&mut tried.chance);
        let sheet = if case % 4 == 0 {
            hub.sheet()
        } else {
            damage(hub, &mut tried.chance)
        };
        let sheet = after_others(sheet, &mut tried.chance);
        let words = words(&mut tried.chance);
        tried.sheet(&sheet, words);
    }
    tried.print("sheets by chance");
    tried.reading.all_met();
    tried.allowance.all_met();
}

/// Every value of every two bytes of the trailer at once, and so of each alone.
#[test]
fn every_trailer() {
    let mut tried = Tried::new();
    let mut longest = vec![9; 8];
    longest.extend(Hub::mesh(16).sheet());
    for whole in [Hub::line(3).sheet(), longest] {
        let from = whole.len() - TRAILER;
        for one in 0..TRAILER {
            for other in one + 1..TRAILER {
                let mut sheet = whole.clone();
                for value in 0..=u16::MAX {
                    [sheet[from + one], sheet[from + other]] = value.to_le_bytes();
                    tried.sheet(&sheet, 16);
                }
            }
        }
    }
    tried.print("every trailer");
    assert_eq!(tried.reading.cases(), 2 * 6 * 65_536);
}

/// Every beginning and every end, of up to 300 bytes, of a file with the sheet
/// of each number of links; and every length of the table.
#[test]
fn every_length() {
    let mut tried = Tried::new();
    for links in 0..=120 {
        let mut hub = Hub::mesh(16);
        hub.pairs.truncate(links);
        let sheet = hub.sheet();
        let mut file: Vec<u8> = (sheet.len()..300).map(|_| tried.chance.byte()).collect();
        file.extend(&sheet);
        for length in 0..=300 {
            tried.sheet(&file[300 - length..], 16);
            tried.sheet(&file[..length], 16);
        }
        for words in 0..=40 {
            tried.sheet(&file, words);
            tried.sheet(&file[1..3], words);
        }
    }
    tried.print("every length");
}

/// Every pair of bytes in the place of the last pair, after no other and after
/// one, for each number of boxes.
#[test]
fn every_pair() {
    let mut tried = Tried::new();
    for boxes in 1..=16 {
        for before in [&[][..], &[(0, 1)], &[(1, 3)]] {
            let mut hub = Hub {
                boxes,
                pairs: before.to_vec(),
            };
            hub.pairs.push((0, 0));
            for low in (0..20).chain([127, 255]) {
                for high in (0..20).chain([127, 255]) {
                    *hub.pairs.last_mut().expect("a pair") = (low, high);
                    tried.sheet(&hub.sheet(), 16);
                }
            }
        }
    }
    tried.print("every pair");
}
