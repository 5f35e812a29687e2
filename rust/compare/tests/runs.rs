//! The run, on lists that do something, lists that do nothing, and lists and
//! sheets that are refused.

use compare::{Chance, Hub, Lent, Tally, after_others, calls, damage, lists};
use derowlas::{BLOCK_WORDS, BOARD_WORDS, BUDGET, LIST_BYTES};

/// Runs a list on a board of so many words.
struct Tried {
    chance: Chance,
    running: Tally,
}

impl Tried {
    fn new() -> Tried {
        Tried {
            chance: Chance::new(),
            running: Tally::running(),
        }
    }

    fn list(&mut self, sheet: &[u8], list: &[u8], words: usize) -> Result<calls::Counts, u32> {
        let board = Lent::junk(words, || self.chance.word());
        let answer = calls::run(sheet, list, &board);
        self.running.add(&answer);
        answer
    }
}

/// Lists that run to the end, and the same ones stopped anywhere.
#[test]
fn to_the_end_and_not() {
    let mut tried = Tried::new();
    let (mut whole, mut stopped) = (0, 0);
    for _ in 0..50_000 {
        let hub = Hub::shaped(&mut tried.chance);
        let sheet = hub.sheet();
        let list = lists::to_the_end(&sheet, &mut tried.chance);
        let words = hub.words(&mut tried.chance);
        if let Ok((.., finished)) = tried.list(&sheet, &list, words) {
            assert!(finished, "under way after {list:?} on {sheet:?}");
            whole += 1;
        }
        let pairs = tried.chance.below(list.len() / 2 + 1);
        let words = hub.words(&mut tried.chance);
        if let Ok((.., finished)) = tried.list(&sheet, &list[..2 * pairs], words) {
            stopped += u32::from(!finished);
        }
    }
    tried.running.print("lists to the end and not");
    // Most boards have room, and most lists that are cut leave something.
    assert!(whole > 40_000, "{whole} runs to the end");
    assert!(stopped > 30_000, "{stopped} runs that stopped before");
}

/// A list's order and the drain's, with the same boxes started: one answer and
/// one board, of the proved library alone.
#[test]
fn order_leaves_no_trace() {
    let mut chance = Chance::new();
    for _ in 0..20_000 {
        let hub = Hub::shaped(&mut chance);
        let sheet = hub.sheet();
        let list = lists::to_the_end(&sheet, &mut chance);
        let starts = list.chunks_exact(2).filter(|pair| pair[0] == pair[1]);
        let starts = starts.fold(0, |set, pair| set | 1 << pair[0]);
        let words = BLOCK_WORDS * usize::from(hub.boxes);
        let mut boards = [vec![1; words], vec![2; words]];
        let ran = derowlas::run(&sheet, &list, &mut boards[0]).expect("a run");
        let drained = derowlas::drain(&sheet, starts, BUDGET, &mut boards[1]).expect("a drain");
        assert!(drained.finished);
        assert_eq!(
            (ran.sent, ran.moved, ran.under_way),
            (drained.sent, drained.moved, drained.under_way),
            "{list:?} on {sheet:?}"
        );
        assert_eq!(boards[0], boards[1], "{list:?} on {sheet:?}");
    }
}

/// Every beginning of some lists, so that every moment of a run is seen.
#[test]
fn every_moment() {
    let mut tried = Tried::new();
    let ring = Hub::of(6, |low, high| low + 1 == high || (low == 0 && high == 5));
    let star = Hub::of(6, |low, _| low == 0);
    for hub in [Hub::line(3), Hub::line(8), ring, star, Hub::mesh(5)] {
        let sheet = hub.sheet();
        for _ in 0..12 {
            let list = lists::to_the_end(&sheet, &mut tried.chance);
            for pairs in 0..=list.len() / 2 {
                let words = BLOCK_WORDS * usize::from(hub.boxes);
                let answer = tried.list(&sheet, &list[..2 * pairs], words);
                assert!(answer.is_ok());
            }
        }
    }
    tried.running.print("every moment");
}

/// Any pairs over links: boxes started again and again, wires mostly empty.
#[test]
fn any_pairs() {
    let mut tried = Tried::new();
    for _ in 0..20_000 {
        let hub = Hub::shaped(&mut tried.chance);
        let sheet = hub.sheet();
        let pairs = tried.chance.below(400);
        let list = lists::any(&sheet, pairs, &mut tried.chance);
        let words = hub.words(&mut tried.chance);
        let _ = tried.list(&sheet, &list, words);
    }
    tried.running.print("any pairs");
}

/// Sheets, lists and boards, of which at least one is damaged in most cases.
#[test]
fn damaged() {
    let mut tried = Tried::new();
    for _ in 0..60_000 {
        let hub = Hub::shaped(&mut tried.chance);
        let mut sheet = hub.sheet();
        let pairs = tried.chance.below(24);
        let mut list = lists::any(&sheet, pairs, &mut tried.chance);
        let words = hub.words(&mut tried.chance);
        if tried.chance.one_in(2) {
            sheet = damage(hub, &mut tried.chance);
        }
        if !tried.chance.one_in(3) {
            list = lists::damage(list, &mut tried.chance);
        }
        let sheet = after_others(sheet, &mut tried.chance);
        let _ = tried.list(&sheet, &list, words);
    }
    tried.running.print("damaged sheets and lists");
    tried.running.all_met();
}

/// Every two bytes as the pair that ends a list, for each number of boxes.
#[test]
fn every_pair() {
    let mut tried = Tried::new();
    let values = || (0..20).chain([127, 128, 255]);
    for boxes in 1..=16 {
        for hub in [Hub::line(boxes), Hub::mesh(boxes)] {
            let sheet = hub.sheet();
            for a in values() {
                for b in values() {
                    let _ = tried.list(&sheet, &[0, 0, a, b], BOARD_WORDS);
                }
            }
        }
    }
    tried.running.print("every pair of a list");
}

/// Lists of 60,000 bytes and about, on hubs small and large.
#[test]
fn longest() {
    let mut tried = Tried::new();
    for hub in [Hub::line(1), Hub::line(3), Hub::line(16), Hub::mesh(16)] {
        let sheet = hub.sheet();
        let list = lists::any(&sheet, LIST_BYTES / 2 + 2, &mut tried.chance);
        for length in LIST_BYTES - 4..=LIST_BYTES + 4 {
            let refused = length % 2 == 1 || length > LIST_BYTES;
            let answer = tried.list(&sheet, &list[..length], BOARD_WORDS);
            assert_eq!(answer.err(), refused.then_some(9), "of {length} bytes");
        }
    }
    tried.running.print("longest lists");
}

/// Boards of every length, for each number of boxes.
#[test]
fn every_board() {
    let mut tried = Tried::new();
    for boxes in 1..=16 {
        let sheet = Hub::line(boxes).sheet();
        let list = lists::to_the_end(&sheet, &mut tried.chance);
        for words in 0..=BOARD_WORDS + 9 {
            let refused = words < BLOCK_WORDS * usize::from(boxes);
            let answer = tried.list(&sheet, &list[..list.len().min(40)], words);
            assert_eq!(answer.err(), refused.then_some(12), "of {words} words");
        }
    }
    tried.running.print("every board");
}
