//! The drain: every start set and every budget of small sheets, larger ones by
//! chance, and sheets, start sets and boards that are refused.

use compare::{Chance, Hub, Lent, Tally, after_others, calls, damage};
use derowlas::{BLOCK_WORDS, BOARD_WORDS, BUDGET};
use independent::rest::Rest;

/// Drains to a board of so many words.
struct Tried {
    chance: Chance,
    draining: Tally,
}

impl Tried {
    fn new() -> Tried {
        Tried {
            chance: Chance::new(),
            draining: Tally::draining(),
        }
    }

    fn drain(
        &mut self,
        sheet: &[u8],
        starts: u16,
        budget: u32,
        words: usize,
    ) -> Result<calls::Counts, u32> {
        let board = Lent::junk(words, || self.chance.word());
        let answer = calls::drain(sheet, starts, budget, &board);
        self.draining.add(&answer);
        answer
    }
}

/// The messages that the drain of a start set takes to its end, and the budget
/// that finishes whatever is started, E(N+2) + N(N-1): by the sheet alone.
fn exact_and_enough(sheet: &[u8], starts: u16) -> (u32, u32) {
    let sheet = independent::parse(sheet).expect("an accepted sheet");
    let rest = Rest::new(&sheet);
    (rest.sent(starts), rest.budget())
}

/// Every sheet of N boxes.
fn every_sheet(boxes: u8) -> impl Iterator<Item = Vec<u8>> {
    let pairs = Hub::mesh(boxes).pairs.len();
    (0..1_u32 << pairs).map(move |joined| {
        let mut place = 0..;
        let hub = Hub::of(boxes, |_, _| {
            joined >> place.next().expect("a pair") & 1 == 1
        });
        hub.sheet()
    })
}

/// Every start set of every sheet of up to four boxes, with every budget from
/// 0 to one more than it takes, the two that always finish, and the largest.
#[test]
fn every_start_set() {
    let mut tried = Tried::new();
    for boxes in 1..=4 {
        let words = BLOCK_WORDS * usize::from(boxes);
        for sheet in every_sheet(boxes) {
            for starts in 0..1 << boxes {
                let (exact, enough) = exact_and_enough(&sheet, starts);
                assert!(exact <= enough && enough <= BUDGET);
                for budget in (0..=exact + 1).chain([enough, BUDGET, u32::MAX]) {
                    let (_, moved, _, finished) = tried
                        .drain(&sheet, starts, budget, words)
                        .expect("a hub to drain");
                    assert_eq!(moved, budget.min(exact));
                    assert_eq!(finished, budget >= exact);
                }
            }
        }
    }
    tried.draining.print("every start set and budget");
}

/// Every 16-bit start set, for each number of boxes up to four and for 15 and
/// 16, of which all that name a box of N or above are refused.
#[test]
fn every_word_of_starts() {
    let mut tried = Tried::new();
    for boxes in [1, 2, 3, 4, 15, 16] {
        let sheet = Hub::line(boxes).sheet();
        for starts in 0..=u16::MAX {
            // Budget 0 for the larger ones: what is tried is the set.
            let budget = if boxes > 4 { 0 } else { BUDGET };
            let words = BLOCK_WORDS * usize::from(boxes);
            let refused = starts.checked_shr(boxes.into()).unwrap_or(0) != 0;
            let answer = tried.drain(&sheet, starts, budget, words);
            assert_eq!(answer.err(), refused.then_some(10));
        }
    }
    tried.draining.print("every word of starts");
}

/// Larger hubs, with budgets of 0, 1, between, one short of exact, exact, more,
/// and those that always finish.
#[test]
fn by_chance() {
    let mut tried = Tried::new();
    let (mut finished, mut stopped) = (0, 0);
    for _ in 0..60_000 {
        let hub = Hub::shaped(&mut tried.chance);
        let sheet = hub.sheet();
        let below_n = u16::MAX >> (16 - hub.boxes);
        let starts = match tried.chance.below(4) {
            0 => below_n,
            1 => 1 << tried.chance.below(hub.boxes.into()),
            _ => tried.chance.word() & below_n,
        };
        let (exact, enough) = exact_and_enough(&sheet, starts);
        assert!(exact <= enough && enough <= BUDGET);
        let budget = match tried.chance.below(11) {
            0 => 0,
            1 => 1,
            2 => exact.saturating_sub(1),
            3 => exact,
            4 => exact + 1,
            5 => enough,
            6 => BUDGET,
            7 => u32::MAX,
            _ => tried.chance.below(exact as usize + 1) as u32,
        };
        let words = hub.words(&mut tried.chance);
        if let Ok((_, moved, _, end)) = tried.drain(&sheet, starts, budget, words) {
            assert_eq!(moved, budget.min(exact));
            assert_eq!(end, budget >= exact);
            *(if end { &mut finished } else { &mut stopped }) += 1;
        }
    }
    tried.draining.print("drains by chance");
    assert!(finished > 20_000, "{finished} drains finished");
    assert!(stopped > 20_000, "{stopped} drains did not");
}

/// Sheets, start sets and boards, of which at least one is wrong in most cases.
#[test]
fn damaged() {
    let mut tried = Tried::new();
    for _ in 0..60_000 {
        let hub = Hub::shaped(&mut tried.chance);
        let words = hub.words(&mut tried.chance);
        let starts = if tried.chance.one_in(3) {
            tried.chance.word()
        } else {
            tried.chance.word() & (u16::MAX >> (16 - hub.boxes))
        };
        let budget = tried.chance.below(40) as u32;
        let sheet = if tried.chance.one_in(4) {
            hub.sheet()
        } else {
            damage(hub, &mut tried.chance)
        };
        let sheet = after_others(sheet, &mut tried.chance);
        let _ = tried.drain(&sheet, starts, budget, words);
    }
    tried
        .draining
        .print("damaged sheets, start sets and boards");
    tried.draining.all_met();
}

/// Boards of every length, for each number of boxes.
#[test]
fn every_board() {
    let mut tried = Tried::new();
    for boxes in 1..=16 {
        let sheet = Hub::line(boxes).sheet();
        for words in 0..=BOARD_WORDS + 9 {
            let refused = words < BLOCK_WORDS * usize::from(boxes);
            let answer = tried.drain(&sheet, 1, 40, words);
            assert_eq!(answer.err(), refused.then_some(12), "of {words} words");
        }
    }
    tried.draining.print("every board");
}
