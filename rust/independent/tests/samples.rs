//! Document 01, "Sample hubs": p1 to p11 and the printing program.  All
//! expected numbers are written out by hand.

mod common;

use common::{mesh, sheet_bytes};
use independent::rest::Rest;
use independent::{
    BLOCK, Counts, Hub, Message, Observer, Refusal, allowance, drain, parse, read, routes, run,
};

const PAIR: [u8; 6] = [0, 1, 6, 1, 2, 1];
const LINE: [u8; 8] = [0, 1, 1, 2, 8, 2, 3, 1];
const TRIANGLE: [u8; 10] = [0, 1, 0, 2, 1, 2, 10, 3, 3, 1];
const RING: [u8; 12] = [0, 1, 0, 2, 1, 3, 2, 3, 12, 4, 4, 1];

const BUDGET: u32 = 4_560;

/// Starts the boxes of the set, drains, and answers sent and the board.
fn drained(sheet: &[u8], starts: u16) -> (u32, Vec<u16>) {
    let boxes = parse(sheet).unwrap().boxes;
    let mut board = vec![0xa5a5; BLOCK * boxes];
    let answer = drain(sheet, starts, BUDGET, &mut board).unwrap();
    assert!(answer.finished);
    assert_eq!(answer.counts.under_way, 0);
    assert_eq!(answer.counts.moved, answer.counts.sent);
    (answer.counts.sent, board)
}

fn state(board: &[u16], b: usize) -> u16 {
    board[BLOCK * b]
}

fn hop(board: &[u16], b: usize) -> u16 {
    board[BLOCK * b + 1]
}

fn in_spt(board: &[u16], b: usize, j: usize) -> u16 {
    board[BLOCK * b + 18 + j]
}

fn not_spt(board: &[u16], b: usize, j: usize) -> u16 {
    board[BLOCK * b + 34 + j]
}

/// Every message sent, with its wire.
#[derive(Default)]
struct Sent(Vec<(usize, usize, Message)>);

impl Observer for Sent {
    fn sent(&mut self, from: usize, to: usize, message: Message) {
        self.0.push((from, to, message));
    }
}

fn sent_messages(sheet: &[u8], starts: &[usize]) -> Vec<(usize, usize, Message)> {
    let mut hub = Hub::watched(&parse(sheet).unwrap(), Sent::default());
    for &b in starts {
        hub.start(b).unwrap();
    }
    while let Some((a, b)) = hub.first_wire() {
        hub.deliver(a, b).unwrap();
    }
    hub.observer().0.clone()
}

#[test]
fn p1_one_box() {
    let (sent, board) = drained(&[4, 0, 1, 1], 1);
    assert_eq!(sent, 0);
    // Stopped, HOP 0, Nodes(0) itself, and zero for its own empty link list.
    let mut block = [0; BLOCK];
    block[0] = 2;
    block[2] = 1;
    assert_eq!(board, block);
    assert_eq!(allowance(&[4, 0, 1, 1]), Ok(0));
}

#[test]
fn p2_one_link() {
    for starts in 1..=3 {
        let (sent, board) = drained(&PAIR, starts);
        assert_eq!(sent, 10);
        assert_eq!([hop(&board, 0), hop(&board, 1)], [3, 3]);
        assert_eq!([state(&board, 0), state(&board, 1)], [2, 2]);
    }
    assert_eq!(allowance(&PAIR), Ok(6));
}

#[test]
fn p3_line() {
    for starts in 1..=7 {
        let (sent, board) = drained(&LINE, starts);
        assert_eq!(sent, 24);
        assert_eq!([0, 1, 2].map(|b| hop(&board, b)), [4, 3, 4]);
        assert_eq!([0, 1, 2].map(|b| state(&board, b)), [2, 2, 2]);
    }
    assert_eq!(allowance(&LINE), Ok(20));
}

#[test]
fn p4_line_block_of_box_1() {
    #[rustfmt::skip]
    let block: [u16; 66] = [
        2, 3,
        2, 5, 0, 0, 0, 0, 0, 0, 0, 0, 0, 0, 0, 0, 0, 0, // Nodes
        1, 0, 4, 0, 0, 0, 0, 0, 0, 0, 0, 0, 0, 0, 0, 0, // In_SPT
        1, 0, 4, 0, 0, 0, 0, 0, 0, 0, 0, 0, 0, 0, 0, 0, // Not_SPT
        2, 5, 2, 0, 0, 0, 0, 0, 0, 0, 0, 0, 0, 0, 0, 0, // Neighbors
    ];
    for starts in 1..=7 {
        let (_, board) = drained(&LINE, starts);
        assert_eq!(board[BLOCK..2 * BLOCK], block);
    }
    assert_eq!(Rest::new(&parse(&LINE).unwrap()).block(1), block);
}

#[test]
fn p5_line_wire_1_to_0() {
    // {1}; {2}; Neighbors(1) = {0,2}; {}; Neighbors(2) = {1}; {}
    let list = [
        Message::not_spt(2),
        Message::not_spt(4),
        Message::neighbors(1, 5),
        Message::not_spt(0),
        Message::neighbors(2, 2),
        Message::not_spt(0),
    ];
    let every_start: [&[usize]; 4] = [&[0], &[1], &[2], &[2, 0, 1]];
    for starts in every_start {
        let mut sent = sent_messages(&LINE, starts);
        assert_eq!(sent.len(), 24);
        sent.retain(|&(from, to, _)| (from, to) == (1, 0));
        assert!(sent.iter().map(|s| s.2).eq(list), "{sent:?}");
    }
    assert_eq!(Rest::new(&parse(&LINE).unwrap()).wire(1, 0), list);
}

#[test]
fn p6_triangle() {
    for starts in 1..=7 {
        assert_eq!(drained(&TRIANGLE, starts).0, 30);
    }
    assert_eq!(allowance(&TRIANGLE), Ok(30));
}

#[test]
fn p7_ring() {
    for starts in 1..=15 {
        let (sent, board) = drained(&RING, starts);
        assert_eq!(sent, 52);
        assert_eq!([1, 2].map(|j| in_spt(&board, 0, j)), [0b1010, 0b0100]);
        assert_eq!([1, 2].map(|j| not_spt(&board, 0, j)), [0b1010, 0b1100]);
    }
    assert_eq!(allowance(&RING), Ok(56));
}

/// "Where Figure 3 is not followed": 12 Neighbors messages in all, not 16.
#[test]
fn ring_sends_12_lists() {
    for start in 0..4 {
        let sent = sent_messages(&RING, &[start]);
        assert_eq!(sent.iter().filter(|s| s.2.is_list()).count(), 12);
        let of_0 = |s: &&(usize, usize, Message)| s.2.is_list() && s.2.origin() == 0 && s.1 == 3;
        assert_eq!(sent.iter().filter(of_0).count(), 1);
    }
}

#[test]
fn p8_line_list() {
    let mut board = [0xa5a5; 3 * BLOCK];
    let counts = run(&LINE, &[0, 0, 0, 1], &mut board);
    let three = Counts {
        sent: 3,
        moved: 1,
        under_way: 2,
    };
    assert_eq!(counts, Ok(three));
    assert_eq!(hop(&board, 0), 0);
    assert_eq!([0, 1, 2].map(|b| state(&board, b)), [1, 1, 0]);
    let counts = run(&LINE, &[0, 0, 0, 1, 1, 0], &mut board);
    let four = Counts {
        sent: 4,
        moved: 2,
        under_way: 2,
    };
    assert_eq!(counts, Ok(four));
    assert_eq!(hop(&board, 0), 1);
    assert_eq!([0, 1, 2].map(|b| state(&board, b)), [1, 1, 0]);
}

#[test]
fn p9_empty_list() {
    for sheet in [&[4, 0, 1, 1][..], &PAIR, &LINE, &TRIANGLE, &RING] {
        let boxes = parse(sheet).unwrap().boxes;
        let mut board = [0xa5a5; 5 * BLOCK];
        assert_eq!(run(sheet, &[], &mut board), Ok(Counts::default()));
        assert!(board[..boxes * BLOCK].iter().all(|&word| word == 0));
        assert!(board[boxes * BLOCK..].iter().all(|&word| word == 0xa5a5));
    }
}

#[test]
fn p10_damaged_sheets() {
    let twice = Refusal {
        number: 8,
        place: 1,
    };
    assert_eq!(parse(&[0, 1, 0, 1, 8, 2, 2, 1]), Err(twice));
    let back = Refusal {
        number: 5,
        place: 0,
    };
    assert_eq!(parse(&[0, 1, 0, 1, 9, 2, 2, 1]), Err(back));
}

#[test]
fn p11_most_boxes_and_links() {
    assert_eq!(parse(&[4, 0, 16, 1]).unwrap().boxes, 16);
    let boxes = Refusal {
        number: 3,
        place: 0,
    };
    assert_eq!(parse(&[4, 0, 17, 1]), Err(boxes));

    let full = sheet_bytes(16, &mesh(16));
    assert_eq!(full.len(), 244);
    let mut table = [0; 16];
    let sheet = read(&full, &mut table).unwrap();
    assert_eq!((sheet.boxes, sheet.links), (16, 120));
    for (here, &set) in table.iter().enumerate() {
        assert_eq!(set, 0xffff ^ 1 << here);
    }

    let mut more = vec![0; 242];
    more.extend([246, 121, 16, 1]);
    let links = Refusal {
        number: 4,
        place: 0,
    };
    assert_eq!(parse(&more), Err(links));
}

#[test]
fn printing_program() {
    let text = "boxes 3 links 2 moved 24\n\
                0 1 1 1\n\
                0 2 2 1\n\
                1 0 1 0\n\
                1 2 1 2\n\
                2 0 2 1\n\
                2 1 1 1\n";
    assert_eq!(routes(&LINE), text);
    // Of a longer input only the last bytes are kept.
    let mut longer = vec![7; 100_000];
    longer.extend(LINE);
    assert_eq!(routes(&longer), text);
    // Two groups and a box alone.
    let groups = sheet_bytes(5, &[(0, 3), (2, 4)]);
    assert_eq!(
        routes(&groups),
        "boxes 5 links 2 moved 20\n0 3 1 3\n2 4 1 4\n3 0 1 0\n4 2 1 2\n"
    );
    assert_eq!(routes(&[4, 0, 1, 1]), "boxes 1 links 0 moved 0\n");
}

#[test]
fn printing_program_refuses() {
    assert_eq!(routes(&[]), "refused 1 sheet\n");
    assert_eq!(routes(&[4, 0, 1, 2]), "refused 2 sheet\n");
    assert_eq!(routes(&[4, 0, 0, 1]), "refused 3 sheet\n");
    assert_eq!(routes(&[4, 121, 1, 1]), "refused 4 sheet\n");
    assert_eq!(routes(&[9, 2, 2, 1]), "refused 5 sheet\n");
    assert_eq!(routes(&[0, 2, 6, 1, 2, 1]), "refused 6 pair\n");
    assert_eq!(routes(&[1, 0, 6, 1, 2, 1]), "refused 7 pair\n");
    assert_eq!(routes(&[0, 1, 0, 1, 8, 2, 2, 1]), "refused 8 pair\n");
    let word = |number| Refusal { number, place: 0 }.word();
    assert_eq!((9..=11).map(word).collect::<Vec<_>>(), ["list"; 3]);
    assert_eq!((12..=15).map(word).collect::<Vec<_>>(), ["room"; 4]);
}

/// The sums of "Lists and the drain" on the full mesh and on the longest line.
#[test]
fn largest_sheets() {
    // 240 wires of 1 + 3 messages, and 16 x 15 lists.
    let full = sheet_bytes(16, &mesh(16));
    assert_eq!(drained(&full, 1).0, 1_200);
    assert_eq!(Rest::new(&parse(&full).unwrap()).budget(), 4_560);
    assert_eq!(allowance(&full), Ok(7_440));
    // The end boxes of a line of 16 have the largest HOP, 17.
    let line: Vec<_> = (1..16).map(|b| (b - 1, b)).collect();
    let (sent, board) = drained(&sheet_bytes(16, &line), 1 << 7);
    assert_eq!(
        [hop(&board, 0), hop(&board, 15), hop(&board, 7)],
        [17, 17, 10]
    );
    // e is 15, 14, .., 8, 8, .., 15; ends have one wire, all others two.
    let e = 2 * (15 + 2 * (14 + 13 + 12 + 11 + 10 + 9 + 8));
    assert_eq!(sent, e + 3 * 30 + 240);
}
