//! Document 01, "Numbers given when the hub refuses": every number, where it
//! begins, what comes before what, and that nothing lent is touched.

mod common;

use common::{Numbers, mesh, random_sheet, sheet_bytes};
use independent::{
    BLOCK, Counts, LONGEST_LIST, Refusal, allowance, drain, parse, read, routes, run, write,
};

const LINE: [u8; 8] = [0, 1, 1, 2, 8, 2, 3, 1];
const MARK: u16 = 0xa5a5;

fn refusal(number: u32, place: usize) -> Refusal {
    Refusal { number, place }
}

/// Every call that reads a sheet gives this refusal and touches nothing, also
/// when the list, the start set, the board and the table are bad as well.
fn sheet_refused(sheet: &[u8], number: u32, place: usize) {
    let expected = refusal(number, place);
    assert_eq!(parse(sheet), Err(expected), "{sheet:?}");
    assert_eq!(allowance(sheet), Err(expected));
    for length in [0, 15, 16, 17] {
        let mut table = vec![MARK; length];
        assert_eq!(read(sheet, &mut table), Err(expected));
        assert!(table.iter().all(|&word| word == MARK));
    }
    for length in [0, 16 * BLOCK] {
        let mut board = vec![MARK; length];
        for list in [&[][..], &[0, 0], &[0], &[200, 200]] {
            assert_eq!(run(sheet, list, &mut board), Err(expected));
        }
        for starts in [0, 1, u16::MAX] {
            assert_eq!(drain(sheet, starts, 9, &mut board), Err(expected));
        }
        assert!(board.iter().all(|&word| word == MARK));
    }
    let word = if number <= 5 { "sheet" } else { "pair" };
    assert_eq!(routes(sheet), format!("refused {number} {word}\n"));
}

fn accepted(sheet: &[u8]) {
    assert!(parse(sheet).is_ok(), "{sheet:?}");
}

#[test]
fn refusal_1() {
    sheet_refused(&[], 1, 0);
    sheet_refused(&[1], 1, 0);
    sheet_refused(&[0, 1, 1], 1, 0);
    accepted(&[4, 0, 1, 1]);
}

#[test]
fn refusal_2() {
    for version in [0, 2, 3, 255] {
        sheet_refused(&[4, 0, 1, version], 2, 0);
    }
    // Before 3, 4 and 5.
    sheet_refused(&[9, 121, 0, 2], 2, 0);
}

#[test]
fn refusal_3() {
    for boxes in [0, 17, 18, 255] {
        sheet_refused(&[4, 0, boxes, 1], 3, 0);
        // Before 4 and 5.
        sheet_refused(&[9, 121, boxes, 1], 3, 0);
    }
    for boxes in 1..=16 {
        accepted(&[4, 0, boxes, 1]);
    }
}

#[test]
fn refusal_4() {
    for links in [121u8, 122, 255] {
        let mut sheet = vec![0; 2 * usize::from(links)];
        sheet.extend([4u8.wrapping_add(links.wrapping_mul(2)), links, 16, 1]);
        sheet_refused(&sheet, 4, 0);
        // Before 5.
        sheet_refused(&[0, links, 16, 1], 4, 0);
    }
    accepted(&sheet_bytes(16, &mesh(16)));
}

#[test]
fn refusal_5() {
    // B is not 4 + 2P.
    for back in [0, 3, 5, 6, 255] {
        sheet_refused(&[0, 1, 0, 1, back, 0, 2, 1], 5, 0);
    }
    sheet_refused(&[0, 1, 0, 1, 4, 1, 2, 1], 5, 0);
    // B is beyond the file's start.
    sheet_refused(&[1, 6, 1, 2, 1], 5, 0);
    sheet_refused(&[6, 1, 2, 1], 5, 0);
    accepted(&[0, 1, 6, 1, 2, 1]);
    let full = sheet_bytes(16, &mesh(16));
    sheet_refused(&full[1..], 5, 0);
    // Before 6, 7 and 8.
    sheet_refused(&[9, 9, 1, 0, 9, 2, 2, 1], 5, 0);
}

#[test]
fn refusal_6() {
    sheet_refused(&[0, 2, 6, 1, 2, 1], 6, 0);
    sheet_refused(&[2, 0, 6, 1, 2, 1], 6, 0);
    sheet_refused(&[0, 255, 6, 1, 16, 1], 6, 0);
    sheet_refused(&[0, 16, 6, 1, 16, 1], 6, 0);
    accepted(&[0, 15, 6, 1, 16, 1]);
    sheet_refused(&[0, 1, 0, 3, 8, 2, 3, 1], 6, 1);
    // Before 7: both apply.
    sheet_refused(&[5, 5, 6, 1, 2, 1], 6, 0);
    sheet_refused(&[5, 1, 6, 1, 2, 1], 6, 0);
    // Before 8: both apply.
    sheet_refused(&[1, 2, 0, 9, 8, 2, 3, 1], 6, 1);
    // Pair by pair: an earlier pair's 7 and 8 come before a later pair's 6.
    sheet_refused(&[1, 0, 0, 9, 8, 2, 3, 1], 7, 0);
    sheet_refused(&[0, 1, 0, 1, 9, 9, 10, 3, 3, 1], 8, 1);
}

#[test]
fn refusal_7() {
    sheet_refused(&[0, 0, 6, 1, 2, 1], 7, 0);
    sheet_refused(&[1, 1, 6, 1, 2, 1], 7, 0);
    sheet_refused(&[1, 0, 6, 1, 2, 1], 7, 0);
    sheet_refused(&[0, 1, 2, 1, 8, 2, 3, 1], 7, 1);
    // Before 8: both apply.
    sheet_refused(&[1, 2, 1, 0, 8, 2, 3, 1], 7, 1);
    // An earlier pair's 8 before a later pair's 7.
    sheet_refused(&[0, 1, 0, 1, 1, 0, 10, 3, 3, 1], 8, 1);
}

#[test]
fn refusal_8() {
    sheet_refused(&[0, 1, 0, 1, 8, 2, 2, 1], 8, 1);
    sheet_refused(&[0, 2, 0, 1, 8, 2, 3, 1], 8, 1);
    sheet_refused(&[1, 2, 0, 1, 8, 2, 3, 1], 8, 1);
    // By first box before second: (1,2) is above (0,3).
    accepted(&[0, 3, 1, 2, 8, 2, 4, 1]);
    sheet_refused(&[1, 2, 0, 3, 8, 2, 4, 1], 8, 1);
    sheet_refused(&[0, 1, 0, 2, 1, 2, 1, 2, 12, 4, 3, 1], 8, 3);
}

/// `run` refuses, on boards of every length, and touches no word.
fn list_refused(list: &[u8], number: u32, place: usize) {
    for length in [0, 3 * BLOCK - 1, 3 * BLOCK, 3 * BLOCK + 1] {
        let mut board = vec![MARK; length];
        let answer = run(&LINE, list, &mut board);
        assert_eq!(answer, Err(refusal(number, place)));
        assert!(board.iter().all(|&word| word == MARK));
    }
}

#[test]
fn refusal_9() {
    list_refused(&[0], 9, 0);
    list_refused(&[0, 0, 0], 9, 0);
    // Before 10 and 11.
    list_refused(&[9, 9, 0, 2, 0], 9, 0);
    list_refused(&vec![0; LONGEST_LIST + 1], 9, 0);
    list_refused(&vec![0; LONGEST_LIST + 2], 9, 0);
    list_refused(&vec![9; LONGEST_LIST + 2], 9, 0);
    assert_eq!(LONGEST_LIST, 60_000);
    let mut board = [MARK; 3 * BLOCK];
    let counts = run(&LINE, &vec![0; LONGEST_LIST], &mut board);
    let one = Counts {
        sent: 1,
        moved: 0,
        under_way: 1,
    };
    assert_eq!(counts, Ok(one));
}

#[test]
fn refusal_10() {
    list_refused(&[3, 3], 10, 0);
    list_refused(&[0, 3], 10, 0);
    list_refused(&[3, 0], 10, 0);
    list_refused(&[0, 255], 10, 0);
    list_refused(&[255, 0], 10, 0);
    // Found before the first pair is done.
    list_refused(&[0, 0, 0, 1, 1, 3], 10, 2);
    let mut long = vec![0; LONGEST_LIST];
    long[LONGEST_LIST - 1] = 3;
    list_refused(&long, 10, LONGEST_LIST / 2 - 1);
    // Pair by pair with 11.
    list_refused(&[0, 2, 3, 3], 11, 0);
    list_refused(&[3, 3, 0, 2], 10, 0);
}

#[test]
fn refusal_10_of_a_start_set() {
    for starts in [8, 9, 0x8000, u16::MAX] {
        for length in [0, 3 * BLOCK] {
            let mut board = vec![MARK; length];
            // Before 12.
            let answer = drain(&LINE, starts, 9, &mut board);
            assert_eq!(answer, Err(refusal(10, 0)));
            assert!(board.iter().all(|&word| word == MARK));
        }
    }
    let mut board = [MARK; 16 * BLOCK];
    assert!(drain(&LINE, 7, 9, &mut board).is_ok());
    assert!(drain(&[4, 0, 16, 1], u16::MAX, 9, &mut board).is_ok());
    assert!(drain(&[4, 0, 15, 1], 0x7fff, 9, &mut board).is_ok());
    let answer = drain(&[4, 0, 15, 1], u16::MAX, 9, &mut board);
    assert_eq!(answer, Err(refusal(10, 0)));
}

#[test]
fn refusal_11() {
    list_refused(&[0, 2], 11, 0);
    list_refused(&[2, 0], 11, 0);
    list_refused(&[0, 0, 0, 1, 2, 0], 11, 2);
}

#[test]
fn refusal_12_of_a_board() {
    for length in [0, 1, 2 * BLOCK, 3 * BLOCK - 1] {
        let mut board = vec![MARK; length];
        let twelve = refusal(12, 0);
        assert_eq!(run(&LINE, &[0, 0, 0, 1], &mut board), Err(twelve));
        assert_eq!(run(&LINE, &[], &mut board), Err(twelve));
        assert_eq!(drain(&LINE, 7, 99, &mut board), Err(twelve));
        assert_eq!(drain(&LINE, 0, 0, &mut board), Err(twelve));
        assert!(board.iter().all(|&word| word == MARK));
    }
    for more in [0, 1, BLOCK] {
        let mut board = vec![MARK; 3 * BLOCK + more];
        assert!(run(&LINE, &[0, 0], &mut board).is_ok());
        assert!(drain(&LINE, 7, 99, &mut board).unwrap().finished);
        assert!(board[..3 * BLOCK].iter().all(|&word| word != MARK));
        assert!(board[3 * BLOCK..].iter().all(|&word| word == MARK));
    }
}

#[test]
fn refusal_12_of_a_table() {
    for length in [0, 1, 3, 15, 17, 32] {
        let mut table = vec![MARK; length];
        assert_eq!(read(&LINE, &mut table), Err(refusal(12, 0)));
        assert!(table.iter().all(|&word| word == MARK));
    }
    let mut table = [MARK; 16];
    assert!(read(&LINE, &mut table).is_ok());
    assert_eq!(table[..4], [2, 5, 2, 0]);
    assert!(table[3..].iter().all(|&word| word == 0));
}

/// `write` refuses, with buffers of every length, and touches no byte.
fn write_refused(boxes: u32, table: &[u16], lengths: &[usize], number: u32) {
    for &length in lengths {
        let mut buffer = vec![0xa5; length];
        let answer = write(boxes, table, &mut buffer);
        assert_eq!(answer, Err(refusal(number, 0)));
        assert!(buffer.iter().all(|&byte| byte == 0xa5));
    }
}

fn table_of(words: &[u16]) -> [u16; 16] {
    let mut table = [0; 16];
    table[..words.len()].copy_from_slice(words);
    table
}

#[test]
fn refusal_3_of_writing() {
    for boxes in [0, 17, 256, 257, u32::MAX] {
        write_refused(boxes, &table_of(&[2, 1]), &[0, 244], 3);
        // Before 14 and 15.
        write_refused(boxes, &[], &[0, 244], 3);
    }
}

#[test]
fn refusal_14() {
    let lengths = [0, 3, 4, 244, 300];
    // Not 16 words.
    for length in [0, 2, 15, 17] {
        write_refused(2, &vec![0; length], &lengths, 14);
    }
    // Not the same both ways.
    write_refused(2, &table_of(&[2, 0]), &lengths, 14);
    write_refused(2, &table_of(&[0, 1]), &lengths, 14);
    write_refused(3, &table_of(&[6, 1, 0]), &lengths, 14);
    // A box linked to itself.
    write_refused(2, &table_of(&[1, 0]), &lengths, 14);
    write_refused(2, &table_of(&[2, 3]), &lengths, 14);
    // A box of N or above: named, naming, or both.
    write_refused(2, &table_of(&[4, 0]), &lengths, 14);
    write_refused(2, &table_of(&[0, 0, 1]), &lengths, 14);
    write_refused(2, &table_of(&[4, 0, 1]), &lengths, 14);
    write_refused(2, &table_of(&[0, 0, 8, 4]), &lengths, 14);
    let mut far = [0; 16];
    (far[0], far[15]) = (0x8000, 1);
    write_refused(15, &far, &lengths, 14);
    assert_eq!(write(16, &far, &mut [0; 6]), Ok(6));
    assert_eq!(write(3, &table_of(&[4, 0, 1]), &mut [0; 6]), Ok(6));
}

#[test]
fn refusal_15() {
    write_refused(1, &[0; 16], &[0, 1, 2, 3], 15);
    write_refused(3, &table_of(&[2, 5, 2]), &[0, 4, 6, 7], 15);
    let mut full = [0; 16];
    for (here, set) in full.iter_mut().enumerate() {
        *set = 0xffff ^ 1 << here;
    }
    write_refused(16, &full, &[0, 242, 243], 15);
    assert_eq!(write(16, &full, &mut [0; 244]), Ok(244));
    for more in [0, 1, 100] {
        let mut buffer = vec![0xa5; 8 + more];
        assert_eq!(write(3, &table_of(&[2, 5, 2]), &mut buffer), Ok(8));
        assert_eq!(buffer[..8], LINE);
        assert!(buffer[8..].iter().all(|&byte| byte == 0xa5));
    }
}

/// The refusals that apply to a sheet, said one by one as the table says
/// them; the first in the table's order is the one given.
fn stated(sheet: &[u8]) -> Option<Refusal> {
    let from_end = |back: usize| sheet[sheet.len() - back] as usize;
    if sheet.len() < 4 {
        return Some(refusal(1, 0));
    }
    let (back, links, boxes, version) = (from_end(4), from_end(3), from_end(2), from_end(1));
    let trailer = [
        (2, version != 1),
        (3, !(1..=16).contains(&boxes)),
        (4, links > 120),
        (5, back != 4 + 2 * links || back > sheet.len()),
    ];
    if let Some(&(number, _)) = trailer.iter().find(|t| t.1) {
        return Some(refusal(number, 0));
    }
    let pair = |place: usize| {
        let at = back - 2 * place;
        (from_end(at), from_end(at - 1))
    };
    for place in 0..links {
        let (low, high) = pair(place);
        let pairs = [
            (6, low >= boxes || high >= boxes),
            (7, low >= high),
            (8, place > 0 && pair(place) <= pair(place - 1)),
        ];
        if let Some(&(number, _)) = pairs.iter().find(|p| p.1) {
            return Some(refusal(number, place));
        }
    }
    None
}

/// Sheets with one to three damaged bytes, or cut.
#[test]
fn damaged_sheets() {
    let mut numbers = Numbers(0x5_1692);
    let mut given = [0; 9];
    for round in 0..40_000 {
        let boxes = 1 + numbers.below(16);
        let mut sheet = random_sheet(&mut numbers, boxes, round % 9);
        for _ in 0..numbers.below(4) {
            let at = if numbers.chance(30) {
                sheet.len() - 1 - numbers.below(4)
            } else {
                numbers.below(sheet.len())
            };
            sheet[at] = match numbers.below(3) {
                0 => numbers.below(18) as u8,
                1 => sheet[at].wrapping_add(1),
                _ => numbers.word() as u8,
            };
        }
        if numbers.chance(10) {
            sheet.drain(..numbers.below(sheet.len() + 1));
        }
        let answer = parse(&sheet);
        assert_eq!(answer.err(), stated(&sheet), "{sheet:?}");
        given[answer.err().map_or(0, |r| r.number as usize)] += 1;
    }
    assert!(given.iter().all(|&count| count > 20), "{given:?}");
}
