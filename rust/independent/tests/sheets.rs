//! Document 01, "The link sheet": reading and writing undo each other, and
//! bytes before the pairs have no effect.  Also the printing program as such.

mod common;

use std::io::Write;
use std::process::{Command, Stdio};

use common::{Numbers, random_sheet, sheet_bytes};
use independent::{BLOCK, all_below, allowance, drain, ones, parse, read, routes, run, write};

fn random_table(numbers: &mut Numbers, boxes: usize) -> [u16; 16] {
    let mut table = [0; 16];
    let share = numbers.below(101);
    for high in 0..boxes {
        for low in 0..high {
            if numbers.chance(share) {
                table[low] |= 1 << high;
                table[high] |= 1 << low;
            }
        }
    }
    table
}

#[test]
fn reading_a_written_sheet_gives_the_table_back() {
    let mut numbers = Numbers(1);
    for round in 0..5_000 {
        let boxes = 1 + round % 16;
        let table = random_table(&mut numbers, boxes);
        let links = table.iter().flat_map(|&set| ones(set)).count() / 2;
        let mut buffer = [0xa5; 260];
        let length = write(boxes as u32, &table, &mut buffer).unwrap();
        assert_eq!(length, 4 + 2 * links);
        assert!(buffer[length..].iter().all(|&byte| byte == 0xa5));
        let mut back = [0xa5a5; 16];
        let sheet = read(&buffer[..length], &mut back).unwrap();
        assert_eq!(back, table);
        assert_eq!(sheet.table, table);
        assert_eq!((sheet.boxes, sheet.links), (boxes, links));
    }
}

#[test]
fn writing_a_read_sheet_gives_its_last_bytes() {
    let mut numbers = Numbers(2);
    for round in 0..5_000 {
        let boxes = 1 + numbers.below(16);
        let bytes = random_sheet(&mut numbers, boxes, round % 9);
        let mut file: Vec<u8> = (0..numbers.below(40))
            .map(|_| numbers.word() as u8)
            .collect();
        file.extend(&bytes);
        let mut table = [0xa5a5; 16];
        let sheet = read(&file, &mut table).unwrap();
        let mut buffer = vec![0; bytes.len()];
        let length = write(sheet.boxes as u32, &table, &mut buffer);
        assert_eq!(length, Ok(bytes.len()));
        assert_eq!(buffer, file[file.len() - bytes.len()..]);
    }
}

#[test]
fn bytes_before_the_pairs_have_no_effect() {
    let mut numbers = Numbers(3);
    for round in 0..500 {
        let boxes = 1 + numbers.below(16);
        let bytes = random_sheet(&mut numbers, boxes, round % 9);
        let before = [1, 2, 3, 300][round % 4];
        let mut file: Vec<u8> = (0..before).map(|_| numbers.word() as u8).collect();
        file.extend(&bytes);
        assert_eq!(parse(&file), parse(&bytes));
        assert_eq!(allowance(&file), allowance(&bytes));
        assert_eq!(routes(&file), routes(&bytes));
        let mut boards = [[0xa5a5; 16 * BLOCK]; 2];
        let starts = all_below(boxes);
        let [one, two] = &mut boards;
        assert_eq!(
            drain(&file, starts, 70, one),
            drain(&bytes, starts, 70, two)
        );
        assert_eq!(one, two);
        let list = [0, 0, boxes as u8 - 1, boxes as u8 - 1];
        assert_eq!(run(&file, &list, one), run(&bytes, &list, two));
        assert_eq!(one, two);
    }
}

#[test]
fn allowances() {
    assert_eq!(allowance(&[4, 0, 16, 1]), Ok(0));
    let mut numbers = Numbers(4);
    for round in 0..500 {
        let boxes = 1 + numbers.below(16);
        let bytes = random_sheet(&mut numbers, boxes, round % 9);
        let wires = bytes.len() - 4;
        assert_eq!(allowance(&bytes), Ok((wires * (2 * boxes - 1)) as u32));
    }
}

/// The program as it is run, on standard input and output.
fn printed(input: &[u8]) -> String {
    let mut program = Command::new(env!("CARGO_BIN_EXE_plain_routes"))
        .stdin(Stdio::piped())
        .stdout(Stdio::piped())
        .spawn()
        .unwrap();
    program.stdin.take().unwrap().write_all(input).unwrap();
    let output = program.wait_with_output().unwrap();
    assert!(output.status.success());
    String::from_utf8(output.stdout).unwrap()
}

#[test]
fn the_program_prints() {
    let line = [0, 1, 1, 2, 8, 2, 3, 1];
    let text = "boxes 3 links 2 moved 24\n0 1 1 1\n0 2 2 1\n1 0 1 0\n1 2 1 2\n2 0 2 1\n2 1 1 1\n";
    assert_eq!(printed(&line), text);
    let mut longer = vec![0x5a; 1_000_003];
    longer.extend(line);
    assert_eq!(printed(&longer), text);
    assert_eq!(printed(&[]), "refused 1 sheet\n");
    assert_eq!(printed(&[0, 1, 0, 1, 8, 2, 2, 1]), "refused 8 pair\n");
    let full = sheet_bytes(16, &common::mesh(16));
    let text = printed(&full);
    assert!(text.starts_with("boxes 16 links 120 moved 1200\n0 1 1 1\n0 2 1 2\n"));
    assert_eq!(text.lines().count(), 1 + 16 * 15);
    longer.extend(&full);
    assert_eq!(printed(&longer), text);
}
