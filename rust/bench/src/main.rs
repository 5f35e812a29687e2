//! Times whole calls of the proved library beside those of the independent
//! program, interleaved in one process, and prints nanoseconds a message, or a
//! pair of a list, for both and their ratio.  Two more ratios say what the form
//! of the code costs: that of the library's own code in plain Rust, and that of
//! the same with each record rewritten where it lies.
//!
//! Bare times depend on the machine and on what else it does; the ratios much
//! less.  A round times a program and the independent one, one after the other on
//! the same case, and the table shows the median round of each, and the median
//! of the rounds' ratios.

use compare::{Chance, Hub};
use std::hint::black_box;
use std::time::Instant;

const ROUNDS: usize = 401;

/// The least time of one program in one round: long enough that the clock's
/// own step does not count, and so short that the system interrupts few
/// rounds, whatever else it has to do.
const ROUND_NANOS: f64 = 2e5;

/// The proved crates' code, written by build.rs without its contracts.
#[allow(unused, clippy::all)]
mod plain {
    include!(concat!(env!("OUT_DIR"), "/plain.rs"));
}

/// The same, but for its row of records.
#[allow(unused, clippy::all)]
mod in_place {
    include!(concat!(env!("OUT_DIR"), "/in_place.rs"));
}

/// A call, on which all programs must agree.
enum Call {
    Drain { starts: u16 },
    Run { list: Vec<u8> },
}

struct Case {
    name: &'static str,
    sheet: Vec<u8>,
    call: Call,
}

impl Case {
    fn drain(name: &'static str, hub: Hub, starts: u16) -> Case {
        let sheet = hub.sheet();
        Case {
            name,
            sheet,
            call: Call::Drain { starts },
        }
    }

    /// A list of the greatest length, each pair over a wire by chance.  The hub
    /// is soon at rest, so that most of its pairs find nothing to deliver.
    fn long_run(name: &'static str, hub: Hub) -> Case {
        let mut chance = Chance::new();
        let mut list = vec![0, 0];
        while list.len() < derowlas::LIST_BYTES {
            let (low, high) = hub.pairs[chance.below(hub.pairs.len())];
            list.extend(if chance.below(2) == 0 {
                [low, high]
            } else {
                [high, low]
            });
        }
        let sheet = hub.sheet();
        Case {
            name,
            sheet,
            call: Call::Run { list },
        }
    }

    /// What the proved library answers: the messages moved.
    fn proved(&self, board: &mut [u16]) -> u32 {
        match &self.call {
            Call::Drain { starts } => {
                derowlas::drain(&self.sheet, *starts, derowlas::BUDGET, board)
                    .expect("accepted")
                    .moved
            }
            Call::Run { list } => {
                derowlas::run(&self.sheet, list, board)
                    .expect("accepted")
                    .moved
            }
        }
    }

    /// What the independent program answers.
    fn independent(&self, board: &mut [u16]) -> u32 {
        match &self.call {
            Call::Drain { starts } => {
                independent::drain(&self.sheet, *starts, derowlas::BUDGET, board)
                    .expect("accepted")
                    .counts
                    .moved
            }
            Call::Run { list } => {
                independent::run(&self.sheet, list, board)
                    .expect("accepted")
                    .moved
            }
        }
    }

    /// What a time is divided by: a drain's messages, a list's pairs.
    fn units(&self, moved: u32) -> f64 {
        match &self.call {
            Call::Drain { .. } => f64::from(moved),
            Call::Run { list } => list.len() as f64 / 2.0,
        }
    }
}

/// Nanoseconds a call, over `times` of them.
fn time(times: usize, mut call: impl FnMut() -> u32) -> f64 {
    let began = Instant::now();
    for _ in 0..times {
        black_box(call());
    }
    began.elapsed().as_nanos() as f64 / times as f64
}

fn median(mut all: Vec<f64>) -> f64 {
    all.sort_by(f64::total_cmp);
    all[all.len() / 2]
}

type Program = fn(&Case, &mut [u16]) -> u32;

/// What a copy of the library's code answers: each has types of its own.
macro_rules! moved_by {
    ($code:ident) => {
        |case, board| match &case.call {
            Call::Drain { starts } => {
                $code::hub::drain(&case.sheet, *starts, derowlas::BUDGET, board)
                    .map_or(0, |done| done.moved)
            }
            Call::Run { list } => {
                $code::hub::run(&case.sheet, list, board).map_or(0, |done| done.moved)
            }
        }
    };
}

/// The programs that are held against the independent one, the library first.
const PROGRAMS: [(&str, Program); 3] = [
    ("proved", Case::proved),
    ("in plain Rust", moved_by!(plain)),
    ("record in place", moved_by!(in_place)),
];

/// Rounds of a program and of the independent one, in nanoseconds a call.
/// Only two programs take turns, since each learns from the call before.
fn rounds(case: &Case, program: Program, board: &mut [u16]) -> Vec<(f64, f64)> {
    let one = time(3, || case.independent(board));
    let times = (ROUND_NANOS / one).ceil() as usize;
    (0..ROUNDS)
        .map(|_| {
            (
                time(times, || program(case, board)),
                time(times, || case.independent(board)),
            )
        })
        .collect()
}

fn main() {
    let ring = Hub::of(16, |low, high| low + 1 == high || (low == 0 && high == 15));
    let cases = [
        Case::drain("drain, line of 16", Hub::line(16), 1),
        Case::drain("drain, ring of 16", ring, 1),
        Case::drain("drain, star of 16", Hub::of(16, |low, _| low == 0), 1),
        Case::drain("drain, mesh of 16", Hub::mesh(16), 1),
        Case::drain("drain, mesh of 4", Hub::mesh(4), 1),
        Case::long_run("run, 60,000 bytes, mesh of 16", Hub::mesh(16)),
        Case::long_run("run, 60,000 bytes, line of 16", Hub::line(16)),
    ];
    println!("| case | proved, ns | independent, ns | ratio | in plain Rust | record in place |");
    println!("|---|---:|---:|---:|---:|---:|");
    let mut worst: f64 = 0.0;
    for case in &cases {
        let mut board = vec![0; derowlas::BOARD_WORDS];
        let moved = case.independent(&mut board);
        let timed = PROGRAMS.map(|(name, program)| {
            let mut other = vec![0; derowlas::BOARD_WORDS];
            let also = program(case, &mut other);
            assert_eq!(also, moved, "{}, {name}: moved", case.name);
            assert_eq!(other, board, "{}, {name}: the board", case.name);
            rounds(case, program, &mut other)
        });
        let units = case.units(moved);
        let ratio = |i: usize| median(timed[i].iter().map(|(p, i)| p / i).collect());
        worst = worst.max(ratio(0));
        println!(
            "| {} | {:.1} | {:.1} | {:.2} | {:.2} | {:.2} |",
            case.name,
            median(timed[0].iter().map(|r| r.0).collect()) / units,
            median(timed[0].iter().map(|r| r.1).collect()) / units,
            ratio(0),
            ratio(1),
            ratio(2),
        );
    }
    println!("\nworst ratio {worst:.2}");
}
