//! How often each number was answered.

use std::fmt;
use std::io::{Write, stdout};

/// A refusal that document 01 has, and that is proved never to be given
/// (`never-13`), so that no case meets it.  Whoever reads a tally is told so.
const WIRE_FULL: u32 = 13;

/// What a call answered, by number; 0 is acceptance.
pub struct Tally {
    call: &'static str,
    /// The numbers that the call can answer.
    numbers: &'static [u32],
    met: [u64; 16],
}

impl Tally {
    pub fn reading() -> Tally {
        Tally::new("read", &[0, 1, 2, 3, 4, 5, 6, 7, 8, 12])
    }

    pub fn writing() -> Tally {
        Tally::new("write", &[0, 3, 14, 15])
    }

    pub fn allowance() -> Tally {
        Tally::new("allowance", &[0, 1, 2, 3, 4, 5, 6, 7, 8])
    }

    pub fn running() -> Tally {
        Tally::new("run", &[0, 1, 2, 3, 4, 5, 6, 7, 8, 9, 10, 11, 12, 13])
    }

    pub fn draining() -> Tally {
        Tally::new("drain", &[0, 1, 2, 3, 4, 5, 6, 7, 8, 10, 12, 13])
    }

    fn new(call: &'static str, numbers: &'static [u32]) -> Tally {
        Tally {
            call,
            numbers,
            met: [0; 16],
        }
    }

    pub fn add<T>(&mut self, answer: &Result<T, u32>) {
        let number = match answer {
            Ok(_) => 0,
            Err(number) => *number,
        };
        assert!(
            self.numbers.contains(&number),
            "{} answered {number}",
            self.call
        );
        self.met[number as usize] += 1;
    }

    pub fn cases(&self) -> u64 {
        self.met.iter().sum()
    }

    /// Prints how often each number was met, past the test harness, which shows
    /// what passing tests print to nobody.
    pub fn print(&self, test: &str) {
        writeln!(stdout(), "{test}: {self}").expect("standard output");
    }

    /// Every number that the call can answer was met, but for 13.
    pub fn all_met(&self) {
        for &number in self.numbers {
            assert!(
                self.met[number as usize] > 0 || number == WIRE_FULL,
                "no case with {number}: {self}"
            );
        }
    }
}

impl fmt::Display for Tally {
    fn fmt(&self, f: &mut fmt::Formatter<'_>) -> fmt::Result {
        write!(f, "{} {} cases;", self.call, self.cases())?;
        for &number in self.numbers {
            match self.met[number as usize] {
                0 if number == WIRE_FULL => write!(f, " {number}: never reached")?,
                met => write!(f, " {number}: {met}")?,
            }
        }
        Ok(())
    }
}
