//! Document 01, "Numbers given when the hub refuses".

/// A refusal: its number, and where it was found.
///
/// `place` is the index, from 0, of the pair in the sheet for 6, 7 and 8, and
/// of the pair in the list for 10 and 11.  It is 0 for all others.
#[derive(Clone, Copy, Debug, PartialEq, Eq)]
pub struct Refusal {
    pub number: u32,
    pub place: usize,
}

impl Refusal {
    /// A refusal that has no place in a sheet or list.
    pub(crate) const fn plain(number: u32) -> Refusal {
        Refusal { number, place: 0 }
    }

    pub(crate) const fn at(number: u32, place: usize) -> Refusal {
        Refusal { number, place }
    }

    /// The word that the printing program puts after the number.
    pub fn word(self) -> &'static str {
        match self.number {
            1..=5 => "sheet",
            6..=8 => "pair",
            9..=11 => "list",
            _ => "room",
        }
    }
}
