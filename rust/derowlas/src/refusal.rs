//! Document 01, "Numbers given when the hub refuses".

use std::error::Error;
use std::fmt;

/// Why a call was refused.  A refused call has changed nothing.
///
/// ```
/// use derowlas::Refusal;
///
/// // The link 0-1 stands twice.
/// let refusal = derowlas::allowance(&[0, 1, 0, 1, 8, 2, 2, 1]).unwrap_err();
/// assert_eq!(refusal, Refusal::PairOrder);
/// assert_eq!(
///     refusal.to_string(),
///     "refused 8: a link stands out of order on the sheet, or twice",
/// );
/// ```
///
/// More numbers may come, so a `match` needs an arm for those:
///
/// ```
/// use derowlas::Refusal;
///
/// fn hint(refusal: Refusal) -> &'static str {
///     match refusal {
///         Refusal::Table => "check the table",
///         Refusal::Buffer => "lend 244 bytes",
///         _ => "check the sheet",
///     }
/// }
/// assert_eq!(hint(Refusal::Buffer), "lend 244 bytes");
/// ```
#[derive(Clone, Copy, Debug, PartialEq, Eq, Hash)]
#[non_exhaustive]
#[repr(u32)]
pub enum Refusal {
    /// The sheet is shorter than 4 bytes.
    ShortSheet = 1,
    /// The version is not 1.
    Version = 2,
    /// N is 0 or above 16.
    Boxes = 3,
    /// P is above 120.
    Links = 4,
    /// B is not 4 + 2P, or points beyond the file's start.
    Back = 5,
    /// A pair names a box of N or above.
    PairBox = 6,
    /// The first of a pair is not lower than the second.
    PairTurned = 7,
    /// A pair is not above the one before.
    PairOrder = 8,
    /// The list is of odd length or over 60,000 bytes.
    ListLength = 9,
    /// The list or the start set names a box of N or above.
    ListBox = 10,
    /// The list names two different boxes without a link.
    ListLink = 11,
    /// The board is below 66N words, or the link table is not of 16 words.
    Room = 12,
    /// A message would be the 21st waiting on one wire and its receiving queue
    /// together.  Proved never to happen; document 01 has the number.
    WireFull = 13,
    /// The table to write is not of 16 words, not the same both ways, links a
    /// box to itself, or names a box of N or above.
    Table = 14,
    /// The buffer to write is below 4 + 2P bytes.
    Buffer = 15,
}

/// Every refusal, in the order of the numbers.
const ALL: [Refusal; 15] = [
    Refusal::ShortSheet,
    Refusal::Version,
    Refusal::Boxes,
    Refusal::Links,
    Refusal::Back,
    Refusal::PairBox,
    Refusal::PairTurned,
    Refusal::PairOrder,
    Refusal::ListLength,
    Refusal::ListBox,
    Refusal::ListLink,
    Refusal::Room,
    Refusal::WireFull,
    Refusal::Table,
    Refusal::Buffer,
];

impl Refusal {
    /// The number of document 01, 1 to 15.
    ///
    /// ```
    /// assert_eq!(derowlas::read(&[]).unwrap_err().number(), 1);
    /// assert_eq!(derowlas::Refusal::Buffer.number(), 15);
    /// ```
    pub fn number(self) -> u32 {
        self as u32
    }

    /// The refusal of this number, if there is one.
    ///
    /// ```
    /// use derowlas::Refusal;
    ///
    /// assert_eq!(Refusal::from_number(14), Some(Refusal::Table));
    /// assert_eq!(Refusal::from_number(0), None);
    /// ```
    pub fn from_number(number: u32) -> Option<Refusal> {
        ALL.into_iter().find(|refusal| refusal.number() == number)
    }

    /// What an operator is told.
    fn reason(self) -> &'static str {
        match self {
            Refusal::ShortSheet => "the sheet has fewer than 4 bytes",
            Refusal::Version => "the sheet is of a version that the hub does not know",
            Refusal::Boxes => "a hub has 1 to 16 boxes",
            Refusal::Links => "the sheet says that it has more than 120 links",
            Refusal::Back => "the sheet does not say rightly where its links begin",
            Refusal::PairBox => "a link of the sheet names a box that the hub does not have",
            Refusal::PairTurned => "a link of the sheet does not name its lower box first",
            Refusal::PairOrder => "a link stands out of order on the sheet, or twice",
            Refusal::ListLength => {
                "the list of deliveries is of odd length, or longer than 60,000 bytes"
            }
            Refusal::ListBox => {
                "the list, or the set of boxes to start, names a box that the hub does not have"
            }
            Refusal::ListLink => "the list names two boxes that no link joins",
            Refusal::Room => {
                "the board is too short for its boxes, or the table is not of 16 words"
            }
            Refusal::WireFull => "more than 20 messages would wait on one wire",
            Refusal::Table => {
                "the table is not of 16 words, has a link one way only or from a box to itself, or names a box that the hub does not have"
            }
            Refusal::Buffer => "the sheet is longer than the buffer that it is to be written to",
        }
    }
}

/// The number, and a sentence for the operator.
///
/// ```
/// assert_eq!(
///     derowlas::Refusal::Boxes.to_string(),
///     "refused 3: a hub has 1 to 16 boxes",
/// );
/// ```
impl fmt::Display for Refusal {
    fn fmt(&self, f: &mut fmt::Formatter<'_>) -> fmt::Result {
        write!(f, "refused {}: {}", self.number(), self.reason())
    }
}

/// A refusal can be handed on with `?`.
///
/// ```
/// fn planned(sheet: &[u8]) -> Result<u32, Box<dyn std::error::Error>> {
///     Ok(derowlas::allowance(sheet)?)
/// }
/// assert!(planned(&[]).is_err());
/// ```
impl Error for Refusal {}

#[cfg(test)]
mod tests {
    use super::*;

    #[test]
    fn numbers_in_order() {
        for (number, refusal) in (1..).zip(ALL) {
            assert_eq!(refusal.number(), number);
            assert_eq!(Refusal::from_number(number), Some(refusal));
        }
        assert_eq!(Refusal::from_number(0), None);
        assert_eq!(Refusal::from_number(16), None);
    }

    /// One line for each, that begins with its number, and none like another.
    #[test]
    fn sentences() {
        for (place, refusal) in ALL.into_iter().enumerate() {
            let said = refusal.to_string();
            assert!(said.starts_with(&format!("refused {}: ", refusal.number())));
            assert!(!said.contains('\n') && !said.ends_with('.'));
            assert!(
                ALL[..place]
                    .iter()
                    .all(|other| other.reason() != refusal.reason())
            );
        }
    }
}
