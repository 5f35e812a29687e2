//! The two kinds of message that boxes send each other.

use std::fmt;

/// A message, packed in one word so that it is copied as cheaply as a number:
/// the set in the low 16 bits, the origin above it, then the kind.
#[derive(Clone, Copy, PartialEq, Eq, Hash, Default)]
pub struct Message(u32);

const LIST: u32 = 1 << 20;
const ORIGIN: u32 = 16;

impl Message {
    /// NOTSPT = set.
    #[inline(always)]
    pub const fn not_spt(set: u16) -> Message {
        Message(set as u32)
    }

    /// Neighbors(origin), with the origin's link list.
    #[inline(always)]
    pub const fn neighbors(origin: usize, list: u16) -> Message {
        Message(LIST | (origin as u32 & 15) << ORIGIN | list as u32)
    }

    /// Whether this is a Neighbors message.
    #[inline(always)]
    pub const fn is_list(self) -> bool {
        self.0 & LIST != 0
    }

    /// The set of a NOTSPT message or the link list of a Neighbors message.
    #[inline(always)]
    pub const fn set(self) -> u16 {
        self.0 as u16
    }

    /// The origin of a Neighbors message; 0 for NOTSPT, which has none.
    #[inline(always)]
    pub const fn origin(self) -> usize {
        (self.0 >> ORIGIN & 15) as usize
    }

    /// The whole message as a number; different messages have different ones.
    pub const fn word(self) -> u32 {
        self.0
    }
}

impl fmt::Debug for Message {
    fn fmt(&self, f: &mut fmt::Formatter<'_>) -> fmt::Result {
        if self.is_list() {
            write!(f, "Neighbors({})={:#06x}", self.origin(), self.set())
        } else {
            write!(f, "NOTSPT={:#06x}", self.set())
        }
    }
}

#[cfg(test)]
mod tests {
    use super::*;

    #[test]
    fn packing_loses_nothing() {
        for origin in 0..16 {
            for set in [0, 1, 0x8000, 0x5a5a, u16::MAX] {
                let list = Message::neighbors(origin, set);
                assert!(list.is_list());
                assert_eq!((list.origin(), list.set()), (origin, set));
                let sent = Message::not_spt(set);
                assert!(!sent.is_list());
                assert_eq!((sent.origin(), sent.set()), (0, set));
                assert_ne!(list, sent);
            }
        }
    }
}
