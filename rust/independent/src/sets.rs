//! Sets of boxes: 16-bit numbers in which box k has the value 2^k.

/// The boxes of a set, ascending.
pub fn ones(set: u16) -> Ones {
    Ones(set)
}

/// The set of boxes 0 to `boxes` - 1, for at most 16 boxes.
pub fn all_below(boxes: usize) -> u16 {
    ((1u32 << boxes) - 1) as u16
}

/// See [`ones`].
#[derive(Clone, Copy)]
pub struct Ones(u16);

impl Iterator for Ones {
    type Item = usize;

    #[inline(always)]
    fn next(&mut self) -> Option<usize> {
        if self.0 == 0 {
            return None;
        }
        // A non-empty set has at most 15 trailing zeros; the mask says so to
        // the compiler, which then needs no bounds check on 16-word tables.
        let lowest = (self.0.trailing_zeros() & 15) as usize;
        self.0 &= self.0 - 1;
        Some(lowest)
    }
}

#[cfg(test)]
mod tests {
    use super::*;

    #[test]
    fn ones_ascend() {
        assert_eq!(ones(0).collect::<Vec<_>>(), []);
        assert_eq!(
            ones(0b1000_0000_0010_1001).collect::<Vec<_>>(),
            [0, 3, 5, 15]
        );
        assert_eq!(ones(u16::MAX).count(), 16);
    }

    #[test]
    fn ranges() {
        assert_eq!(all_below(0), 0);
        assert_eq!(all_below(1), 1);
        assert_eq!(all_below(3), 7);
        assert_eq!(all_below(16), u16::MAX);
    }
}
