//! Memory to lend to a call.

/// The guards on each side of lent memory.
const AROUND: usize = 8;

/// Lent memory, filled with junk, that lies in a larger piece, filled with
/// junk too.  Two of them are equal where all of that is.
#[derive(Clone, Debug, PartialEq, Eq)]
pub struct Lent<T> {
    whole: Vec<T>,
}

impl<T> Lent<T> {
    pub fn junk(length: usize, mut junk: impl FnMut() -> T) -> Lent<T> {
        let whole = (0..AROUND + length + AROUND).map(|_| junk()).collect();
        Lent { whole }
    }

    /// What is lent.
    pub fn lend(&mut self) -> &mut [T] {
        let end = self.whole.len() - AROUND;
        &mut self.whole[AROUND..end]
    }
}
