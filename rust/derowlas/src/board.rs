//! The parts of a board by name: document 01, "The tables at rest".

use crate::{BLOCK_WORDS, BOXES};

/// How far a box is, the first word of its block.
///
/// ```
/// use derowlas::{BLOCK_WORDS, Board, State, run};
///
/// // The line 0-1-2, in which box 0 is started.
/// let mut board = [0; 3 * BLOCK_WORDS];
/// run(&[0, 1, 1, 2, 8, 2, 3, 1], &[0, 0], &mut board)?;
/// assert_eq!(Board::new(&board).state(0), Some(State::Awake));
/// assert_eq!(Board::new(&board).state(1), Some(State::Asleep));
/// # Ok::<(), derowlas::Refusal>(())
/// ```
#[derive(Clone, Copy, Debug, PartialEq, Eq, Hash)]
#[repr(u16)]
pub enum State {
    /// Not started: the rest of its block is zero.
    Asleep = 0,
    /// Started, and not through.
    Awake = 1,
    /// Through: its tables are at rest.
    Stopped = 2,
}

/// Where a box's block has its parts.
const STATE: usize = 0;
const HOP: usize = 1;
const NODES: usize = 2;
const IN_SPT: usize = NODES + BOXES;
const NOT_SPT: usize = IN_SPT + BOXES;
const NEIGHBORS: usize = NOT_SPT + BOXES;

/// A board that [`run`](crate::run) or [`drain`](crate::drain) wrote, read by
/// the names of its parts.
///
/// A box that the board has no block for has no state and no HOP, and all its
/// sets are empty.  A stopped box knows all that is asked here; an awake one
/// answers with what it knows so far, and a sleeping one knows nothing.
///
/// ```
/// use derowlas::{BLOCK_WORDS, BUDGET, Board, State, drain};
///
/// // The line 0-1-2.
/// let mut words = [0; 3 * BLOCK_WORDS];
/// drain(&[0, 1, 1, 2, 8, 2, 3, 1], 0b111, BUDGET, &mut words)?;
/// let board = Board::new(&words);
///
/// assert_eq!((board.state(1), board.hop(1)), (Some(State::Stopped), Some(3)));
/// assert_eq!((board.nodes(1, 0), board.nodes(1, 1)), (0b010, 0b101));
/// assert_eq!((board.origins(1, 0), board.origins(1, 2)), (0b001, 0b100));
/// assert_eq!((board.not_taken(1, 0), board.not_taken(1, 2)), (0b001, 0b100));
/// assert_eq!([0, 1, 2].map(|k| board.neighbors(1, k)), [0b010, 0b101, 0b010]);
///
/// // What box 2 has of box 0 comes over two links, the last of them from box 1.
/// assert_eq!((board.hops(2, 0), board.incoming(2, 0)), (Some(2), Some(1)));
/// # Ok::<(), derowlas::Refusal>(())
/// ```
#[derive(Clone, Copy, Debug)]
pub struct Board<'a> {
    words: &'a [u16],
}

impl<'a> Board<'a> {
    /// The board in these words: box i has the i-th [`BLOCK_WORDS`] of them.
    ///
    /// A call leaves what is past the hub's boxes as it was.  Where more words
    /// were lent, hand over the first `BLOCK_WORDS * N` alone, and the boxes
    /// from N on are boxes that the board does not have.
    ///
    /// ```
    /// use derowlas::{BLOCK_WORDS, Board, run};
    ///
    /// let mut words = [7; 2 * BLOCK_WORDS];
    /// run(&[4, 0, 1, 1], &[], &mut words)?; // one box, asleep
    /// let board = Board::new(&words[..BLOCK_WORDS]);
    /// assert_eq!((board.hop(0), board.hop(1)), (Some(0), None));
    /// # Ok::<(), derowlas::Refusal>(())
    /// ```
    pub fn new(words: &'a [u16]) -> Board<'a> {
        Board { words }
    }

    /// How many boxes have a whole block, at most 16.
    ///
    /// ```
    /// use derowlas::{BLOCK_WORDS, BOARD_WORDS, Board};
    ///
    /// assert_eq!(Board::new(&[0; 3 * BLOCK_WORDS]).boxes(), 3);
    /// assert_eq!(Board::new(&[0; 3 * BLOCK_WORDS - 1]).boxes(), 2);
    /// assert_eq!(Board::new(&[0; 2 * BOARD_WORDS]).boxes(), 16);
    /// ```
    pub fn boxes(self) -> usize {
        (self.words.len() / BLOCK_WORDS).min(BOXES)
    }

    /// The block of box i, if there is one.
    fn block(self, i: usize) -> Option<&'a [u16]> {
        self.words.chunks_exact(BLOCK_WORDS).take(BOXES).nth(i)
    }

    /// Word `at` of a table of box i, which begins at `table`.  A table has no
    /// more words than there may be boxes.
    fn set(self, i: usize, table: usize, at: usize) -> u16 {
        match self.block(i) {
            Some(block) if at < BOXES => block[table + at],
            _ => 0,
        }
    }

    /// The state of box i.  None also for a word that stands for no state,
    /// which the calls don't write.
    ///
    /// ```
    /// use derowlas::{BLOCK_WORDS, Board, State, drain};
    ///
    /// // A box without links has nobody to wait for.
    /// let mut words = [7; BLOCK_WORDS];
    /// assert_eq!(Board::new(&words).state(0), None);
    /// drain(&[4, 0, 1, 1], 0b1, 0, &mut words)?;
    /// assert_eq!(Board::new(&words).state(0), Some(State::Stopped));
    /// # Ok::<(), derowlas::Refusal>(())
    /// ```
    pub fn state(self, i: usize) -> Option<State> {
        let states = [State::Asleep, State::Awake, State::Stopped];
        let word = self.block(i)?[STATE];
        states.into_iter().find(|&state| state as u16 == word)
    }

    /// HOP of box i: the rounds that it has done, at most 17.
    ///
    /// ```
    /// use derowlas::{BLOCK_WORDS, BUDGET, Board, drain};
    ///
    /// // The line 0-1-2.
    /// let mut words = [0; 3 * BLOCK_WORDS];
    /// drain(&[0, 1, 1, 2, 8, 2, 3, 1], 0b111, BUDGET, &mut words)?;
    /// let board = Board::new(&words);
    /// assert_eq!([0, 1, 2, 3].map(|i| board.hop(i)), [Some(4), Some(3), Some(4), None]);
    /// # Ok::<(), derowlas::Refusal>(())
    /// ```
    pub fn hop(self, i: usize) -> Option<u16> {
        Some(self.block(i)?[HOP])
    }

    /// Nodes(d) of box i: the set of the boxes at d hops from it.
    ///
    /// ```
    /// use derowlas::{BLOCK_WORDS, BUDGET, Board, drain};
    ///
    /// // The line 0-1-2.
    /// let mut words = [0; 3 * BLOCK_WORDS];
    /// drain(&[0, 1, 1, 2, 8, 2, 3, 1], 0b111, BUDGET, &mut words)?;
    /// let board = Board::new(&words);
    /// assert_eq!([0, 1, 2, 3].map(|d| board.nodes(0, d)), [0b001, 0b010, 0b100, 0]);
    /// assert_eq!((board.nodes(0, 1000), board.nodes(1000, 0)), (0, 0));
    /// # Ok::<(), derowlas::Refusal>(())
    /// ```
    pub fn nodes(self, i: usize, d: usize) -> u16 {
        self.set(i, NODES, d)
    }

    /// The hops from box i to box k, by the tables of box i.  None where box i
    /// knows of no way, as of a box of another group.
    ///
    /// ```
    /// use derowlas::{BLOCK_WORDS, BUDGET, Board, drain};
    ///
    /// // The link 0-1, and box 2 alone.
    /// let mut words = [0; 3 * BLOCK_WORDS];
    /// drain(&[0, 1, 6, 1, 3, 1], 0b111, BUDGET, &mut words)?;
    /// let board = Board::new(&words);
    /// assert_eq!([0, 1, 2].map(|k| board.hops(0, k)), [Some(0), Some(1), None]);
    /// # Ok::<(), derowlas::Refusal>(())
    /// ```
    pub fn hops(self, i: usize, k: usize) -> Option<usize> {
        (0..BOXES).find(|&d| has(self.nodes(i, d), k))
    }

    /// In_SPT(j) of box i: the set of the origins whose lists box i takes over
    /// its link from box j.
    ///
    /// ```
    /// use derowlas::{BLOCK_WORDS, BUDGET, Board, drain};
    ///
    /// // The ring 0-1, 0-2, 1-3, 2-3: box 3 comes to box 0 over box 1.
    /// let mut words = [0; 4 * BLOCK_WORDS];
    /// drain(&[0, 1, 0, 2, 1, 3, 2, 3, 12, 4, 4, 1], 0b1111, BUDGET, &mut words)?;
    /// let board = Board::new(&words);
    /// assert_eq!((board.origins(0, 1), board.origins(0, 2)), (0b1010, 0b0100));
    /// # Ok::<(), derowlas::Refusal>(())
    /// ```
    pub fn origins(self, i: usize, j: usize) -> u16 {
        self.set(i, IN_SPT, j)
    }

    /// The neighbour from which box i takes what comes from an origin.  None
    /// for box i itself, and where it knows of no way.
    ///
    /// ```
    /// use derowlas::{BLOCK_WORDS, BUDGET, Board, drain};
    ///
    /// // The ring 0-1, 0-2, 1-3, 2-3.
    /// let mut words = [0; 4 * BLOCK_WORDS];
    /// drain(&[0, 1, 0, 2, 1, 3, 2, 3, 12, 4, 4, 1], 0b1111, BUDGET, &mut words)?;
    /// let board = Board::new(&words);
    /// let over = [0, 1, 2, 3].map(|origin| board.incoming(0, origin));
    /// assert_eq!(over, [None, Some(1), Some(2), Some(1)]);
    /// # Ok::<(), derowlas::Refusal>(())
    /// ```
    pub fn incoming(self, i: usize, origin: usize) -> Option<usize> {
        (0..BOXES).find(|&j| has(self.origins(i, j), origin))
    }

    /// Not_SPT(j) of box i: the set of the origins that box j has told box i
    /// of, and so does not take from it.
    ///
    /// ```
    /// use derowlas::{BLOCK_WORDS, BUDGET, Board, drain};
    ///
    /// // The ring 0-1, 0-2, 1-3, 2-3: box 3 comes to neither neighbour over box 0.
    /// let mut words = [0; 4 * BLOCK_WORDS];
    /// drain(&[0, 1, 0, 2, 1, 3, 2, 3, 12, 4, 4, 1], 0b1111, BUDGET, &mut words)?;
    /// let board = Board::new(&words);
    /// assert_eq!((board.not_taken(0, 1), board.not_taken(0, 2)), (0b1010, 0b1100));
    /// # Ok::<(), derowlas::Refusal>(())
    /// ```
    pub fn not_taken(self, i: usize, j: usize) -> u16 {
        self.set(i, NOT_SPT, j)
    }

    /// Neighbors(k) at box i: the link set of box k, where box i knows it.
    ///
    /// Zero is also the link set of a box without links, so that zero alone
    /// does not mean unknown.
    ///
    /// ```
    /// use derowlas::{BLOCK_WORDS, BUDGET, Board, drain};
    ///
    /// // The line 0-1-2: box 0 has learnt the link of box 2.
    /// let mut words = [0; 3 * BLOCK_WORDS];
    /// drain(&[0, 1, 1, 2, 8, 2, 3, 1], 0b111, BUDGET, &mut words)?;
    /// assert_eq!(Board::new(&words).neighbors(0, 2), 0b010);
    /// # Ok::<(), derowlas::Refusal>(())
    /// ```
    pub fn neighbors(self, i: usize, k: usize) -> u16 {
        self.set(i, NEIGHBORS, k)
    }
}

/// Whether box k is in the set.
fn has(set: u16, k: usize) -> bool {
    k < BOXES && set >> k & 1 == 1
}

#[cfg(test)]
mod tests {
    use super::*;

    /// Every word of a block but its state, in document 01's order.
    #[test]
    fn every_word() {
        let words: Vec<u16> = (0..2 * BLOCK_WORDS as u16).collect();
        let board = Board::new(&words);
        let mut named = vec![board.hop(1).expect("a block")];
        let tables = [
            Board::nodes,
            Board::origins,
            Board::not_taken,
            Board::neighbors,
        ];
        for table in tables {
            named.extend((0..BOXES).map(|at| table(board, 1, at)));
        }
        assert_eq!(named, words[BLOCK_WORDS + HOP..]);
    }

    /// Whatever is asked of whatever words, nothing panics, and what is not
    /// there is none or empty.
    #[test]
    fn out_of_range() {
        let far = [
            0,
            1,
            15,
            16,
            17,
            65,
            66,
            1 << 16,
            usize::MAX / 66,
            usize::MAX,
        ];
        for words in [0, 1, 65, 66, 131, 132, 1055, 1056, 1057, 3000] {
            let words = vec![0xffff; words];
            let board = Board::new(&words);
            for i in far {
                let there = i < board.boxes();
                assert_eq!(board.state(i), None);
                assert_eq!(board.hop(i), there.then_some(0xffff));
                for at in far {
                    let set = if there && at < BOXES { 0xffff } else { 0 };
                    assert_eq!(board.nodes(i, at), set);
                    assert_eq!(board.origins(i, at), set);
                    assert_eq!(board.not_taken(i, at), set);
                    assert_eq!(board.neighbors(i, at), set);
                    let first = (set != 0).then_some(0);
                    assert_eq!(board.hops(i, at), first);
                    assert_eq!(board.incoming(i, at), first);
                }
            }
        }
    }
}
