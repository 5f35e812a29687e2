//! What the sheet alone fixes: document 01, "The tables at rest" and the sums
//! of "Lists and the drain", found by plain breadth-first search.  Nothing here
//! runs a hub, so that a hub can be compared with it.

use std::collections::VecDeque;

use crate::BLOCK;
use crate::hub::State;
use crate::message::Message;
use crate::sets::ones;
use crate::sheet::Sheet;

/// The hops, groups and choices of one sheet.
#[derive(Clone, Debug)]
pub struct Rest {
    sheet: Sheet,
    /// By box, then by origin; `None` outside the group.
    hops: [[Option<usize>; 16]; 16],
}

impl Rest {
    pub fn new(sheet: &Sheet) -> Rest {
        let mut hops = [[None; 16]; 16];
        for (here, row) in hops.iter_mut().enumerate().take(sheet.boxes) {
            *row = search(&sheet.table, here);
        }
        Rest {
            sheet: *sheet,
            hops,
        }
    }

    pub fn sheet(&self) -> &Sheet {
        &self.sheet
    }

    /// The least number of links on any walk from `i` to `k`, if there is one.
    pub fn hops(&self, i: usize, k: usize) -> Option<usize> {
        self.hops[i][k]
    }

    /// All the boxes that links lead to from `i`, itself included.
    pub fn group(&self, i: usize) -> u16 {
        self.those(|k| self.hops[i][k].is_some())
    }

    /// Hops to the farthest group member of `i`.
    pub fn e(&self, i: usize) -> usize {
        self.hops[i].iter().flatten().copied().max().unwrap_or(0)
    }

    /// The boxes at `d` hops from `i`.
    pub fn ring(&self, i: usize, d: usize) -> u16 {
        self.those(|k| self.hops[i][k] == Some(d))
    }

    /// The link over which `i` takes origin `k`: the lowest-numbered neighbour
    /// one hop nearer to `k`.  None for `i` itself and outside the group.
    pub fn takes_from(&self, i: usize, k: usize) -> Option<usize> {
        let nearer = self.hops[i][k]?.checked_sub(1)?;
        ones(self.sheet.table[i]).find(|&j| self.hops[j][k] == Some(nearer))
    }

    /// The origins that `i` takes from `j`.
    pub fn in_spt(&self, i: usize, j: usize) -> u16 {
        self.those(|k| self.takes_from(i, k) == Some(j))
    }

    /// The group without the origins that `j` takes from `i`; zero for a `j`
    /// that is no neighbour.
    pub fn not_spt(&self, i: usize, j: usize) -> u16 {
        if self.sheet.table[i] >> j & 1 == 0 {
            return 0;
        }
        self.group(i) & !self.in_spt(j, i)
    }

    /// The HOP at which `i` stops.
    pub fn hop(&self, i: usize) -> usize {
        if self.sheet.table[i] == 0 {
            0
        } else {
            self.e(i) + 2
        }
    }

    /// The block of a stopped box on the board.
    pub fn block(&self, i: usize) -> [u16; BLOCK] {
        let mut block = [0; BLOCK];
        block[0] = State::Stopped as u16;
        block[1] = self.hop(i) as u16;
        for n in 0..16 {
            block[2 + n] = self.ring(i, n);
            block[18 + n] = self.in_spt(i, n);
            block[34 + n] = self.not_spt(i, n);
            if self.hops[i][n].is_some() {
                block[50 + n] = self.sheet.table[n];
            }
        }
        block
    }

    /// Set number `r` that `i` sends to its neighbour `j`: the boxes at `r`
    /// hops without those that `i` takes from `j`.
    pub fn set(&self, i: usize, j: usize, r: usize) -> u16 {
        self.ring(i, r) & !self.in_spt(i, j)
    }

    /// All messages that `i` sends to `j` until rest, in their order; none if
    /// there is no such wire.  Set 0 goes out at the start.  Round h sends the
    /// lists of those at h-1 hops that `j` takes from `i`, and then set h+1.
    /// The last round is round e+1.
    pub fn wire(&self, i: usize, j: usize) -> Vec<Message> {
        let mut sent = Vec::new();
        if self.sheet.table[i] >> j & 1 == 0 {
            return sent;
        }
        sent.push(Message::not_spt(self.set(i, j, 0)));
        for h in 0..=self.e(i) + 1 {
            if h >= 1 {
                for k in ones(self.ring(i, h - 1) & self.in_spt(j, i)) {
                    sent.push(Message::neighbors(k, self.sheet.table[k]));
                }
            }
            sent.push(Message::not_spt(self.set(i, j, h + 1)));
        }
        sent
    }

    /// The groups that the boxes of a start set are in, as one set.
    pub fn started(&self, starts: u16) -> u16 {
        ones(starts).fold(0, |all, b| all | self.group(b))
    }

    /// The messages sent when none is under way: over the groups of the start
    /// set, the sum over wires of (e of the sender + 3), plus n(n-1) a group.
    pub fn sent(&self, starts: u16) -> u32 {
        ones(self.started(starts))
            .map(|i| {
                let wires = self.sheet.table[i].count_ones();
                let others = self.group(i).count_ones() - 1;
                // n boxes with n-1 others each make the group's n(n-1).
                wires * (self.e(i) as u32 + 3) + others
            })
            .sum()
    }

    /// A budget that always finishes: E(N+2) + N(N-1).
    pub fn budget(&self) -> u32 {
        let (e, n) = (self.sheet.wires(), self.sheet.boxes);
        (e * (n + 2) + n * (n - 1)) as u32
    }

    /// The boxes for which `holds` is true.
    fn those(&self, holds: impl Fn(usize) -> bool) -> u16 {
        (0..self.sheet.boxes)
            .filter(|&k| holds(k))
            .fold(0, |set, k| set | 1 << k)
    }
}

/// Breadth-first search from one box.
fn search(table: &[u16; 16], from: usize) -> [Option<usize>; 16] {
    let mut hops = [None; 16];
    hops[from] = Some(0);
    let mut waiting = VecDeque::from([(from, 0)]);
    while let Some((here, d)) = waiting.pop_front() {
        for next in ones(table[here]) {
            if hops[next].is_none() {
                hops[next] = Some(d + 1);
                waiting.push_back((next, d + 1));
            }
        }
    }
    hops
}
