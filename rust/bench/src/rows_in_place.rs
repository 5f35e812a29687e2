//! The row of records, each rewritten where it lies: what crates/rows does
//! without the step by value that document 01 asks for, to measure what that
//! form costs.  What has come and what goes out are structs as before.

use super::boxes::{Arrival, Departure, Record, Sent, State, started};

/// The members of a set, ascending.
fn each(mut set: u16, mut act: impl FnMut(usize)) {
    while set != 0 {
        act(set.trailing_zeros() as usize);
        set &= set - 1;
    }
}

fn round(r: &mut Record, links: u16, heads: [u16; 16]) -> Sent {
    let hop = r.hop as usize;
    let mut known = r.in_spt.iter().fold(0, |all, set| all | set);
    let mut gained = 0;
    each(links, |j| {
        let new = heads[j] & !known;
        known |= new;
        gained |= new;
        r.in_spt[j] |= new;
        r.not_spt[j] |= heads[j];
    });
    if let Some(next) = r.nodes.get_mut(hop + 1) {
        *next |= gained;
    }
    let of = |d: usize| r.nodes.get(d).copied().unwrap_or(0);
    let (here, next) = (of(hop), of(hop + 1));
    let before = if hop == 0 { 0 } else { of(hop - 1) };
    let mut sent = Sent {
        origins: [0; 16],
        sets: [0; 16],
    };
    each(links, |j| {
        sent.sets[j] = next & !r.in_spt[j];
        sent.origins[j] = before & !r.not_spt[j];
    });
    r.hop = r.hop.saturating_add(1);
    r.state = u16::from(if here == 0 {
        State::Stopped
    } else {
        State::Awake
    });
    sent
}

pub fn deliver_at(row: &mut [Record], b: usize, a: Arrival) -> Departure {
    let r = &mut row[b];
    if a.wakes {
        *r = started(a.own, a.links);
    }
    let round = a.heads.map(|heads| round(r, a.links, heads));
    let neighbors = r.neighbors;
    let stops = r.state == u16::from(State::Stopped);
    if !stops {
        each(a.listed, |k| r.neighbors[k] = a.lists[k]);
    }
    Departure {
        own: a.own,
        from: a.from,
        heard: a.heard,
        neighbors,
        round,
        moved: a.moved,
        wakes: a.wakes,
        stops,
    }
}
