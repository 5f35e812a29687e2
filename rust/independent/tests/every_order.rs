//! Every delivery order of every sheet of up to three boxes, with starts at
//! any moment: all states that can be reached, each seen once and compared
//! whole.

mod common;

use std::collections::HashSet;

use common::{Expected, Watched, check_moment, check_rest, mesh, sheet_bytes, watched};
use independent::{BLOCK, State};

/// Everything in a state: the board, each wire and queue, what was sent, moved
/// and taken on each wire, what was handed, and which boxes were started by
/// the caller.
fn whole(hub: &Watched, starts: u16) -> Vec<u32> {
    let watch = hub.observer();
    let mut board = vec![0; hub.boxes() * BLOCK];
    hub.write_board(&mut board);
    let mut key: Vec<u32> = board.into_iter().map(u32::from).collect();
    for &(a, b) in &watch.expected.wires {
        key.push(hub.in_queue(a, b).count() as u32);
        key.extend(hub.in_queue(a, b).map(|m| m.word()));
        key.push(hub.on_wire(a, b).count() as u32);
        key.extend(hub.on_wire(a, b).map(|m| m.word()));
        key.extend([&watch.sent, &watch.moved, &watch.taken].map(|n| u32::from(n[a][b])));
    }
    key.extend(watch.handed.map(u32::from));
    key.push(u32::from(starts));
    key
}

/// Answers how many states there are, and in how many none is under way.
fn explore(expected: &Expected) -> (usize, usize) {
    let mut seen = HashSet::new();
    let mut at_rest = 0;
    let mut open = vec![(Box::new(watched(expected)), 0)];
    while let Some((hub, starts)) = open.pop() {
        if !seen.insert(whole(&hub, starts)) {
            continue;
        }
        check_moment(&hub);
        if hub.counts().under_way == 0 {
            check_rest(&hub, starts);
            at_rest += 1;
        }
        for b in 0..hub.boxes() {
            if starts >> b & 1 == 0 {
                let mut next = hub.clone();
                let asleep = hub.state(b) == State::Asleep;
                assert_eq!(next.start(b), Ok(asleep));
                open.push((next, starts | 1 << b));
            }
        }
        for &(a, b) in &expected.wires {
            let mut next = hub.clone();
            let held = hub.on_wire(a, b).next().is_some();
            assert_eq!(next.deliver(a, b), Ok(held));
            if held {
                open.push((next, starts));
            } else {
                assert_eq!(whole(&next, starts), whole(&hub, starts));
            }
        }
    }
    (seen.len(), at_rest)
}

#[test]
fn every_order_up_to_three_boxes() {
    let mut sheets = 0;
    for boxes in 1..=3 {
        let pairs = mesh(boxes);
        for chosen in 0..1 << pairs.len() {
            let mut links = pairs.clone();
            let mut place = 0;
            links.retain(|_| {
                place += 1;
                chosen >> (place - 1) & 1 != 0
            });
            let expected = Expected::new(&sheet_bytes(boxes, &links));
            let (states, at_rest) = explore(&expected);
            // Rest is one state for each start set, whatever the order.
            assert_eq!(at_rest, 1 << boxes);
            println!("boxes {boxes} links {links:?}: {states} states");
            sheets += 1;
        }
    }
    assert_eq!(sheets, 1 + 2 + 8);
}
