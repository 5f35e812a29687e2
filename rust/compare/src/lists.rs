//! Lists of deliveries to try.
//!
//! A list of any pairs soon reads empty wires only.  These are made by running
//! a hub of the independent program beside, so that they mostly do something.

use independent::{Hub, Message, Observer};

use crate::Chance;

/// The wires that hold a message, and how many each holds.
struct Waiting {
    held: [[u8; 16]; 16],
    wires: Vec<(usize, usize)>,
}

impl Observer for Waiting {
    fn sent(&mut self, from: usize, to: usize, _: Message) {
        self.held[from][to] += 1;
        if self.held[from][to] == 1 {
            self.wires.push((from, to));
        }
    }

    fn moved(&mut self, from: usize, to: usize, _: Message) {
        self.held[from][to] -= 1;
        if self.held[from][to] == 0 {
            self.wires.retain(|&wire| wire != (from, to));
        }
    }
}

/// Which of the waiting messages is delivered next.
#[derive(Clone, Copy)]
enum Order {
    /// Any.
    Any,
    /// That of the wire that has waited longest.
    Oldest,
    /// That of the wire that began to wait last: the others fill up.
    Newest,
    /// Any but to one box, as long as there is another: what goes to that box
    /// waits on its wires.
    Held(usize),
    /// Any but from one box: all others wait for it in their queues.
    Late(usize),
}

impl Order {
    fn by_chance(boxes: usize, chance: &mut Chance) -> Order {
        match chance.below(6) {
            0 | 1 => Order::Any,
            2 => Order::Oldest,
            3 => Order::Newest,
            4 => Order::Held(chance.below(boxes)),
            _ => Order::Late(chance.below(boxes)),
        }
    }

    /// One of the wires, of which there is at least one.
    fn choose(self, wires: &[(usize, usize)], chance: &mut Chance) -> (usize, usize) {
        let from = chance.below(wires.len());
        let any = || wires[from..].iter().chain(&wires[..from]);
        let found = match self {
            Order::Any => None,
            Order::Oldest => wires.first(),
            Order::Newest => wires.last(),
            Order::Held(b) => any().find(|wire| wire.1 != b),
            Order::Late(a) => any().find(|wire| wire.0 != a),
        };
        *found.unwrap_or(&wires[from])
    }
}

/// A list for a sheet that is accepted: some boxes are started, first or among
/// the deliveries, and messages delivered until none is under way.  Some lists
/// also start boxes that are not asleep, and read wires that are empty.
pub fn to_the_end(sheet: &[u8], chance: &mut Chance) -> Vec<u8> {
    let sheet = independent::parse(sheet).expect("an accepted sheet");
    let waiting = Waiting {
        held: [[0; 16]; 16],
        wires: Vec::new(),
    };
    let mut hub = Hub::watched(&sheet, waiting);
    let order = Order::by_chance(sheet.boxes, chance);
    let idle = chance.one_in(3);
    let mut starts: Vec<usize> = (0..1 + chance.below(sheet.boxes))
        .map(|_| chance.below(sheet.boxes))
        .collect();
    if !idle {
        starts.dedup();
    }
    let mut list = Vec::new();
    loop {
        let pair = match starts.last() {
            Some(&b) if hub.observer().wires.is_empty() || chance.one_in(4) => {
                starts.pop();
                (b, b)
            }
            None if hub.observer().wires.is_empty() => break,
            _ if idle && chance.one_in(8) => any_pair(&sheet, chance),
            _ => order.choose(&hub.observer().wires, chance),
        };
        list.extend([pair.0 as u8, pair.1 as u8]);
        let done = if pair.0 == pair.1 {
            hub.start(pair.0)
        } else {
            hub.deliver(pair.0, pair.1)
        };
        done.expect("room on every wire");
    }
    list
}

/// A start, or a delivery over a link of the sheet, whatever waits there.
fn any_pair(sheet: &independent::Sheet, chance: &mut Chance) -> (usize, usize) {
    let (a, b) = (chance.below(sheet.boxes), chance.below(sheet.boxes));
    if sheet.table[a] >> b & 1 == 1 {
        (a, b)
    } else {
        (a, a)
    }
}

/// Any pairs that a sheet accepts, as many as are asked for.
pub fn any(sheet: &[u8], pairs: usize, chance: &mut Chance) -> Vec<u8> {
    let sheet = independent::parse(sheet).expect("an accepted sheet");
    (0..pairs)
        .map(|_| any_pair(&sheet, chance))
        .flat_map(|(a, b)| [a as u8, b as u8])
        .collect()
}

/// Damages a list in one of the ways that lists go wrong.  Some leave it a list
/// that is accepted.
pub fn damage(mut list: Vec<u8>, chance: &mut Chance) -> Vec<u8> {
    let here = chance.below(list.len().max(1));
    match chance.below(8) {
        0 => list.push(chance.below(16) as u8),
        1 => list.truncate(here),
        2 | 3 if !list.is_empty() => list[here] = chance.byte(),
        // Of N or above, or two boxes that no link joins.
        4 | 5 if !list.is_empty() => list[here] = chance.below(16) as u8,
        6 if list.len() > 2 => list.swap(here, 0),
        7 if chance.one_in(32) => list.resize(derowlas::LIST_BYTES + chance.below(4), 0),
        _ => {}
    }
    list
}
