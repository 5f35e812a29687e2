//! What the tests share: sheets made by hand, a small generator of numbers,
//! and a hub that is watched at every moment.

#![allow(dead_code)] // each test program uses its own part

use independent::rest::Rest;
use independent::{BLOCK, Hub, Message, Observer, Sheet, State, ones, parse};

/// The bytes of a sheet, without the crate's own writer.
pub fn sheet_bytes(boxes: usize, links: &[(usize, usize)]) -> Vec<u8> {
    let mut pairs = links.to_vec();
    for pair in &mut pairs {
        *pair = (pair.0.min(pair.1), pair.0.max(pair.1));
    }
    pairs.sort();
    pairs.dedup();
    let mut bytes = Vec::new();
    for &(low, high) in &pairs {
        bytes.extend([low as u8, high as u8]);
    }
    let count = pairs.len();
    bytes.extend([4 + 2 * count as u8, count as u8, boxes as u8, 1]);
    bytes
}

/// Every pair of `boxes` boxes.
pub fn mesh(boxes: usize) -> Vec<(usize, usize)> {
    (0..boxes)
        .flat_map(|high| (0..high).map(move |low| (low, high)))
        .collect()
}

/// A small generator with a fixed seed (splitmix64).
pub struct Numbers(pub u64);

impl Numbers {
    pub fn word(&mut self) -> u64 {
        self.0 = self.0.wrapping_add(0x9e37_79b9_7f4a_7c15);
        let mut z = self.0;
        z = (z ^ z >> 30).wrapping_mul(0xbf58_476d_1ce4_e5b9);
        z = (z ^ z >> 27).wrapping_mul(0x94d0_49bb_1331_11eb);
        z ^ z >> 31
    }

    /// A number below `end`.
    pub fn below(&mut self, end: usize) -> usize {
        (((self.word() >> 32) * end as u64) >> 32) as usize
    }

    pub fn chance(&mut self, of_hundred: usize) -> bool {
        self.below(100) < of_hundred
    }

    pub fn shuffle<T>(&mut self, items: &mut [T]) {
        for last in (1..items.len()).rev() {
            items.swap(last, self.below(last + 1));
        }
    }
}

/// A random sheet: sparse, dense, even, line, ring, star, tree with some
/// more, several groups, or full mesh.
pub fn random_sheet(numbers: &mut Numbers, boxes: usize, kind: usize) -> Vec<u8> {
    let mut order: Vec<usize> = (0..boxes).collect();
    numbers.shuffle(&mut order);
    let mut links = Vec::new();
    match kind {
        0..=2 => {
            let share = [120 / boxes, 70, numbers.below(101)][kind];
            links = mesh(boxes);
            links.retain(|_| numbers.chance(share));
        }
        3 => links.extend(order.windows(2).map(|w| (w[0], w[1]))),
        4 => {
            links.extend(order.windows(2).map(|w| (w[0], w[1])));
            if boxes > 2 {
                links.push((order[0], order[boxes - 1]));
            }
        }
        5 => links.extend(order[1..].iter().map(|&leaf| (order[0], leaf))),
        6 => {
            for at in 1..boxes {
                links.push((order[at], order[numbers.below(at)]));
            }
            for pair in mesh(boxes) {
                if numbers.chance(5) {
                    links.push(pair);
                }
            }
        }
        7 => {
            let groups = 2 + numbers.below(3);
            let group: Vec<usize> = (0..boxes).map(|_| numbers.below(groups)).collect();
            let share = 20 + numbers.below(60);
            links = mesh(boxes);
            links.retain(|&(a, b)| group[a] == group[b] && numbers.chance(share));
        }
        _ => links = mesh(boxes),
    }
    sheet_bytes(boxes, &links)
}

/// What must be true of a sheet's hub, worked out once.
pub struct Expected {
    pub sheet: Sheet,
    pub rest: Rest,
    pub wires: Vec<(usize, usize)>,
    pub lists: Vec<Vec<Vec<Message>>>,
    pub blocks: Vec<[u16; BLOCK]>,
    pub groups: Vec<u16>,
}

impl Expected {
    pub fn new(bytes: &[u8]) -> Expected {
        let sheet = parse(bytes).expect("the sheet is sound");
        let rest = Rest::new(&sheet);
        let range = 0..sheet.boxes;
        let mut wires = Vec::new();
        for a in range.clone() {
            wires.extend(ones(sheet.table[a]).map(|b| (a, b)));
        }
        let row = |a| range.clone().map(|b| rest.wire(a, b)).collect();
        Expected {
            wires,
            lists: range.clone().map(row).collect(),
            blocks: range.clone().map(|i| rest.block(i)).collect(),
            groups: range.clone().map(|i| rest.group(i)).collect(),
            sheet,
            rest,
        }
    }
}

/// Compares what happens with what is expected, as it happens.
#[derive(Clone)]
pub struct Watch<'a> {
    pub expected: &'a Expected,
    pub sent: [[u8; 16]; 16],
    pub moved: [[u8; 16]; 16],
    pub taken: [[u8; 16]; 16],
    /// By receiver, the origins whose list was handed to it.
    pub handed: [u16; 16],
    pub dropped: u32,
}

impl<'a> Watch<'a> {
    pub fn new(expected: &'a Expected) -> Watch<'a> {
        Watch {
            expected,
            sent: [[0; 16]; 16],
            moved: [[0; 16]; 16],
            taken: [[0; 16]; 16],
            handed: [0; 16],
            dropped: 0,
        }
    }

    /// The next message of the wire by `counts`, which then counts it.
    fn next(
        expected: &Expected,
        counts: &mut [[u8; 16]; 16],
        from: usize,
        to: usize,
        message: Message,
    ) {
        let place = usize::from(counts[from][to]);
        let next = expected.lists[from][to].get(place);
        assert_eq!(next, Some(&message), "wire {from} to {to}, place {place}");
        counts[from][to] += 1;
    }
}

impl Observer for Watch<'_> {
    fn sent(&mut self, from: usize, to: usize, message: Message) {
        Watch::next(self.expected, &mut self.sent, from, to, message);
    }

    fn moved(&mut self, from: usize, to: usize, message: Message) {
        Watch::next(self.expected, &mut self.moved, from, to, message);
    }

    fn taken(&mut self, from: usize, to: usize, message: Message) {
        Watch::next(self.expected, &mut self.taken, from, to, message);
    }

    fn handed(&mut self, from: usize, to: usize, origin: usize, list: u16) {
        let expected = self.expected;
        assert_ne!(origin, to, "a box is handed its own list");
        assert!(expected.groups[to] >> origin & 1 != 0, "no member");
        assert!(self.handed[to] >> origin & 1 == 0, "handed twice");
        assert_eq!(list, expected.sheet.table[origin]);
        assert_eq!(expected.rest.takes_from(to, origin), Some(from));
        self.handed[to] |= 1 << origin;
    }

    fn dropped(&mut self, from: usize, to: usize, message: Message) {
        assert!(!message.is_list(), "a list is dropped at {to}");
        Watch::next(self.expected, &mut self.taken, from, to, message);
        self.dropped += 1;
    }
}

pub type Watched<'a> = Hub<Watch<'a>>;

pub fn watched(expected: &Expected) -> Watched<'_> {
    Hub::watched(&expected.sheet, Watch::new(expected))
}

/// What must be true at every moment, of every wire and every box.  That what
/// was sent is the beginning of the wire's list is checked as it is sent.
pub fn check_moment(hub: &Watched) {
    let watch = hub.observer();
    let expected = watch.expected;
    let (mut sent, mut moved, mut under_way) = (0, 0, 0);
    for &(a, b) in &expected.wires {
        let [s, m, t] = [&watch.sent, &watch.moved, &watch.taken].map(|n| usize::from(n[a][b]));
        assert!(t <= m && m <= s);
        // sent = taken ++ in the queue ++ on the wire
        let list = &expected.lists[a][b];
        assert!(hub.in_queue(a, b).eq(list[t..m].iter().copied()));
        assert!(hub.on_wire(a, b).eq(list[m..s].iter().copied()));
        let lists = list[t..s].iter().filter(|m| m.is_list()).count();
        assert!(s - t - lists <= 2, "NOTSPT messages wait");
        assert!(lists < expected.sheet.boxes, "Neighbors messages wait");
        sent += s as u32;
        moved += m as u32;
        under_way += (s - m) as u32;
    }
    let counts = hub.counts();
    assert_eq!(
        (counts.sent, counts.moved, counts.under_way),
        (sent, moved, under_way)
    );
    assert_eq!(sent, moved + under_way);
    let mut board = [0xa5a5; 16 * BLOCK + 1];
    hub.write_board(&mut board);
    let (blocks, past) = board.split_at(expected.sheet.boxes * BLOCK);
    assert!(past.iter().all(|&word| word == 0xa5a5));
    for (i, block) in blocks.chunks_exact(BLOCK).enumerate() {
        check_block(hub, i, block);
    }
}

/// A sleeping box is all zero, a stopped one is at rest, and an awake one is
/// as far as its HOP says.
fn check_block(hub: &Watched, i: usize, block: &[u16]) {
    let watch = hub.observer();
    let expected = watch.expected;
    let state = hub.state(i);
    assert_eq!(block[0], state as u16);
    match state {
        State::Asleep => {
            assert!(block.iter().all(|&word| word == 0));
            assert!(
                expected
                    .wires
                    .iter()
                    .all(|&(a, b)| a != i || watch.sent[a][b] == 0)
            );
        }
        State::Stopped => {
            assert_eq!(block, expected.blocks[i]);
            assert_eq!(watch.handed[i], expected.groups[i] & !(1 << i));
            for j in ones(expected.sheet.table[i]) {
                assert_eq!(hub.in_queue(j, i).count(), 0);
            }
        }
        State::Awake => check_awake(hub, i, block),
    }
}

fn check_awake(hub: &Watched, i: usize, block: &[u16]) {
    let watch = hub.observer();
    let expected = watch.expected;
    let (rest, table) = (&expected.rest, &expected.sheet.table);
    let hop = usize::from(block[1]);
    assert!(hop < rest.hop(i), "a box at its last HOP stops");
    let mut near = 0;
    for d in 0..16 {
        let ring = if d <= hop {
            expected.blocks[i][2 + d]
        } else {
            0
        };
        near |= ring;
        assert_eq!(block[2 + d], ring, "Nodes({d})");
    }
    let mut ready = 0;
    for j in 0..16 {
        let mut heard = 0;
        if table[i] >> j & 1 != 0 {
            let sets = |s: u8| {
                let list = &expected.lists[j][i][..usize::from(s)];
                list.iter().filter(|m| !m.is_list())
            };
            assert_eq!(sets(watch.taken[j][i]).count(), hop);
            heard = sets(watch.taken[j][i]).fold(0, |all, m| all | m.set());
            let head = hub.in_queue(j, i).next();
            assert!(head.is_none_or(|m| !m.is_list()), "a list at a head");
            ready += head.is_some() as u32;
        }
        assert_eq!(
            block[18 + j],
            expected.blocks[i][18 + j] & near,
            "In_SPT({j})"
        );
        assert_eq!(block[34 + j], heard, "Not_SPT({j})");
        let saved = (watch.handed[i] | 1 << i) >> j & 1 != 0;
        let list = if saved { table[j] } else { 0 };
        assert_eq!(block[50 + j], list, "Neighbors({j})");
    }
    assert!(ready < table[i].count_ones(), "a round is due");
}

/// What must be true when none is under way, `starts` having been started.
pub fn check_rest(hub: &Watched, starts: u16) {
    check_moment(hub);
    let watch = hub.observer();
    let expected = watch.expected;
    let started = expected.rest.started(starts);
    for i in 0..expected.sheet.boxes {
        let within = started >> i & 1 != 0;
        let state = if within {
            State::Stopped
        } else {
            State::Asleep
        };
        assert_eq!(hub.state(i), state);
        let others = if within {
            expected.groups[i] & !(1 << i)
        } else {
            0
        };
        assert_eq!(watch.handed[i], others);
    }
    for &(a, b) in &expected.wires {
        let length = if started >> a & 1 != 0 {
            expected.lists[a][b].len()
        } else {
            0
        };
        let counts = [&watch.sent, &watch.moved, &watch.taken];
        assert_eq!(counts.map(|n| usize::from(n[a][b])), [length; 3]);
    }
    let counts = hub.counts();
    assert_eq!(counts.under_way, 0);
    assert_eq!(counts.sent, expected.rest.sent(starts));
    assert_eq!(counts.moved, counts.sent);
    assert!(counts.moved <= expected.rest.budget());
    assert!(expected.rest.budget() <= 4_560);
}
