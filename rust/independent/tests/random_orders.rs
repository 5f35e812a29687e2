//! Random sheets under many delivery orders, watched at every moment.

mod common;

use common::{Expected, Numbers, Watched, check_moment, check_rest, random_sheet, watched};
use independent::{BLOCK, all_below, drain, ones, run};

const SHEETS: usize = 3_600;

/// How the next wire is chosen among those that hold a message.
#[derive(Clone, Copy, Debug)]
enum Order {
    Random,
    /// This wire whenever it can, all others at random.
    Favoured(usize, usize),
    /// This wire only when no other can.
    Slow(usize, usize),
    /// Nothing to or from this box while another wire can.
    Starved(usize),
    /// Receivers ascending, then senders.
    ReceiverFirst,
    /// Senders descending, then receivers.
    LastSender,
}

fn choose(order: Order, held: &[(usize, usize)], numbers: &mut Numbers) -> (usize, usize) {
    let mut any = |allowed: &dyn Fn(usize, usize) -> bool| {
        let some: Vec<_> = held
            .iter()
            .copied()
            .filter(|&(a, b)| allowed(a, b))
            .collect();
        let from = if some.is_empty() { held } else { &some };
        from[numbers.below(from.len())]
    };
    match order {
        Order::Random => any(&|_, _| true),
        Order::Favoured(from, to) => any(&|a, b| (a, b) == (from, to)),
        Order::Slow(from, to) => any(&|a, b| (a, b) != (from, to)),
        Order::Starved(v) => any(&|a, b| a != v && b != v),
        Order::ReceiverFirst => *held.iter().min_by_key(|&&(a, b)| (b, a)).unwrap(),
        Order::LastSender => *held.iter().max().unwrap(),
    }
}

/// Runs to rest.  Starts the boxes at once, or one by one in between.  Answers
/// the list of what was done.
fn to_rest(
    hub: &mut Watched,
    starts: u16,
    at_once: bool,
    order: Order,
    numbers: &mut Numbers,
) -> Vec<u8> {
    let wires = &hub.observer().expected.wires;
    let mut to_start: Vec<usize> = ones(starts).collect();
    numbers.shuffle(&mut to_start);
    let mut list = Vec::new();
    let mut held = Vec::new();
    loop {
        held.clear();
        held.extend(
            wires
                .iter()
                .filter(|&&(a, b)| hub.on_wire(a, b).next().is_some()),
        );
        let start = at_once || held.is_empty() || numbers.chance(10);
        if let (true, Some(b)) = (start, to_start.last().copied()) {
            to_start.pop();
            hub.start(b).unwrap();
            list.extend([b as u8, b as u8]);
        } else if held.is_empty() {
            return list;
        } else {
            let (a, b) = choose(order, &held, numbers);
            assert_eq!(hub.deliver(a, b), Ok(true));
            list.extend([a as u8, b as u8]);
        }
        check_moment(hub);
    }
}

fn random_starts(numbers: &mut Numbers, boxes: usize) -> u16 {
    match numbers.below(4) {
        0 => 1 << numbers.below(boxes),
        1 => all_below(boxes),
        _ => numbers.word() as u16 & all_below(boxes),
    }
}

fn orders(numbers: &mut Numbers, expected: &Expected) -> Vec<Order> {
    let v = numbers.below(expected.sheet.boxes);
    let mut orders = vec![
        Order::Random,
        Order::Starved(v),
        Order::ReceiverFirst,
        Order::LastSender,
    ];
    if let count @ 1.. = expected.wires.len() {
        let (a, b) = expected.wires[numbers.below(count)];
        orders.push(Order::Favoured(a, b));
        let (a, b) = expected.wires[numbers.below(count)];
        orders.push(Order::Slow(a, b));
    }
    orders
}

/// `run` on the list gives the hub's counts and board; pairs that can change
/// nothing, put in between, change nothing.
fn check_run(bytes: &[u8], hub: &Watched, list: &[u8], numbers: &mut Numbers) {
    let expected = hub.observer().expected;
    let boxes = expected.sheet.boxes;
    let mut plain = vec![0xa5a5; boxes * BLOCK + 3];
    let mut shown = plain.clone();
    hub.write_board(&mut shown);
    assert_eq!(run(bytes, list, &mut plain), Ok(hub.counts()));
    assert_eq!(plain, shown);

    let mut probe = watched(expected);
    let mut longer = Vec::new();
    for pair in list.chunks_exact(2) {
        let (a, b) = (usize::from(pair[0]), usize::from(pair[1]));
        let changed = if a == b {
            probe.start(a)
        } else {
            probe.deliver(a, b)
        };
        longer.extend(pair);
        // A start may find the box awake already; a delivery has a message.
        assert!(changed.unwrap() || a == b);
        let again = numbers.below(boxes);
        if probe.state(again) as u16 != 0 {
            longer.extend([again as u8; 2]);
        }
        if !expected.wires.is_empty() {
            let (a, b) = expected.wires[numbers.below(expected.wires.len())];
            if probe.on_wire(a, b).next().is_none() {
                longer.extend([a as u8, b as u8]);
            }
        }
    }
    assert_eq!(run(bytes, &longer, &mut plain), Ok(hub.counts()));
    assert_eq!(plain, shown);

    // A part of the list, too.
    let cut = numbers.below(list.len() / 2 + 1) * 2;
    let mut part = watched(expected);
    for pair in list[..cut].chunks_exact(2) {
        let (a, b) = (usize::from(pair[0]), usize::from(pair[1]));
        let _ = if a == b {
            part.start(a)
        } else {
            part.deliver(a, b)
        };
    }
    part.write_board(&mut shown);
    assert_eq!(run(bytes, &list[..cut], &mut plain), Ok(part.counts()));
    assert_eq!(plain, shown);
}

/// The drain's search by plain nested loops.
fn searched(hub: &Watched) -> Option<(usize, usize)> {
    for a in 0..hub.boxes() {
        for b in 0..hub.boxes() {
            if hub.on_wire(a, b).next().is_some() {
                return Some((a, b));
            }
        }
    }
    None
}

/// The drain with exact, short, sufficient and in-between budgets.
fn check_drain(bytes: &[u8], expected: &Expected, starts: u16, numbers: &mut Numbers) {
    let total = expected.rest.sent(starts);
    let between = numbers.below(total as usize + 1) as u32;
    let mut board = vec![0xa5a5; expected.sheet.boxes * BLOCK + 1];
    let mut shown = board.clone();
    let mut hub = watched(expected);
    for b in ones(starts) {
        hub.start(b).unwrap();
    }
    for moved in 0..=total {
        if moved == between || moved == 0 || moved + 1 == total || moved == total {
            check_moment(&hub);
            hub.write_board(&mut shown);
            let drained = drain(bytes, starts, moved, &mut board).unwrap();
            assert_eq!(drained.counts, hub.counts());
            assert_eq!(drained.counts.moved, moved);
            assert_eq!(drained.finished, moved == total);
            assert_eq!(board, shown);
        }
        if let Some((a, b)) = searched(&hub) {
            assert_eq!(hub.first_wire(), Some((a, b)));
            hub.deliver(a, b).unwrap();
        }
    }
    check_rest(&hub, starts);
    for budget in [total + 1, expected.rest.budget(), 4_560, u32::MAX] {
        let drained = drain(bytes, starts, budget, &mut board).unwrap();
        assert!(drained.finished);
        assert_eq!(drained.counts, hub.counts());
        assert_eq!(board, shown);
    }
}

fn check_sheets(seed: u64, sheets: usize) {
    let mut numbers = Numbers(seed);
    let mut deliveries = 0u64;
    for number in 0..sheets {
        let boxes = 1 + numbers.below(16);
        let bytes = random_sheet(&mut numbers, boxes, number % 9);
        let expected = Expected::new(&bytes);
        let starts = random_starts(&mut numbers, boxes);
        check_drain(&bytes, &expected, starts, &mut numbers);
        for order in orders(&mut numbers, &expected) {
            let starts = random_starts(&mut numbers, boxes);
            let at_once = numbers.chance(50);
            let mut hub = watched(&expected);
            let list = to_rest(&mut hub, starts, at_once, order, &mut numbers);
            check_rest(&hub, starts);
            if matches!(order, Order::Random) {
                check_run(&bytes, &hub, &list, &mut numbers);
            }
            deliveries += u64::from(hub.counts().moved);
        }
    }
    // The sheets are not all trivial.
    assert!(deliveries > 1_000 * sheets as u64, "{deliveries}");
}

/// A set of boxes, one of the group of each box that is given.
fn others_of(starts: u16, expected: &Expected, numbers: &mut Numbers) -> u16 {
    ones(starts).fold(0, |set, b| {
        let group: Vec<usize> = ones(expected.groups[b]).collect();
        set | 1 << group[numbers.below(group.len())]
    })
}

/// Two start sets of the same groups, each in every order, and two drains: all
/// leave the same counts and the same board.  Nothing is said here of what they
/// should be.
#[test]
fn orders_leave_one_board() {
    let mut numbers = Numbers(0x9216);
    for number in 0..270 {
        let boxes = 1 + numbers.below(16);
        let bytes = random_sheet(&mut numbers, boxes, number % 9);
        let expected = Expected::new(&bytes);
        let starts = random_starts(&mut numbers, boxes);
        let others = others_of(starts, &expected, &mut numbers);
        let mut ends = Vec::new();
        for starts in [starts, others] {
            let mut board = vec![0xa5a5; boxes * BLOCK + 1];
            let drained = drain(&bytes, starts, 4_560, &mut board).unwrap();
            ends.push((drained.counts, board));
            for order in orders(&mut numbers, &expected) {
                let at_once = numbers.chance(50);
                let mut hub = watched(&expected);
                let list = to_rest(&mut hub, starts, at_once, order, &mut numbers);
                let mut board = vec![0xa5a5; boxes * BLOCK + 1];
                let counts = run(&bytes, &list, &mut board).unwrap();
                ends.push((counts, board));
            }
        }
        assert!(ends.iter().all(|end| *end == ends[0]), "{bytes:?}");
    }
}

// In two parts, which run side by side where there are two cores.

#[test]
fn random_sheets_first_half() {
    check_sheets(0x1692, SHEETS / 2);
}

#[test]
fn random_sheets_second_half() {
    check_sheets(0x2961, SHEETS / 2);
}
