//! The table of sample hubs that is proved about the definitions, computed a
//! second time: every row of `crates/rules/specs/Samples.antt` is read as text
//! and answered by this program.

use std::collections::HashMap;

use independent::rest::Rest;
use independent::{Hub, Message, Observer, Refusal, allowance, drain, parse, read, run};

/// What the lent words of a row hold before the call, and how many words a
/// drain's and a list's board have.
const LENT: u16 = 9;
const DRAIN_BOARD: usize = 265;
const LIST_BOARD: usize = 199;
const BUDGET: u32 = 4_560;

/// A value in a row: a number, or a list of numbers.
#[derive(Clone, Debug)]
enum Value {
    Number(u64),
    List(Vec<u64>),
}

/// Reads the small language of the rows.
struct Reader<'a> {
    tokens: Vec<&'a str>,
    at: usize,
    names: &'a HashMap<String, Vec<u64>>,
}

impl<'a> Reader<'a> {
    fn new(text: &'a str, names: &'a HashMap<String, Vec<u64>>) -> Self {
        let mut tokens = Vec::new();
        for word in text.split_whitespace() {
            let mut rest = word;
            while let Some(tail) = rest.strip_prefix('(') {
                tokens.push("(");
                rest = tail;
            }
            let bare = rest.trim_end_matches(')');
            if !bare.is_empty() {
                tokens.push(bare);
            }
            tokens.extend(std::iter::repeat_n(")", rest.len() - bare.len()));
        }
        Reader {
            tokens,
            at: 0,
            names,
        }
    }

    fn next(&mut self) -> &'a str {
        self.at += 1;
        self.tokens[self.at - 1]
    }

    fn done(&self) -> bool {
        self.at == self.tokens.len()
    }

    fn atom(&mut self) -> Value {
        match self.next() {
            "(" => {
                let value = self.expression();
                assert_eq!(self.next(), ")");
                value
            }
            "[]" => Value::List(Vec::new()),
            "span" => {
                let (from, count) = (self.number(), self.number());
                Value::List((from..from + count).collect())
            }
            token => match token.parse() {
                Ok(number) => Value::Number(number),
                Err(_) => Value::List(self.names[token].clone()),
            },
        }
    }

    fn expression(&mut self) -> Value {
        let first = self.atom();
        if self.done() || self.tokens[self.at] == ")" {
            return first;
        }
        let operator = self.next();
        let Value::List(rest) = self.expression() else {
            panic!("a list ends in a list");
        };
        match (operator, first) {
            ("∷", Value::Number(number)) => Value::List([vec![number], rest].concat()),
            ("++", Value::List(front)) => Value::List([front, rest].concat()),
            (operator, first) => panic!("{first:?} {operator}"),
        }
    }

    fn number(&mut self) -> u64 {
        match self.atom() {
            Value::Number(number) => number,
            list => panic!("a number is wanted: {list:?}"),
        }
    }

    fn list(&mut self) -> Vec<u64> {
        match self.atom() {
            Value::List(list) => list,
            number => panic!("a list is wanted: {number:?}"),
        }
    }

    fn bytes(&mut self) -> Vec<u8> {
        self.list().into_iter().map(|x| x as u8).collect()
    }
}

/// Keeps all that is sent on one wire.
struct Wire {
    from: usize,
    to: usize,
    sent: Vec<Message>,
}

impl Observer for Wire {
    fn sent(&mut self, from: usize, to: usize, message: Message) {
        if (from, to) == (self.from, self.to) {
            self.sent.push(message);
        }
    }
}

/// A message in numbers: 1 and the set, or 2, the origin and its link set.
fn told(messages: &[Message]) -> Vec<u64> {
    let mut out = Vec::new();
    for message in messages {
        let set = u64::from(message.set());
        if message.is_list() {
            out.extend([2, message.origin() as u64, set]);
        } else {
            out.extend([1, set]);
        }
    }
    out
}

/// Number, counts, 1 for finished, then the words at the places asked for.
fn ran(counts: Result<[u32; 4], Refusal>, board: &[u16], places: &[u64]) -> Vec<u64> {
    let mut out = match counts {
        Ok(counts) => vec![0, counts[0], counts[1], counts[2], counts[3]],
        Err(refusal) => vec![refusal.number, 0, 0, 0, 0],
    }
    .into_iter()
    .map(u64::from)
    .collect::<Vec<_>>();
    out.extend(places.iter().map(|&at| u64::from(board[at as usize])));
    out
}

fn answer(ask: &mut Reader) -> Vec<u64> {
    let kind = ask.next();
    let sheet = ask.bytes();
    match kind {
        "read" => {
            let mut table = [LENT; 16];
            let mut out = match read(&sheet, &mut table) {
                Ok(sheet) => vec![0, sheet.boxes as u64, sheet.links as u64],
                Err(refusal) => vec![refusal.number.into(), 0, 0],
            };
            out.extend(table.map(u64::from));
            out
        }
        "allowance" => match allowance(&sheet) {
            Ok(identities) => vec![0, identities.into()],
            Err(refusal) => vec![refusal.number.into(), 0],
        },
        "drained" => {
            let (starts, places) = (ask.number(), ask.list());
            let mut board = [LENT; DRAIN_BOARD];
            let drained = drain(&sheet, starts as u16, BUDGET, &mut board);
            let counts = drained.map(|d| {
                [
                    d.counts.sent,
                    d.counts.moved,
                    d.counts.under_way,
                    d.finished.into(),
                ]
            });
            ran(counts, &board, &places)
        }
        "listed" => {
            let (list, places) = (ask.bytes(), ask.list());
            let mut board = [LENT; LIST_BOARD];
            let counts = run(&sheet, &list, &mut board);
            let counts = counts.map(|c| [c.sent, c.moved, c.under_way, (c.under_way == 0).into()]);
            ran(counts, &board, &places)
        }
        "sent_on" => {
            let (starts, from, to) = (ask.number(), ask.number() as usize, ask.number() as usize);
            let wire = Wire {
                from,
                to,
                sent: Vec::new(),
            };
            let mut hub = Hub::watched(&parse(&sheet).unwrap(), wire);
            for b in (0..16).filter(|b| starts >> b & 1 == 1) {
                hub.start(b).unwrap();
            }
            while let Some((a, b)) = hub.first_wire() {
                hub.deliver(a, b).unwrap();
            }
            told(&hub.observer().sent)
        }
        "rest" => {
            let rest = Rest::new(&parse(&sheet).unwrap());
            rest.block(ask.number() as usize).map(u64::from).to_vec()
        }
        "fixed_on" => {
            let rest = Rest::new(&parse(&sheet).unwrap());
            told(&rest.wire(ask.number() as usize, ask.number() as usize))
        }
        other => panic!("no such row: {other}"),
    }
}

#[test]
fn every_row_of_the_proved_table() {
    let path = concat!(
        env!("CARGO_MANIFEST_DIR"),
        "/../../crates/rules/specs/Samples.antt"
    );
    let text = std::fs::read_to_string(path).unwrap();

    let mut names = HashMap::new();
    for line in text.lines().filter(|line| !line.starts_with([' ', '-'])) {
        let Some((name, list)) = line.split_once(" = ") else {
            continue;
        };
        if list.ends_with("[]") && !name.contains(' ') {
            let value = Reader::new(list, &names).expression();
            let Value::List(list) = value else {
                panic!("{name} is no list")
            };
            names.insert(name.to_string(), list);
        }
    }

    let mut rows = 0;
    for line in text.lines().filter(|line| line.contains("record { ask = ")) {
        let (_, row) = line.split_once("ask = ").unwrap();
        let (ask, want) = row.split_once("; want = ").unwrap();
        let want = Reader::new(want.trim_end_matches([' ', '}']), &names).expression();
        let Value::List(want) = want else {
            panic!("no list: {line}")
        };
        let mut ask = Reader::new(ask, &names);
        assert_eq!(answer(&mut ask), want, "{line}");
        assert!(ask.done(), "{line}");
        rows += 1;
    }
    assert!(rows >= 20, "only {rows} rows were found");
}
