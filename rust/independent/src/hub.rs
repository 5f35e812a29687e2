//! Document 01, "The steps of a box": the boxes, their wires and queues.

use crate::message::Message;
use crate::refusal::Refusal;
use crate::sets::ones;
use crate::sheet::Sheet;
use crate::wires::{Counts, Wires};
use crate::{BLOCK, ROOM};

/// Sees what happens in a hub.  Every method does nothing unless it is
/// written, so that with `()` as observer nothing is left of the calls.
pub trait Observer {
    /// `from` put a message on its wire to `to`.
    #[inline(always)]
    fn sent(&mut self, _from: usize, _to: usize, _message: Message) {}

    /// A message left the wire and joined the queue at `to`.
    #[inline(always)]
    fn moved(&mut self, _from: usize, _to: usize, _message: Message) {}

    /// `to` took a message from its queue for `from` and used it.
    #[inline(always)]
    fn taken(&mut self, _from: usize, _to: usize, _message: Message) {}

    /// `to` was handed the link list of `origin` by `from`, and saved it.
    #[inline(always)]
    fn handed(&mut self, _from: usize, _to: usize, _origin: usize, _list: u16) {}

    /// `to`, stopped or just stopping, dropped a message from `from`.
    #[inline(always)]
    fn dropped(&mut self, _from: usize, _to: usize, _message: Message) {}
}

/// Sees nothing.
impl Observer for () {}

/// The state of a box, by its number on the board.
#[derive(Clone, Copy, Debug, PartialEq, Eq, Hash)]
#[repr(u16)]
pub enum State {
    Asleep = 0,
    Awake = 1,
    Stopped = 2,
}

/// One box: its tables and what it needs to work.
#[derive(Clone, Copy)]
struct Record {
    state: State,
    hop: usize,
    /// The last round is round 16 at most, and it fills Nodes(17).
    nodes: [u16; 18],
    in_spt: [u16; 16],
    not_spt: [u16; 16],
    neighbors: [u16; 16],
    /// The neighbours of the box, by the sheet.
    links: u16,
    /// All In_SPT together: the identities that are no longer new.
    known: u16,
    /// The links whose queue has a NOTSPT message at its head.
    ready: u16,
}

impl Record {
    fn asleep(links: u16) -> Record {
        Record {
            state: State::Asleep,
            hop: 0,
            nodes: [0; 18],
            in_spt: [0; 16],
            not_spt: [0; 16],
            neighbors: [0; 16],
            links,
            known: 0,
            ready: 0,
        }
    }

    /// The block of 66 words on the board.
    fn write_block(&self, block: &mut [u16]) {
        block[0] = self.state as u16;
        block[1] = self.hop as u16;
        block[2..18].copy_from_slice(&self.nodes[..16]);
        block[18..34].copy_from_slice(&self.in_spt);
        block[34..50].copy_from_slice(&self.not_spt);
        block[50..66].copy_from_slice(&self.neighbors);
    }
}

/// All boxes of one sheet with their wires and queues.
///
/// `LIMIT` is the room on a wire and its queue, [`ROOM`] but for the tests of
/// refusal 13, which no sheet brings about with the room of document 01.
#[derive(Clone)]
pub struct Hub<O: Observer = (), const LIMIT: usize = ROOM> {
    boxes: usize,
    records: [Record; 16],
    wires: Wires<LIMIT>,
    observer: O,
}

impl<O: Observer> Hub<O> {
    /// A hub with an observer, every box asleep.
    pub fn watched(sheet: &Sheet, observer: O) -> Hub<O> {
        Hub::with_limit(sheet, observer)
    }
}

impl<O: Observer, const LIMIT: usize> Hub<O, LIMIT> {
    pub(crate) fn with_limit(sheet: &Sheet, observer: O) -> Self {
        Hub {
            boxes: sheet.boxes,
            records: sheet.table.map(Record::asleep),
            wires: Wires::new(),
            observer,
        }
    }

    /// Starts box `b`, which must be below N.  Answers whether that changed
    /// anything: it does for a sleeping box only.
    pub fn start(&mut self, b: usize) -> Result<bool, Refusal> {
        debug_assert!(b < self.boxes);
        let record = &mut self.records[b];
        if record.state != State::Asleep {
            return Ok(false);
        }
        record.state = State::Awake;
        record.nodes[0] = 1 << b;
        record.neighbors[b] = record.links;
        if record.links == 0 {
            record.state = State::Stopped;
        }
        for j in ones(record.links) {
            let message = Message::not_spt(1 << b);
            self.wires.send(b, j, message)?;
            self.observer.sent(b, j, message);
        }
        Ok(true)
    }

    /// Delivers the oldest message on the wire from `a` to `b`, both below N.
    /// Answers whether there was one.
    #[inline]
    pub fn deliver(&mut self, a: usize, b: usize) -> Result<bool, Refusal> {
        debug_assert!(a < self.boxes && b < self.boxes);
        if !self.wires.holds(a, b) {
            return Ok(false);
        }
        if self.records[b].state == State::Asleep {
            self.start(b)?;
        }
        let message = self.wires.cross(a, b);
        self.observer.moved(a, b, message);
        if self.records[b].state == State::Stopped {
            self.drop_queue(a, b);
            return Ok(true);
        }
        // Between deliveries no queue has a list at its head, so a queue that
        // is not empty has NOTSPT there, and the new message changes nothing.
        if self.records[b].ready >> a & 1 == 0 {
            self.take_lists(a, b);
            self.work(b)?;
        }
        Ok(true)
    }

    /// Works until neither rule applies.  Lists at the heads are taken already
    /// when this is called, and again at the end of a round; while one stands
    /// at a head there is no round, so nothing depends on which rule is tried
    /// first.  A box that stopped in a round has links and nothing ready.
    #[inline]
    fn work(&mut self, b: usize) -> Result<(), Refusal> {
        while self.records[b].ready == self.records[b].links {
            self.round(b)?;
        }
        Ok(())
    }

    /// Takes the Neighbors messages at the head of the queue from `j` to `b`
    /// and saves their lists.  Notes if a NOTSPT message is then at the head.
    #[inline]
    fn take_lists(&mut self, j: usize, b: usize) {
        let record = &mut self.records[b];
        let queue = self.wires.wire_mut(j, b);
        while let Some(message) = queue.head() {
            if !message.is_list() {
                record.ready |= 1 << j;
                return;
            }
            queue.take();
            record.neighbors[message.origin()] = message.set();
            self.observer.taken(j, b, message);
            self.observer.handed(j, b, message.origin(), message.set());
        }
    }

    /// One round of box `b`, whose queues all have NOTSPT at their heads.
    fn round(&mut self, b: usize) -> Result<(), Refusal> {
        self.round_take(b);
        self.round_send(b)?;
        let record = &mut self.records[b];
        record.hop += 1;
        record.ready = 0;
        if record.nodes[record.hop - 1] == 0 {
            self.stop(b);
        } else {
            for j in ones(record.links) {
                self.take_lists(j, b);
            }
        }
        Ok(())
    }

    /// Takes one NOTSPT message from each link, ascending.  One set of new
    /// identities serves both In_SPT and Nodes ("Where Figure 3 is not
    /// followed", lines 7 and 8).
    #[inline]
    fn round_take(&mut self, b: usize) {
        let record = &mut self.records[b];
        let mut found = 0;
        for j in ones(record.links) {
            let message = self.wires.wire_mut(j, b).take();
            self.observer.taken(j, b, message);
            let new = message.set() & !record.known;
            record.known |= new;
            record.in_spt[j] |= new;
            record.not_spt[j] |= message.set();
            found |= new;
        }
        record.nodes[record.hop + 1] = found;
    }

    /// Sends on each link, ascending, first the lists and then the NOTSPT
    /// message.  The lists are those of Nodes(HOP-1), one round later than in
    /// Figure 3 ("Where Figure 3 is not followed", line 11).
    #[inline]
    fn round_send(&mut self, b: usize) -> Result<(), Refusal> {
        let record = &self.records[b];
        let origins = if record.hop == 0 {
            0
        } else {
            record.nodes[record.hop - 1]
        };
        let found = record.nodes[record.hop + 1];
        for j in ones(record.links) {
            for k in ones(origins & !record.not_spt[j]) {
                let message = Message::neighbors(k, record.neighbors[k]);
                self.wires.send(b, j, message)?;
                self.observer.sent(b, j, message);
            }
            let message = Message::not_spt(found & !record.in_spt[j]);
            self.wires.send(b, j, message)?;
            self.observer.sent(b, j, message);
        }
        Ok(())
    }

    /// Stops box `b` and empties its queues.
    fn stop(&mut self, b: usize) {
        self.records[b].state = State::Stopped;
        for j in ones(self.records[b].links) {
            self.drop_queue(j, b);
        }
    }

    #[inline]
    fn drop_queue(&mut self, j: usize, b: usize) {
        let queue = self.wires.wire_mut(j, b);
        for message in queue.queue_messages() {
            self.observer.dropped(j, b, message);
        }
        queue.empty_queue();
    }

    /// The first wire that holds a message: senders ascending, then receivers.
    #[inline]
    pub fn first_wire(&self) -> Option<(usize, usize)> {
        self.wires.first()
    }

    pub fn counts(&self) -> Counts {
        self.wires.counts()
    }

    /// Messages taken off wires, which [`Hub::counts`] gives as well.
    #[inline]
    pub fn moved(&self) -> u32 {
        self.wires.moved()
    }

    /// Writes the block of each box.  The board must have 66N words; words
    /// past them stay.
    pub fn write_board(&self, board: &mut [u16]) {
        let blocks = board[..BLOCK * self.boxes].chunks_exact_mut(BLOCK);
        for (record, block) in self.records.iter().zip(blocks) {
            record.write_block(block);
        }
    }

    pub fn boxes(&self) -> usize {
        self.boxes
    }

    pub fn state(&self, b: usize) -> State {
        self.records[b].state
    }

    pub fn observer(&self) -> &O {
        &self.observer
    }

    /// The messages on the wire from `a` to `b`, oldest first.
    pub fn on_wire(&self, a: usize, b: usize) -> impl Iterator<Item = Message> + '_ {
        self.wires.wire(a, b).wire_messages()
    }

    /// The messages in the queue at `b` for its link with `a`, oldest first.
    pub fn in_queue(&self, a: usize, b: usize) -> impl Iterator<Item = Message> + '_ {
        self.wires.wire(a, b).queue_messages()
    }
}
