//! Wires and receiving queues.  Waiting messages are kept by wire, that is, by
//! sender and receiver.

use crate::ROOM;
use crate::message::Message;
use crate::refusal::Refusal;

/// Places in a ring.  A power of two above ROOM, so that a place is a mask.
const SLOTS: usize = 32;
const _: () = assert!(SLOTS.is_power_of_two() && ROOM <= SLOTS && 256 % SLOTS == 0);

/// The three counts of a run's answer.  sent = moved + under way.
#[derive(Clone, Copy, Debug, Default, PartialEq, Eq, Hash)]
pub struct Counts {
    /// Messages sent.
    pub sent: u32,
    /// Messages taken off wires.
    pub moved: u32,
    /// Messages on wires; those in queues don't count.
    pub under_way: u32,
}

/// One wire together with the queue it fills, in a single ring: the messages
/// from `taken` to `crossed` are in the receiver's queue, those from `crossed`
/// to `put` are on the wire.  Moving a message from the wire to the queue only
/// moves the boundary.  The three numbers wrap.
#[derive(Clone, Copy)]
pub(crate) struct Wire {
    ring: [Message; SLOTS],
    taken: u8,
    crossed: u8,
    put: u8,
}

impl Wire {
    const EMPTY: Wire = Wire {
        ring: [Message::not_spt(0); SLOTS],
        taken: 0,
        crossed: 0,
        put: 0,
    };

    fn slot(count: u8) -> usize {
        usize::from(count) % SLOTS
    }

    /// Messages on the wire and in the queue together.
    fn waiting(&self) -> usize {
        usize::from(self.put.wrapping_sub(self.taken))
    }

    /// Messages on the wire.
    pub(crate) fn on_wire(&self) -> usize {
        usize::from(self.put.wrapping_sub(self.crossed))
    }

    /// Messages in the queue.
    pub(crate) fn in_queue(&self) -> usize {
        usize::from(self.crossed.wrapping_sub(self.taken))
    }

    /// The waiting message that `place` others stand before.
    fn nth(&self, place: usize) -> Message {
        self.ring[Wire::slot(self.taken.wrapping_add(place as u8))]
    }

    /// The messages of the queue, oldest first.
    pub(crate) fn queue_messages(&self) -> impl Iterator<Item = Message> + '_ {
        (0..self.in_queue()).map(|place| self.nth(place))
    }

    /// The messages of the wire, oldest first.
    pub(crate) fn wire_messages(&self) -> impl Iterator<Item = Message> + '_ {
        (self.in_queue()..self.waiting()).map(|place| self.nth(place))
    }

    /// Refusal 13 when the message would be one more than `limit`.
    #[inline(always)]
    fn put(&mut self, message: Message, limit: usize) -> Result<(), Refusal> {
        if self.waiting() >= limit {
            return Err(Refusal::plain(13));
        }
        self.ring[Wire::slot(self.put)] = message;
        self.put = self.put.wrapping_add(1);
        Ok(())
    }

    /// The oldest message of the wire joins the queue.  Answers the message.
    #[inline(always)]
    fn cross(&mut self) -> Message {
        let message = self.ring[Wire::slot(self.crossed)];
        self.crossed = self.crossed.wrapping_add(1);
        message
    }

    /// The head of the queue.
    #[inline(always)]
    pub(crate) fn head(&self) -> Option<Message> {
        (self.taken != self.crossed).then(|| self.ring[Wire::slot(self.taken)])
    }

    /// Takes the head off the queue, which must have one.
    #[inline(always)]
    pub(crate) fn take(&mut self) -> Message {
        let message = self.ring[Wire::slot(self.taken)];
        self.taken = self.taken.wrapping_add(1);
        message
    }

    #[inline(always)]
    pub(crate) fn empty_queue(&mut self) {
        self.taken = self.crossed;
    }
}

/// All wires and queues of a hub, and the counts.
#[derive(Clone)]
pub(crate) struct Wires<const LIMIT: usize> {
    /// By sender, then by receiver.
    wires: [[Wire; 16]; 16],
    /// For each sender, the receivers whose wire holds a message.
    receivers: [u16; 16],
    /// The senders that have such a receiver.
    senders: u16,
    sent: u32,
    moved: u32,
}

impl<const LIMIT: usize> Wires<LIMIT> {
    const FITS: () = assert!(LIMIT <= SLOTS);

    pub(crate) fn new() -> Self {
        let () = Self::FITS;
        Wires {
            wires: [[Wire::EMPTY; 16]; 16],
            receivers: [0; 16],
            senders: 0,
            sent: 0,
            moved: 0,
        }
    }

    pub(crate) fn counts(&self) -> Counts {
        Counts {
            sent: self.sent,
            moved: self.moved,
            under_way: self.sent - self.moved,
        }
    }

    #[inline(always)]
    pub(crate) fn moved(&self) -> u32 {
        self.moved
    }

    #[inline(always)]
    pub(crate) fn wire(&self, from: usize, to: usize) -> &Wire {
        &self.wires[from][to]
    }

    #[inline(always)]
    pub(crate) fn wire_mut(&mut self, from: usize, to: usize) -> &mut Wire {
        &mut self.wires[from][to]
    }

    /// Puts a message on a wire.
    #[inline(always)]
    pub(crate) fn send(&mut self, from: usize, to: usize, message: Message) -> Result<(), Refusal> {
        self.wires[from][to].put(message, LIMIT)?;
        self.receivers[from] |= 1 << to;
        self.senders |= 1 << from;
        self.sent += 1;
        Ok(())
    }

    /// Whether a wire holds a message.
    #[inline(always)]
    pub(crate) fn holds(&self, from: usize, to: usize) -> bool {
        self.receivers[from] >> to & 1 != 0
    }

    /// The oldest message of a wire that holds one joins the receiver's queue.
    #[inline(always)]
    pub(crate) fn cross(&mut self, from: usize, to: usize) -> Message {
        let wire = &mut self.wires[from][to];
        let message = wire.cross();
        self.moved += 1;
        if wire.on_wire() == 0 {
            self.receivers[from] &= !(1 << to);
            if self.receivers[from] == 0 {
                self.senders &= !(1 << from);
            }
        }
        message
    }

    /// The first wire that holds a message, by sender and then by receiver,
    /// which is what the drain's search finds.
    #[inline(always)]
    pub(crate) fn first(&self) -> Option<(usize, usize)> {
        if self.senders == 0 {
            return None;
        }
        let from = (self.senders.trailing_zeros() & 15) as usize;
        let to = (self.receivers[from].trailing_zeros() & 15) as usize;
        Some((from, to))
    }
}

#[cfg(test)]
mod tests {
    use super::*;

    /// Refusal 13: the 21st message that waits on a wire and its queue.
    #[test]
    fn the_21st_is_refused() {
        for in_queue in 0..=20 {
            let mut wires = Wires::<ROOM>::new();
            for set in 0..20 {
                assert_eq!(wires.send(2, 5, Message::not_spt(set)), Ok(()));
            }
            for set in 0..in_queue {
                assert!(wires.holds(2, 5));
                assert_eq!(wires.cross(2, 5), Message::not_spt(set));
            }
            assert_eq!(wires.holds(2, 5), in_queue < 20);
            let refused = wires.send(2, 5, Message::not_spt(20));
            assert_eq!(refused, Err(Refusal::plain(13)));
            assert_eq!(wires.counts().sent, 20);
            // Other wires have room of their own.
            assert_eq!(wires.send(5, 2, Message::not_spt(1)), Ok(()));
            assert_eq!(wires.send(2, 6, Message::not_spt(1)), Ok(()));
            if in_queue > 0 {
                assert_eq!(wires.wire_mut(2, 5).take(), Message::not_spt(0));
                assert_eq!(wires.send(2, 5, Message::not_spt(20)), Ok(()));
            }
        }
    }

    /// First in, first out, around the ring and around the wrapping counts.
    #[test]
    fn order_is_kept() {
        let mut wires = Wires::<ROOM>::new();
        let (mut put, mut crossed, mut taken) = (0u16, 0u16, 0u16);
        for step in 0..3_000u32 {
            for _ in 0..step % 5 {
                if put - taken < ROOM as u16 {
                    wires.send(0, 1, Message::not_spt(put)).unwrap();
                    put += 1;
                }
            }
            for _ in 0..step % 4 {
                if crossed < put {
                    assert_eq!(wires.cross(0, 1), Message::not_spt(crossed));
                    crossed += 1;
                }
            }
            for _ in 0..step % 3 {
                assert_eq!(wires.wire(0, 1).head().is_some(), taken < crossed);
                if taken < crossed {
                    assert_eq!(wires.wire_mut(0, 1).take(), Message::not_spt(taken));
                    taken += 1;
                }
            }
            let wire = wires.wire(0, 1);
            assert!(wire.queue_messages().map(Message::set).eq(taken..crossed));
            assert!(wire.wire_messages().map(Message::set).eq(crossed..put));
            assert_eq!(wires.holds(0, 1), crossed < put);
            assert_eq!(wires.first(), (crossed < put).then_some((0, 1)));
        }
        assert!(taken > 600);
    }

    #[test]
    fn search_goes_by_sender_then_receiver() {
        let mut wires = Wires::<ROOM>::new();
        assert_eq!(wires.first(), None);
        for (from, to) in [(7, 1), (7, 0), (3, 9), (3, 15), (15, 0)] {
            wires.send(from, to, Message::not_spt(1)).unwrap();
        }
        for expected in [(3, 9), (3, 15), (7, 0), (7, 1), (15, 0)] {
            assert_eq!(wires.first(), Some(expected));
            wires.cross(expected.0, expected.1);
        }
        assert_eq!(wires.first(), None);
        assert_eq!(wires.counts().under_way, 0);
    }
}
