//! Datagrams: a packet behind its from-address and its to-address, 16 bytes each.

use socketlemon::{Address, Id, Packet, FRAME};
use std::fmt;

const ADDRESS: usize = 16;
const HEAD: usize = 2 * ADDRESS;

/// The most bytes of a datagram.
pub const MOST: usize = HEAD + FRAME;

/// The bytes of a packet's header, and where its flags are.
const HEADER: usize = 12;
const FLAGS: usize = 8;
const INIT: u8 = 0x80;
const DONE: u8 = 0x40;
const ABORTED: u8 = 0x20;
const CHUNK: u8 = 0x10;
const READ: u8 = 0x08;
const ACK: u8 = 0x01;

/// The bytes of a done, and of its acknowledgement.
pub const DONE_BYTES: usize = 52;

/// The last byte of a chunk's index.
const INDEX: usize = 19;

/// What a packet brings, or what it acknowledges.
#[derive(Clone, Copy, Debug, PartialEq, Eq)]
pub enum Content {
    /// The announcement of a survey.
    Init,
    /// The piece of this index.
    Piece(usize),
    /// The end of a survey, with its sum.
    Done,
    /// Something else, or nothing.
    Other,
}

impl Content {
    /// The content of a packet, by the first flag that fits.
    pub fn of(packet: &[u8]) -> Content {
        match packet.get(FLAGS) {
            Some(flags) if flags & INIT != 0 => Content::Init,
            Some(flags) if flags & CHUNK != 0 => match packet.get(INDEX) {
                // an index that is kept is below 256
                Some(index) => Content::Piece(usize::from(*index)),
                None => Content::Other,
            },
            Some(flags) if flags & DONE != 0 => Content::Done,
            _ => Content::Other,
        }
    }
}

/// Why a datagram is dropped before the library sees it.
#[derive(Clone, Copy, Debug, PartialEq, Eq, PartialOrd, Ord)]
pub enum Dropped {
    /// It has no room for the two addresses.
    TooShort,
    /// Its packet does not fit into a frame.
    TooLong,
    /// It goes to another address.
    NotOurs,
    /// The key of its from-address is not known.
    Stranger,
}

impl fmt::Display for Dropped {
    fn fmt(&self, f: &mut fmt::Formatter<'_>) -> fmt::Result {
        f.write_str(match self {
            Dropped::TooShort => "too short",
            Dropped::TooLong => "too long",
            Dropped::NotOurs => "to another address",
            Dropped::Stranger => "of strangers",
        })
    }
}

/// A packet that arrived.
#[derive(Clone, Debug)]
pub struct Arrived {
    /// The address that it says it comes from.
    pub from: Address,
    /// The address that it goes to.
    pub to: Address,
    /// The packet, as much of it as came: at most [`FRAME`] bytes.
    pub frame: Vec<u8>,
}

impl Arrived {
    /// Reads a datagram that came to an address.
    pub fn read(datagram: &[u8], own: Address) -> Result<Arrived, Dropped> {
        if datagram.len() < HEAD {
            return Err(Dropped::TooShort);
        }
        let (head, packet) = datagram.split_at(HEAD);
        if packet.len() > FRAME {
            return Err(Dropped::TooLong);
        }
        let (mut from, mut to) = ([0; ADDRESS], [0; ADDRESS]);
        from.copy_from_slice(&head[..ADDRESS]);
        to.copy_from_slice(&head[ADDRESS..]);
        if Address(to) != own {
            return Err(Dropped::NotOurs);
        }
        Ok(Arrived { from: Address(from), to: Address(to), frame: packet.to_vec() })
    }

    /// An aborted packet for an id, from an address to itself.
    pub fn aborted(id: Id, own: Address) -> Arrived {
        let mut frame = vec![0; HEADER];
        frame[..FLAGS].copy_from_slice(&id.0);
        frame[FLAGS] = ABORTED;
        Arrived { from: own, to: own, frame }
    }

    /// The id of the message that it is about, if it came.
    pub fn id(&self) -> Option<Id> {
        self.frame.get(..FLAGS)?.try_into().ok().map(Id)
    }

    /// What it brings, if it is no acknowledgement.
    pub fn content(&self) -> Content {
        match self.frame.get(FLAGS) {
            Some(flags) if flags & ACK != 0 => Content::Other,
            _ => Content::of(&self.frame),
        }
    }

    /// The first number behind the header: an init's length, or a chunk's index.
    pub fn number(&self) -> Option<u64> {
        self.frame.get(HEADER..HEADER + 8)?.try_into().ok().map(u64::from_be_bytes)
    }

    /// Whether its sender gives a message up.
    pub fn is_aborted(&self) -> bool {
        let others = INIT | CHUNK | DONE | READ | ACK;
        self.frame.get(FLAGS).map_or(false, |flags| flags & (others | ABORTED) == ABORTED)
    }

    /// Whether it is a done, without ack and with all its bytes.
    pub fn is_done(&self) -> bool {
        self.done_acknowledgement().is_some()
    }

    /// What acknowledges this packet, if it is a done: its own first bytes with the ack flag.
    pub fn done_acknowledgement(&self) -> Option<[u8; DONE_BYTES]> {
        let mut reply: [u8; DONE_BYTES] = self.frame.get(..DONE_BYTES)?.try_into().ok()?;
        if Content::of(&reply) != Content::Done || reply[FLAGS] & ACK != 0 {
            return None;
        }
        reply[FLAGS] |= ACK;
        Some(reply)
    }
}

/// The datagram of an outgoing packet.
pub fn write(packet: &Packet<'_>) -> Vec<u8> {
    [&packet.from.0[..], &packet.to.0, packet.bytes].concat()
}

#[cfg(test)]
mod tests {
    use super::*;

    const OWN: Address = Address([4; 16]);

    #[test]
    fn a_packet_is_read_as_it_was_written() {
        for length in [0, 1, 12, FRAME] {
            let bytes = vec![7; length];
            let datagram = write(&Packet { from: Address([5; 16]), to: OWN, bytes: &bytes });
            let arrived = Arrived::read(&datagram, OWN).expect("a datagram");
            assert_eq!((arrived.from, arrived.to), (Address([5; 16]), OWN));
            assert_eq!(arrived.frame, bytes, "no byte more");
        }
    }

    #[test]
    fn other_lengths_and_addresses_are_dropped() {
        for length in 0..HEAD {
            assert_eq!(Arrived::read(&vec![4; length], OWN).err(), Some(Dropped::TooShort));
        }
        assert!(Arrived::read(&[4; HEAD], OWN).is_ok());
        assert!(Arrived::read(&[4; MOST], OWN).is_ok());
        for length in [MOST + 1, 65_535] {
            assert_eq!(Arrived::read(&vec![4; length], OWN).err(), Some(Dropped::TooLong));
        }
        assert_eq!(Arrived::read(&[5; MOST], OWN).err(), Some(Dropped::NotOurs));
    }

    #[test]
    fn dones_are_told_from_the_rest() {
        let frame = [[1; 8].as_slice(), &[0; DONE_BYTES - 8]].concat();
        let mut arrived = Arrived { from: OWN, to: OWN, frame };
        let is_done = |flags: &u8| {
            arrived.frame[8] = *flags;
            arrived.is_done()
        };
        let dones: Vec<u8> = (0..=255).filter(is_done).collect();
        assert_eq!(dones.len(), 16, "the done flag, none of init, chunk and ack, any of the other four");
        assert!(dones.iter().all(|flags| flags & 0xd1 == 0x40));
    }

    #[test]
    fn what_has_not_come_is_not_there() {
        let done = [&[1; 8][..], &[DONE], &[2; DONE_BYTES - 8]].concat();
        let arrived = |length: usize| Arrived { from: OWN, to: OWN, frame: done[..length].to_vec() };
        for length in 0..=done.len() {
            assert_eq!(arrived(length).id(), (length >= 8).then_some(Id([1; 8])), "{length} bytes");
            assert_eq!(arrived(length).is_done(), length >= DONE_BYTES, "{length} bytes");
        }
        let reply = [&done[..8], &[DONE | ACK], &done[9..DONE_BYTES]].concat();
        assert_eq!(
            arrived(done.len()).done_acknowledgement().as_ref().map(|bytes| &bytes[..]),
            Some(&reply[..])
        );
        let chunk = [&[1; 8][..], &[CHUNK], &[0; 10], &[7]].concat();
        assert_eq!(Content::of(&chunk), Content::Piece(7));
        for length in 0..chunk.len() {
            assert_eq!(Content::of(&chunk[..length]), Content::Other, "{length} bytes");
        }
    }

    #[test]
    fn an_aborted_packet_has_all_that_it_needs() {
        let arrived = Arrived::aborted(Id([1; 8]), OWN);
        assert_eq!((arrived.id(), arrived.is_done()), (Some(Id([1; 8])), false));
        assert_eq!(arrived.frame, [1, 1, 1, 1, 1, 1, 1, 1, 0x20, 0, 0, 0]);
    }

    #[test]
    fn the_first_flag_that_fits_is_the_content() {
        let of = |flags: u8| {
            let mut frame = [0; 36];
            frame[8] = flags;
            frame[19] = 24;
            Content::of(&frame)
        };
        for flags in [0x80, 0x81, 0x84, 0xd1, 0xff] {
            assert_eq!(of(flags), Content::Init, "{flags:#04x}");
        }
        for flags in [0x10, 0x11, 0x50, 0x7f] {
            assert_eq!(of(flags), Content::Piece(24), "{flags:#04x}");
        }
        for flags in [0x40, 0x41, 0x6d] {
            assert_eq!(of(flags), Content::Done, "{flags:#04x}");
        }
        for flags in [0, 0x01, 0x08, 0x20, 0x2d] {
            assert_eq!(of(flags), Content::Other, "{flags:#04x}");
        }
    }
}
