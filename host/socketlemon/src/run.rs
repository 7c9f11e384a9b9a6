//! Runs: the outgoing packets of a call, one behind the other.

use crate::Address;

const COUNT: usize = 2;
const ADDRESS: usize = 16;

/// The bytes before a packet in a run: its count and its two addresses.
const ENTRY_HEAD: usize = COUNT + 2 * ADDRESS;

/// The flags of a piece in a packet's byte 8: the first of these that is set says what a packet is.
const FLAGS_PLACE: usize = 8;
const INIT: u8 = 0x80;
const CHUNK: u8 = 0x10;
const ACK: u8 = 0x01;

/// The outgoing packets of a call, in the part of the run buffer that was written.
#[derive(Clone, Copy, Debug, PartialEq, Eq)]
pub struct Run<'a> {
    bytes: &'a [u8],
    pieces: usize,
}

impl<'a> Run<'a> {
    /// Any bytes as a run. Those of the library are whole; of others, the packets before the first cut one are seen.
    pub fn from_bytes(bytes: &'a [u8]) -> Run<'a> {
        let pieces = Packets { rest: bytes }.filter(Packet::is_piece).count();
        Run { bytes, pieces }
    }

    /// The run of a call, with the number of pieces that the library has answered.
    pub(crate) fn answered(bytes: &'a [u8], pieces: usize) -> Run<'a> {
        Run { bytes, pieces }
    }

    /// The run's bytes.
    pub fn as_bytes(&self) -> &'a [u8] {
        self.bytes
    }

    /// Whether nothing is to be sent.
    pub fn is_empty(&self) -> bool {
        self.bytes.is_empty()
    }

    /// How many of the packets are pieces of a message, at most [`WAKE_PIECES`](crate::WAKE_PIECES). Only a
    /// [`Wake::Send`](crate::Wake::Send) sends any.
    ///
    /// Of the run of a call this is what the library answers; of [`Run::from_bytes`] it is counted.
    pub fn pieces(&self) -> usize {
        self.pieces
    }

    /// The packets, in the order in which they are to be sent.
    pub fn packets(&self) -> Packets<'a> {
        Packets { rest: self.bytes }
    }
}

impl<'a> IntoIterator for Run<'a> {
    type Item = Packet<'a>;
    type IntoIter = Packets<'a>;

    fn into_iter(self) -> Packets<'a> {
        self.packets()
    }
}

/// One outgoing packet.
#[derive(Clone, Copy, Debug, PartialEq, Eq)]
pub struct Packet<'a> {
    /// The address that it comes from.
    pub from: Address,
    /// The address that it goes to.
    pub to: Address,
    /// The packet itself.
    pub bytes: &'a [u8],
}

impl Packet<'_> {
    /// Whether it brings a piece of a message.
    fn is_piece(&self) -> bool {
        self.bytes.get(FLAGS_PLACE).map_or(false, |flags| flags & (INIT | CHUNK | ACK) == CHUNK)
    }
}

/// The packets of a run. It ends at the end of the bytes or at the first entry that is cut, and never panics.
#[derive(Clone, Debug)]
pub struct Packets<'a> {
    rest: &'a [u8],
}

impl<'a> Packets<'a> {
    /// The bytes that are not read yet; where the iterator has ended, those of the entry that is cut.
    pub fn rest(&self) -> &'a [u8] {
        self.rest
    }
}

impl<'a> Iterator for Packets<'a> {
    type Item = Packet<'a>;

    fn next(&mut self) -> Option<Packet<'a>> {
        let count: [u8; COUNT] = self.rest.get(..COUNT)?.try_into().ok()?;
        let from = self.rest.get(COUNT..COUNT + ADDRESS)?.try_into().ok()?;
        let to = self.rest.get(COUNT + ADDRESS..ENTRY_HEAD)?.try_into().ok()?;
        let end = ENTRY_HEAD + usize::from(u16::from_be_bytes(count));
        let bytes = self.rest.get(ENTRY_HEAD..end)?;
        self.rest = self.rest.get(end..)?;
        Some(Packet { from: Address(from), to: Address(to), bytes })
    }
}

impl std::iter::FusedIterator for Packets<'_> {}

#[cfg(test)]
mod tests {
    use super::*;

    fn entry(from: u8, to: u8, packet: &[u8]) -> Vec<u8> {
        let mut bytes = (packet.len() as u16).to_be_bytes().to_vec();
        bytes.extend([from; 16]);
        bytes.extend([to; 16]);
        bytes.extend(packet);
        bytes
    }

    #[test]
    fn packets_come_in_order_with_their_addresses() {
        let bytes = [entry(1, 2, b"first"), entry(3, 4, b""), entry(5, 6, &[9; 1400])].concat();
        let seen: Vec<_> =
            Run::from_bytes(&bytes).packets().map(|p| (p.from.0[15], p.to.0[0], p.bytes)).collect();
        assert_eq!(seen, [(1, 2, &b"first"[..]), (3, 4, b""), (5, 6, &[9; 1400])]);
    }

    #[test]
    fn a_cut_run_gives_the_packets_before_the_cut() {
        let first = entry(1, 2, b"first");
        let bytes = [first.clone(), entry(3, 4, b"second")].concat();
        for end in 0..bytes.len() {
            let mut packets = Run::from_bytes(&bytes[..end]).packets();
            let seen = packets.by_ref().count();
            assert_eq!(seen, usize::from(end >= first.len()), "cut at {end}");
            assert_eq!(packets.rest(), &bytes[seen * first.len()..end]);
            assert_eq!(packets.next(), None, "it stays ended");
        }
        assert_eq!(Run::from_bytes(&bytes).packets().count(), 2);
    }

    #[test]
    fn pieces_are_counted_by_their_flags() {
        let with = |flags: u8| entry(1, 2, &[&[7; 8][..], &[flags, 0, 0, 0]].concat());
        let count = |bytes: &[u8]| Run::from_bytes(bytes).pieces();
        for (flags, is_piece) in [(0x10, 1), (0x50, 1), (0x11, 0), (0x90, 0), (0x80, 0), (0x40, 0), (0, 0)] {
            assert_eq!(count(&with(flags)), is_piece, "flags {flags:#04x}");
        }
        let three = [with(0x10), with(0x40), with(0x10), with(0x10)].concat();
        assert_eq!(count(&three), 3);
        assert_eq!(count(&three[..three.len() - 1]), 2, "the last is cut");
        assert_eq!(count(&entry(1, 2, &[0x10; 8])), 0, "a packet without flags");
        assert_eq!(count(&[]), 0);
        assert_eq!(Run::answered(&three, 2).pieces(), 2, "what a call answers is not counted anew");
    }

    #[test]
    fn bytes_of_any_content_end() {
        // a count of 65,535 on each length around an entry's head, and runs of each one byte
        for length in 0..100 {
            for byte in [0, 1, 2, 127, 255] {
                let bytes = vec![byte; length];
                let run = Run::from_bytes(&bytes);
                let most = length / ENTRY_HEAD;
                assert!(run.packets().count() <= most, "{length} bytes of {byte}");
            }
        }
        // bytes without a pattern: each packet lies in the run, and none is read twice
        let mut state = 1u32;
        let noise: Vec<u8> = std::iter::repeat_with(|| {
            state = state.wrapping_mul(1_664_525).wrapping_add(1_013_904_223);
            (state >> 24) as u8
        })
        .take(200_000)
        .collect();
        for start in 0..200 {
            let run = Run::from_bytes(&noise[start..]);
            let mut packets = run.packets();
            let read: usize = packets.by_ref().map(|p| ENTRY_HEAD + p.bytes.len()).sum();
            assert_eq!(read + packets.rest().len(), run.as_bytes().len());
        }
    }
}
