//! The ids that have left the comparison.
//!
//! Where the library differs from the original on purpose, the two hold different things from that packet or
//! wake on. Its id then leaves the comparison for good, in both stores.

use std::collections::BTreeMap;

use crate::call::{
    Id, Packet, Said, Woke, ACK, CLOSED_TOPIC, FRAME, GAP, MOST_OF_SOURCE, SHORT_PIECE, SOURCE_FULL, SUM,
};
use crate::frame::{self, Kind};
use crate::live::tally::{fresh_slots, Arriving, Label, Tally};

/// The shortest piece that the original keeps below the top index.
const SHORTEST: u64 = 250;

/// A difference from the original that is made on purpose: docs/DIFFERENCES.md lists them.
#[derive(Clone, Copy, Debug, PartialEq, Eq, PartialOrd, Ord)]
pub enum Listed {
    /// A piece below 250 bytes, not at the top index, that ends its message is kept; the original refuses it.
    ShortLastPiece,
    /// An init that is equal to the one that opened its message changes nothing; in the original the message
    /// loses its pieces.
    EqualInit,
    /// A wake with more than eight pieces to send sends the first eight; the original sends all.
    FullWake,
    /// A piece that needs a cell is refused where its message's source holds 30; the original keeps it.
    FullSource,
}

impl Listed {
    /// All of them.
    pub const ALL: [Self; 4] = [Self::ShortLastPiece, Self::EqualInit, Self::FullWake, Self::FullSource];

    /// Its name in what is printed.
    pub fn name(self) -> &'static str {
        match self {
            Self::ShortLastPiece => "C-11, a short last piece",
            Self::EqualInit => "C-12, an equal init",
            Self::FullWake => "C-15, a wake with more than eight pieces to send",
            Self::FullSource => "C-18, a piece of a source with 30 cells",
        }
    }

    /// Of 100 ids, at most so many may leave the comparison of a full run for it: with more it compares too little.
    /// This is a little above what a full run has: 3.4, 1.4, 14.1, 3.9.
    pub fn most_in_100(self) -> u64 {
        match self {
            Self::ShortLastPiece => 4,
            Self::EqualInit => 2,
            Self::FullWake => 15,
            Self::FullSource => 5,
        }
    }

    /// The difference that treats this packet otherwise than the original, which holds what the tally says;
    /// unless the original refuses it for what both have.
    pub fn of(packet: &Packet, tally: &Tally) -> Option<Self> {
        Self::ALL.into_iter().find(|listed| listed.treats(packet, tally))
    }

    fn treats(self, packet: &Packet, tally: &Tally) -> bool {
        match self {
            Self::ShortLastPiece => {
                Short::of(packet, tally).is_some_and(|short| short.ends)
                    && !Self::FullSource.treats(packet, tally)
            }
            Self::EqualInit => Again::of(packet, tally).is_some_and(|init| init.is_equal() && init.is_late()),
            // it is a wake that is treated otherwise, and no packet
            Self::FullWake => false,
            Self::FullSource => New::of(packet, tally).is_some_and(|piece| piece.cells >= MOST_OF_SOURCE),
        }
    }

    /// Whether the library refuses what it treats otherwise, with a number that the original does not have.
    pub fn is_refusal(self) -> bool {
        self == Self::FullSource
    }

    /// Whether the original has refused the packet for a reason that both have, so that its id stays.
    /// The tally knows no rule book.
    pub fn is_refused(self, said: &Said) -> bool {
        match self {
            Self::ShortLastPiece | Self::FullWake | Self::FullSource => false,
            Self::EqualInit => said.number == CLOSED_TOPIC,
        }
    }

    /// What the library must answer to a packet that the difference treats otherwise.
    pub fn asked(self, packet: &Packet) -> Said {
        match self {
            Self::ShortLastPiece | Self::EqualInit => {
                Said { packets: vec![acknowledged(packet)], woke: Some(Woke::No), ..Said::default() }
            }
            Self::FullWake => Said::default(),
            Self::FullSource => Said { number: SOURCE_FULL, woke: Some(Woke::No), ..Said::default() },
        }
    }

    /// Whether no byte of the library's stores may have changed with the packet.
    pub fn keeps_stores(self) -> bool {
        matches!(self, Self::EqualInit | Self::FullSource)
    }

    /// Whether the original says what the difference is from. To an equal init it says what the library does;
    /// of a source with 30 cells it refuses a short last piece only.
    pub fn is_from(self, packet: &Packet, said: &Said) -> bool {
        match self {
            Self::ShortLastPiece => said.number == SHORT_PIECE && said.packets.is_empty(),
            Self::EqualInit => said.number == 0 && said.packets == [acknowledged(packet)],
            Self::FullWake => false,
            Self::FullSource if said.number == SHORT_PIECE => said.packets.is_empty() && is_short(packet),
            Self::FullSource => said.number == 0 && said.packets == [acknowledged(packet)],
        }
    }

    /// Packets that show that the original has done what the difference is from, where it does not say so:
    /// it alone gets them next, and must answer each with the number beside it.
    /// In the end it holds again what it held before them.
    pub fn probes(self, packet: &Packet, tally: &Tally) -> Vec<(Packet, u64)> {
        match (self, Again::of(packet, tally)) {
            (Self::EqualInit, Some(init)) => init.probes(packet),
            _ => Vec::new(),
        }
    }
}

/// A piece below 250 bytes and below the top index, of a message that arrives.
/// There is no other reason to refuse it, but for the cells, of which the original knows nothing.
pub struct Short {
    /// Whether it ends its message.
    ends: bool,
}

impl Short {
    /// The short piece that the packet brings, if it brings one.
    pub fn of(packet: &Packet, tally: &Tally) -> Option<Self> {
        if packet.flags() & ACK != 0 || frame::kind(packet.flags()) != Kind::Chunk {
            return None;
        }
        let length = tally.arriving.get(&packet.id())?.label.length;
        let [index, offset] = [0, 1].map(|place| frame::field(&packet.bytes, place));
        let size = frame::piece(&packet.bytes).len() as u64;
        let end = offset.checked_add(size)?;
        (end <= length && index < top(length) && size < SHORTEST).then_some(Self { ends: end == length })
    }
}

/// Whether a packet brings a piece that the original keeps at the top index alone.
fn is_short(packet: &Packet) -> bool {
    (frame::piece(&packet.bytes).len() as u64) < SHORTEST
}

/// A piece of a message that arrives, at an index where there is none yet.
/// The library has no other reason to refuse it than the cells.
pub struct New {
    /// How many cells its message's source holds, and how many of them messages that are whole.
    pub cells: usize,
    pub of_whole: usize,
    /// Whether the packet's sender is another, and how many cells he holds.
    pub is_of_other: bool,
    pub of_sender: usize,
}

impl New {
    /// The new piece that the packet brings, if it brings one.
    pub fn of(packet: &Packet, tally: &Tally) -> Option<Self> {
        if !packet.is_piece() {
            return None;
        }
        let Arriving { label: Label { source, length, .. }, pieces } = tally.arriving.get(&packet.id())?;
        let [index, offset] = [0, 1].map(|place| frame::field(&packet.bytes, place));
        let end = offset.checked_add(frame::piece(&packet.bytes).len() as u64)?;
        let too_short = Short::of(packet, tally).is_some_and(|short| !short.ends);
        let is_new = end <= *length && index <= top(*length) && !too_short && !pieces.contains_key(&index);
        let [cells, of_sender] = [source, &packet.from].map(|address| tally.cells_from(address));
        let (of_whole, is_of_other) = (tally.whole_from(source), packet.from != *source);
        is_new.then_some(Self { cells, of_whole, is_of_other, of_sender })
    }
}

/// The highest index of a message of this length.
fn top(length: u64) -> u64 {
    length.div_ceil(SHORTEST).saturating_sub(1)
}

/// An init of a message that arrives.
pub struct Again<'a> {
    message: &'a Arriving,
    label: Label,
}

impl<'a> Again<'a> {
    /// The packet as such an init, if it is one.
    pub fn of(packet: &Packet, tally: &'a Tally) -> Option<Self> {
        let message = tally.opened_before(packet)?;
        Some(Self { message, label: Label::of(packet) })
    }

    /// Whether it says what the init said that opened the message.
    pub fn is_equal(&self) -> bool {
        self.message.label == self.label
    }

    /// Whether there is something to lose.
    /// Only a piece makes the slots grow, so a message without any is as its init has left it.
    pub fn is_late(&self) -> bool {
        !self.message.pieces.is_empty()
    }

    /// Packets to which the original answers otherwise if it still has the pieces or the slots that grew,
    /// and where there was nothing to lose.
    fn probes(&self, init: &Packet) -> Vec<(Packet, u64)> {
        let (id, length, pieces) = (init.id(), self.label.length, &self.message.pieces);
        let slots = fresh_slots(length);
        let framed = |mut bytes: Vec<u8>| {
            bytes.resize(FRAME, 0);
            Packet { bytes, ..init.clone() }
        };
        // The init's other slots are filled, so that what is missing then is a piece that was there.
        // Where all pieces were past them, the slots had grown: the done's count is wrong if they still are.
        let all_past = self.is_late() && pieces.keys().all(|index| *index >= slots);
        let missing = (0..slots).filter(|index| !all_past && !pieces.contains_key(index));
        let size = length.min(SHORTEST);
        let chunk = |index| (framed(frame::chunk(id, 0, index, 0, size, &[])), 0);
        let done = framed(frame::done(id, 0, slots, &[0; 32]));
        let number = if slots == 0 { SUM } else { GAP };
        missing.map(chunk).chain([(done, number), (init.clone(), 0)]).collect()
    }
}

/// The reply to an init or a chunk that is accepted.
pub fn acknowledged(packet: &Packet) -> Packet {
    let used = if frame::kind(packet.flags()) == Kind::Init { 21 } else { 36 };
    let mut bytes = packet.bytes[..used].to_vec();
    bytes[8] |= ACK;
    Packet { from: packet.to, to: packet.from, bytes }
}

/// The ids that have left, and why.
#[derive(Default)]
pub struct Left(BTreeMap<Id, Listed>);

impl Left {
    /// An id leaves, for good.
    pub fn add(&mut self, id: Id, why: Listed) {
        self.0.insert(id, why);
    }

    /// Whether an id has left.
    pub fn has(&self, id: &Id) -> bool {
        self.0.contains_key(id)
    }

    /// Whether none has left.
    pub fn is_empty(&self) -> bool {
        self.0.is_empty()
    }

    /// A line about each, for a reader of the calls.
    pub fn lines(&self) -> Vec<String> {
        let line = |(id, why): (&Id, &Listed)| {
            format!("{} has left the comparison: {}", faster_hex::hex_string(id), why.name())
        };
        self.0.iter().map(line).collect()
    }
}

#[cfg(test)]
mod tests {
    use super::*;
    use crate::call::{Setup, FRAME};

    /// A packet as a whole frame.
    fn packet(mut bytes: Vec<u8>) -> Packet {
        bytes.resize(FRAME, 0);
        Packet { from: [1; 16], to: [2; 16], bytes }
    }

    /// A message of this length arrives, without pieces.
    fn arriving(length: u64) -> Tally {
        let mut tally = Tally::new(&Setup { key: [0; 32], recv_cells: 2, send_cells: 2 });
        let init = packet(frame::init([1; 8], 0, length, &[]));
        tally.handled(&init, &Said { packets: vec![init.clone()], ..Said::default() });
        tally
    }

    /// Whether an id leaves at a chunk of these flags, index, offset and size.
    fn leaves(length: u64, flags: u8, index: u64, offset: u64, size: u64) -> bool {
        let chunk = packet(frame::chunk([1; 8], flags, index, offset, size, &[]));
        Listed::of(&chunk, &arriving(length)) == Some(Listed::ShortLastPiece)
    }

    #[test]
    fn an_id_leaves_at_a_short_piece_that_ends_its_message() {
        assert!(leaves(1_301, 0, 1, 1_300, 1), "the last piece of 1,301 bytes");
        assert!(leaves(1_301, 0, 0, 1_301, 0), "a piece of no bytes at the end");
        assert!(leaves(1_301, 0, 4, 1_052, 249), "just below 250, just below top");
        assert!(leaves(1_301, frame::DONE, 1, 1_300, 1), "a chunk by its first flag");
        assert!(leaves(251, 0, 0, 2, 249), "a message of two pieces of 250");
    }

    #[test]
    fn it_stays_at_any_other_packet() {
        assert!(!leaves(1_301, 0, 1, 1_299, 1) && !leaves(1_301, 0, 1, 1_301, 1), "one off the end");
        assert!(!leaves(1_301, 0, 4, 1_051, 250), "250 bytes");
        assert!(!leaves(1_301, 0, 5, 1_300, 1), "at top");
        assert!(!leaves(1_301, 0, 6, 1_300, 1), "above top");
        assert!(!leaves(1_301, 0, 1, u64::MAX, 1), "past 2^64");
        assert!(!leaves(1_301, ACK, 1, 1_300, 1), "an acknowledgement");
        assert!(!leaves(1_301, frame::INIT, 1, 1_300, 1), "an init by its first flag");
        assert!(!leaves(0, 0, 0, 0, 0) && !leaves(250, 0, 0, 1, 249), "top is 0");
        let unknown = packet(frame::chunk([2; 8], 0, 1, 1_300, 1, &[]));
        assert_eq!(Listed::of(&unknown, &arriving(1_301)), None, "no message of this id");
    }

    #[test]
    fn the_two_must_differ_as_it_is_listed() {
        let chunk = packet(frame::chunk([1; 8], 0, 1, 1_300, 1, b"x"));
        let asked = Listed::ShortLastPiece.asked(&chunk);
        assert_eq!((asked.number, asked.packets.len()), (0, 1));
        let reply = &asked.packets[0];
        assert_eq!((reply.from, reply.to), (chunk.to, chunk.from));
        assert_eq!(reply.bytes, frame::chunk([1; 8], ACK, 1, 1_300, 1, &[]));
        let refused = Said { number: SHORT_PIECE, ..Said::default() };
        let is_from = |said: &Said| Listed::ShortLastPiece.is_from(&chunk, said);
        assert!(is_from(&refused));
        assert!(!is_from(&Said { number: 10, ..Said::default() }));
        assert!(!is_from(&Said { number: SHORT_PIECE, ..asked }));
        assert!(!Listed::ShortLastPiece.is_refused(&refused) && !Listed::ShortLastPiece.keeps_stores());
        assert_eq!(Listed::ShortLastPiece.probes(&chunk, &arriving(1_301)), []);
    }

    const TOPIC: &[u8] = b"ducts";

    fn init(length: u64) -> Packet {
        packet(frame::init([1; 8], 0, length, TOPIC))
    }

    /// The message of an init arrives, with pieces of 250 bytes at these indexes.
    fn in_part(init: &Packet, indexes: &[u64]) -> Tally {
        let mut tally = Tally::new(&Setup { key: [0; 32], recv_cells: 2, send_cells: 2 });
        let replied = Said { packets: vec![init.clone()], ..Said::default() };
        tally.handled(init, &replied);
        for index in indexes {
            tally.handled(&packet(frame::chunk([1; 8], 0, *index, 0, 250, &[])), &replied);
        }
        tally
    }

    /// Whether an id leaves at this packet, where a piece has come behind `init(1_301)`.
    fn leaves_at(packet: &Packet) -> bool {
        Listed::of(packet, &in_part(&init(1_301), &[1])) == Some(Listed::EqualInit)
    }

    #[test]
    fn an_id_leaves_at_an_equal_init_behind_a_piece() {
        assert!(leaves_at(&init(1_301)));
        let mut other = init(1_301);
        other.bytes[9..12].fill(0xff);
        other.bytes[21 + TOPIC.len()..].fill(0xee);
        assert!(leaves_at(&other), "the rest of the frame");
        for flag in [frame::DONE, frame::ABORTED, frame::CHUNK, frame::READ, 0x02] {
            let mut other = init(1_301);
            other.bytes[8] |= flag;
            assert!(leaves_at(&other), "flag {flag:#04x}");
        }
        for index in [0, 5] {
            let tally = in_part(&init(1_301), &[index]);
            assert_eq!(Listed::of(&init(1_301), &tally), Some(Listed::EqualInit), "a piece at {index}");
        }
        let mut reply = init(1_301);
        reply.bytes[8] |= frame::REPLY;
        assert_eq!(Listed::of(&reply, &in_part(&reply, &[0])), Some(Listed::EqualInit));
    }

    #[test]
    fn it_stays_at_any_other_init() {
        let good = || init(1_301);
        assert!(!leaves_at(&Packet { from: [3; 16], ..good() }), "source");
        assert!(!leaves_at(&Packet { to: [3; 16], ..good() }), "destination");
        assert!(!leaves_at(&Packet { from: [2; 16], to: [1; 16], ..good() }), "the two swapped");
        assert!(!leaves_at(&init(1_300)), "length");
        for topic in [&b"duct"[..], b"ductS", b"ducts\0", b""] {
            assert!(!leaves_at(&packet(frame::init([1; 8], 0, 1_301, topic))), "topic {topic:?}");
        }
        let with = |flag: u8| {
            let mut other = good();
            other.bytes[8] |= flag;
            other
        };
        assert!(!leaves_at(&with(frame::REPLY)), "reply flag");
        assert!(!leaves_at(&with(ACK)), "an acknowledgement");
        assert_eq!(Listed::of(&good(), &in_part(&with(frame::REPLY), &[1])), None, "reply flag of the first");
        assert_eq!(Listed::of(&good(), &in_part(&good(), &[])), None, "no piece yet");
        let mut unknown = good();
        unknown.bytes[0] ^= 1;
        assert!(!leaves_at(&unknown), "another id");
        let mut bare = good();
        bare.bytes[8] = frame::ABORTED;
        assert!(!leaves_at(&bare), "no init");
    }

    #[test]
    fn to_an_equal_init_both_say_the_same() {
        let (listed, init) = (Listed::EqualInit, init(1_301));
        let asked = listed.asked(&init);
        assert_eq!((asked.number, asked.packets.len(), asked.woke), (0, 1, Some(Woke::No)));
        let reply = &asked.packets[0];
        assert_eq!((reply.from, reply.to), (init.to, init.from));
        assert_eq!(reply.bytes, frame::init([1; 8], ACK, 1_301, TOPIC)[..21]);
        assert!(listed.keeps_stores() && listed.is_from(&init, &asked) && !listed.is_refused(&asked));
        let twice = Said { packets: vec![reply.clone(), reply.clone()], ..Said::default() };
        for said in [Said::default(), Said { number: GAP, ..asked.clone() }, twice] {
            assert!(!listed.is_from(&init, &said), "{said:?}");
        }
        let refused = Said { number: CLOSED_TOPIC, ..Said::default() };
        assert!(listed.is_refused(&refused) && !listed.is_from(&init, &refused));
        assert!(!listed.is_refused(&Said { number: 5, ..Said::default() }));
    }

    /// The probes where a message of this length has pieces at these indexes: the indexes of the chunks,
    /// the count of the done, and the number that answers it.
    fn probes(length: u64, indexes: &[u64]) -> (Vec<u64>, u64, u64) {
        let init = init(length);
        let mut probes = Listed::EqualInit.probes(&init, &in_part(&init, indexes));
        assert_eq!(probes.pop(), Some((init.clone(), 0)), "the init again");
        let (done, number) = probes.pop().expect("a done");
        assert_eq!(frame::kind(done.flags()), Kind::Done);
        let chunks = probes.iter().map(|(chunk, number)| {
            assert_eq!((frame::kind(chunk.flags()), *number), (Kind::Chunk, 0));
            frame::field(&chunk.bytes, 0)
        });
        (chunks.collect(), frame::field(&done.bytes, 0), number)
    }

    #[test]
    fn the_probes_fill_what_was_empty() {
        assert_eq!(probes(1_300, &[0]), (vec![], 1, GAP));
        assert_eq!(probes(5_000, &[1, 3]), (vec![0, 2], 4, GAP));
        assert_eq!(probes(5_000, &[0, 1, 2, 3]), (vec![], 4, GAP), "all were there");
        assert_eq!(probes(5_000, &[2, 9]), (vec![0, 1, 3], 4, GAP), "the slots had grown");
        assert_eq!(probes(5_000, &[4, 9]), (vec![], 4, GAP), "by all pieces: the old count is 10");
        assert_eq!(probes(0, &[0]), (vec![], 0, SUM), "without slots there is no gap");
        assert_eq!(probes(5_000, &[]), (vec![0, 1, 2, 3], 4, GAP), "a gap there is then for no one");
    }

    #[test]
    fn an_id_that_has_left_stays_out() {
        let mut left = Left::default();
        assert!(left.is_empty() && !left.has(&[1; 8]));
        left.add([1; 8], Listed::ShortLastPiece);
        assert!(!left.is_empty() && left.has(&[1; 8]) && !left.has(&[2; 8]));
        assert_eq!(left.lines(), ["0101010101010101 has left the comparison: C-11, a short last piece"]);
    }
}
