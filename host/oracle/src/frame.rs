//! Frames made by hand, and the fields of frames.

use crate::call::{Id, ACK, BAD_FRAME, FRAME, SHORT_FRAME};

pub const INIT: u8 = 0x80;
pub const DONE: u8 = 0x40;
pub const ABORTED: u8 = 0x20;
pub const CHUNK: u8 = 0x10;
pub const READ: u8 = 0x08;
pub const REPLY: u8 = 0x04;

/// The largest piece that a frame holds.
pub const LARGEST_PIECE: u64 = 1364;

/// What a packet is for, by the first flag that fits.
#[derive(Clone, Copy, Debug, PartialEq, Eq)]
pub enum Kind {
    Init,
    Chunk,
    Done,
    Read,
    Aborted,
    None,
}

/// The kind that the flags say, ack or not.
pub fn kind(flags: u8) -> Kind {
    let kinds = [
        (INIT, Kind::Init),
        (CHUNK, Kind::Chunk),
        (DONE, Kind::Done),
        (READ, Kind::Read),
        (ABORTED, Kind::Aborted),
    ];
    let kind = kinds.iter().find(|(flag, _)| flags & flag != 0).map_or(Kind::None, |(_, kind)| *kind);
    match kind {
        Kind::Read | Kind::Aborted if flags & ACK != 0 => Kind::None,
        kind => kind,
    }
}

/// Whether the flags say an init that is no acknowledgement.
pub fn is_init(flags: u8) -> bool {
    flags & ACK == 0 && kind(flags) == Kind::Init
}

/// A packet with an empty body.
pub fn bare(id: Id, flags: u8) -> Vec<u8> {
    [&id[..], &[flags, 0, 0, 0]].concat()
}

pub fn init(id: Id, flags: u8, length: u64, topic: &[u8]) -> Vec<u8> {
    [&bare(id, INIT | flags)[..], &length.to_be_bytes(), &[topic.len() as u8], topic].concat()
}

/// A chunk with a size field of its own.
pub fn chunk(id: Id, flags: u8, index: u64, offset: u64, size: u64, data: &[u8]) -> Vec<u8> {
    [&bare(id, CHUNK | flags)[..], &index.to_be_bytes(), &offset.to_be_bytes(), &size.to_be_bytes(), data]
        .concat()
}

pub fn done(id: Id, flags: u8, count: u64, sum: &[u8; 32]) -> Vec<u8> {
    [&bare(id, DONE | flags)[..], &count.to_be_bytes(), sum].concat()
}

/// The bytes of a header, of an init before its topic, of a chunk before its piece, and of a done.
const HEADER: usize = 12;
const INIT_FIELDS: usize = 21;
const CHUNK_FIELDS: usize = 36;
const DONE_BYTES: usize = 52;

/// How many bytes a packet needs, by those that came; where the byte that says so has not come, at least up to it.
pub fn needed(frame: &[u8]) -> u128 {
    let flags = frame.get(8).copied().unwrap_or(0);
    let bytes = match (kind(flags), flags & ACK != 0) {
        (Kind::Init, false) => INIT_FIELDS + frame.get(20).map_or(0, |topic| usize::from(*topic)),
        (Kind::Chunk, false) if frame.len() >= CHUNK_FIELDS => {
            // exact, also for a size near 2^64
            return CHUNK_FIELDS as u128 + u128::from(field(frame, 2));
        }
        (Kind::Chunk, _) => CHUNK_FIELDS,
        (Kind::Done, false) => DONE_BYTES,
        _ => HEADER,
    };
    bytes as u128
}

/// The refusal of a frame for its length alone, by document 02; the original knows none.
pub fn refusal(frame: &[u8]) -> Option<u64> {
    match frame.len() {
        length if !(1..=FRAME).contains(&length) => Some(BAD_FRAME),
        length if (length as u128) < needed(frame) => Some(SHORT_FRAME),
        _ => None,
    }
}

/// Field number `place` of eight bytes in the body: an init's length, a chunk's index, offset and size, a done's count.
pub fn field(frame: &[u8], place: usize) -> u64 {
    let at = 12 + 8 * place;
    u64::from_be_bytes(frame[at..at + 8].try_into().expect("eight bytes"))
}

/// The topic of an init.
pub fn topic(frame: &[u8]) -> &[u8] {
    &frame[21..21 + usize::from(frame[20])]
}

/// The bytes of a chunk's piece.
pub fn piece(frame: &[u8]) -> &[u8] {
    &frame[36..36 + field(frame, 2).min(LARGEST_PIECE) as usize]
}

#[cfg(test)]
mod tests {
    use super::*;

    /// How many bytes a packet needs where all of it has come, and where one byte is missing.
    fn whole(mut bytes: Vec<u8>) -> u128 {
        let needs = needed(&bytes);
        bytes.resize(FRAME, 0xee);
        assert_eq!(needed(&bytes), needs, "what follows is no part of it");
        needs
    }

    #[test]
    fn each_kind_needs_its_bytes() {
        assert_eq!(whole(init([1; 8], 0, 9, b"ducts")), 26);
        assert_eq!(whole(init([1; 8], CHUNK | DONE, 9, &[7; 255])), 276);
        assert_eq!(whole(chunk([1; 8], 0, 0, 0, 250, &[7; 250])), 286);
        assert_eq!(whole(chunk([1; 8], DONE, 0, 0, 0, &[])), 36);
        assert_eq!(whole(done([1; 8], READ, 9, &[7; 32])), 52);
        for flags in
            [READ, ABORTED, READ | ABORTED, 0, REPLY, ACK, READ | ACK, DONE | ACK, INIT | CHUNK | ACK]
        {
            assert_eq!(whole(bare([1; 8], flags)), 12, "flags {flags:#04x}");
        }
        for size in [0, 1_364, u64::MAX] {
            assert_eq!(whole(chunk([1; 8], ACK, 0, 0, size, &[])), 36);
            assert_eq!(whole(chunk([1; 8], ACK | DONE, 0, 0, size, &[])), 36);
        }
        assert_eq!(whole(chunk([1; 8], 0, 0, 0, u64::MAX, &[])), (1 << 64) + 35, "nothing wraps");
    }

    #[test]
    fn a_frame_is_refused_for_its_length() {
        let refused = |frame: &[u8], length: usize| refusal(&frame[..length]);
        for (packet, needs) in [
            (init([1; 8], 0, 9, b"ducts"), 26),
            (chunk([1; 8], 0, 0, 0, 1_364, &[7; 1_364]), 1_400),
            (chunk([1; 8], ACK, 0, 0, 1_364, &[]), 36),
            (done([1; 8], 0, 9, &[7; 32]), 52),
            (bare([1; 8], DONE | ACK), 12),
            (bare([1; 8], 0), 12),
        ] {
            let frame = [packet, vec![0xee; FRAME + 1]].concat();
            assert_eq!([0, FRAME + 1].map(|length| refused(&frame, length)), [Some(BAD_FRAME); 2]);
            assert!((1..needs).all(|length| refused(&frame, length) == Some(SHORT_FRAME)));
            assert!((needs..=FRAME).all(|length| refused(&frame, length).is_none()));
        }
        for size in [1_365, u64::MAX - 36, u64::MAX - 35, u64::MAX] {
            let frame = [chunk([1; 8], 0, 0, 0, size, &[]), vec![0; FRAME]].concat();
            assert!((1..=FRAME).all(|length| refused(&frame, length) == Some(SHORT_FRAME)), "size {size}");
        }
    }
}
