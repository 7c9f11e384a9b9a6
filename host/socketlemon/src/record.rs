//! Records: what a store keeps of a message beside its pieces.

use crate::{Address, Id};

/// The bytes of a record.
pub(crate) const RECORD: usize = 328;

/// What kind of message a record holds.
#[derive(Clone, Copy, Debug, PartialEq, Eq, Hash)]
pub enum Kind {
    /// It is being received, and not whole yet.
    Arriving,
    /// It is whole, and can be taken.
    Whole,
    /// It is being sent.
    Leaving,
}

/// A message's record.
#[derive(Clone, Debug, PartialEq, Eq)]
pub struct Record {
    /// Whether it is arriving, whole or leaving.
    pub kind: Kind,
    /// Its id.
    pub id: Id,
    /// Whether it is a reply, which no rule book stops.
    pub reply: bool,
    /// The address that it comes from.
    pub source: Address,
    /// The address that it goes to.
    pub destination: Address,
    /// How many bytes the message has.
    pub length: u64,
    /// How many pieces it has, or will have as far as is known.
    pub slots: u8,
    /// Its topic.
    pub topic: Vec<u8>,
    /// When a leaving message was pushed, in milliseconds; else 0.
    pub created_ms: u64,
    /// When its try time ends, in milliseconds; 0 unless it is leaving.
    pub end_ms: u64,
}

impl Record {
    /// Reads a record; nothing if it is free or not of 328 bytes.
    pub(crate) fn read(bytes: &[u8]) -> Option<Record> {
        let bytes: &[u8; RECORD] = bytes.try_into().ok()?;
        let kind = match bytes[1] {
            1 => Kind::Arriving,
            2 => Kind::Whole,
            3 => Kind::Leaving,
            _ => return None,
        };
        Some(Record {
            kind,
            id: Id(field(bytes, 8)),
            reply: bytes[2] != 0,
            source: Address(field(bytes, 16)),
            destination: Address(field(bytes, 32)),
            length: u64::from_be_bytes(field(bytes, 48)),
            slots: bytes[7],
            topic: bytes[72..72 + usize::from(bytes[6])].to_vec(),
            created_ms: u64::from_be_bytes(field(bytes, 56)),
            end_ms: u64::from_be_bytes(field(bytes, 64)),
        })
    }
}

/// The field of N bytes at a place.
pub(crate) fn field<const N: usize>(bytes: &[u8], place: usize) -> [u8; N] {
    let mut out = [0; N];
    out.copy_from_slice(&bytes[place..place + N]);
    out
}

/// A message that was taken from the receive store: its record as it stood, and its data.
#[derive(Clone, Debug, PartialEq, Eq)]
pub struct Taken {
    /// Its record, of kind [`Kind::Whole`].
    pub record: Record,
    /// Its data: the pieces joined by index.
    pub data: Vec<u8>,
}

#[cfg(test)]
mod tests {
    use super::*;

    #[test]
    fn a_record_is_read_at_its_places() {
        let mut bytes = [0; RECORD];
        bytes[1] = 3;
        bytes[2] = 1;
        bytes[6] = 255;
        bytes[7] = 25;
        bytes[8..16].copy_from_slice(&[8; 8]);
        bytes[16..32].copy_from_slice(&[16; 16]);
        bytes[32..48].copy_from_slice(&[32; 16]);
        bytes[54..56].copy_from_slice(&[1, 2]);
        bytes[63] = 9;
        bytes[70..72].copy_from_slice(&[1, 0]);
        bytes[72..327].copy_from_slice(&[b't'; 255]);
        let record = Record {
            kind: Kind::Leaving,
            id: Id([8; 8]),
            reply: true,
            source: Address([16; 16]),
            destination: Address([32; 16]),
            length: 258,
            slots: 25,
            topic: vec![b't'; 255],
            created_ms: 9,
            end_ms: 256,
        };
        assert_eq!(Record::read(&bytes), Some(record));
    }

    #[test]
    fn free_records_and_other_lengths_are_none() {
        assert_eq!(Record::read(&[0; RECORD]), None);
        assert_eq!(Record::read(&[4; RECORD]), None);
        for length in [0, RECORD - 1, RECORD + 1] {
            assert_eq!(Record::read(&vec![1; length]), None);
        }
    }
}
