//! Receipts: the acknowledgements of dones, kept for as long as a tablet may ask.
//!
//! The library acknowledges a done once: when it comes again, the message is no longer arriving, and the done is refused as an unknown id. If the one
//! acknowledgement is lost, the tablet would not learn that its survey has arrived. So the office keeps the acknowledgements and sends one again when the very
//! same done comes again, or when another packet of that message comes late: to the tablet that is a datagram which the link repeated.

use crate::datagram::{Arrived, DONE_BYTES};
use socketlemon::{Address, Id, Packet};
use std::collections::VecDeque;

const ADDRESS: usize = 16;
const ACKNOWLEDGEMENT: usize = 2 * ADDRESS + DONE_BYTES;
const TIME: usize = 8;

/// Where the id and the sum stand in an acknowledgement with its addresses.
const ID: usize = 2 * ADDRESS;
const SUM: usize = ACKNOWLEDGEMENT - 32;

/// The bytes of a row: an acknowledgement with its addresses, and when it was given, in milliseconds since 1970.
pub const ROW: usize = ACKNOWLEDGEMENT + TIME;

/// How long a receipt is kept: a day longer than the longest deadline of a tablet.
const KEPT_MS: u64 = 31 * 86_400_000;

/// How many are kept at most; beyond that the oldest goes.
pub const MOST: usize = 4_096;

/// A receipt: from-address, to-address and packet of an acknowledgement, and its time.
#[derive(Clone, Copy, Debug, PartialEq, Eq)]
struct Receipt {
    bytes: [u8; ACKNOWLEDGEMENT],
    given_ms: u64,
}

impl Receipt {
    fn packet(&self) -> Packet<'_> {
        let address = |place: usize| {
            let mut bytes = [0; ADDRESS];
            bytes.copy_from_slice(&self.bytes[place..place + ADDRESS]);
            Address(bytes)
        };
        Packet { from: address(0), to: address(ADDRESS), bytes: &self.bytes[ID..] }
    }

    /// A receipt of a row of bytes.
    fn read(row: &[u8]) -> Option<Receipt> {
        let (bytes, time) = row.split_at(ACKNOWLEDGEMENT);
        Some(Receipt { bytes: bytes.try_into().ok()?, given_ms: u64::from_be_bytes(time.try_into().ok()?) })
    }
}

/// The receipts, oldest first.
#[derive(Clone, Debug, Default, PartialEq, Eq)]
pub struct Receipts(VecDeque<Receipt>);

impl Receipts {
    /// Keeps the receipt of a packet that was acknowledged, if it is a done, and lets go of those that are too old or too many. Says whether it is a done.
    pub fn keep(&mut self, done: &Arrived, now_ms: u64) -> bool {
        match acknowledgement(done) {
            Some(bytes) => {
                // a clock that was put back lets none go
                self.0.retain(|receipt| now_ms.saturating_sub(receipt.given_ms) < KEPT_MS);
                while self.0.len() >= MOST {
                    self.0.pop_front();
                }
                self.0.push_back(Receipt { bytes, given_ms: now_ms });
                true
            }
            None => false,
        }
    }

    /// The acknowledgement of a done that was acknowledged before, to the last byte.
    pub fn find(&self, done: &Arrived) -> Option<Packet<'_>> {
        let wanted = acknowledgement(done)?;
        self.0.iter().find(|kept| kept.bytes == wanted).map(Receipt::packet)
    }

    /// The acknowledgement of the done of a message, by its source and id.
    pub fn of(&self, source: Address, id: Id) -> Option<Packet<'_>> {
        let fits = |kept: &&Receipt| kept.bytes[ADDRESS..ID] == source.0 && kept.bytes[ID..ID + 8] == id.0;
        self.0.iter().rev().find(fits).map(Receipt::packet)
    }

    /// The BLAKE3 sum of a message that has a receipt: the one that its done brought, and the library has checked.
    pub fn sum(&self, source: Address, id: Id) -> Option<[u8; 32]> {
        self.of(source, id)?.bytes.get(SUM - ID..)?.try_into().ok()
    }

    /// The receipts as rows.
    pub fn to_bytes(&self) -> Vec<u8> {
        self.0
            .iter()
            .flat_map(|receipt| receipt.bytes.into_iter().chain(receipt.given_ms.to_be_bytes()))
            .collect()
    }

    /// The receipts of rows that were kept; nothing if they are none.
    pub fn from_bytes(bytes: &[u8]) -> Option<Receipts> {
        let rows = bytes.chunks_exact(ROW);
        if !rows.remainder().is_empty() || rows.len() > MOST {
            return None;
        }
        rows.map(Receipt::read).collect::<Option<_>>().map(Receipts)
    }

    /// How many there are.
    pub fn count(&self) -> usize {
        self.0.len()
    }
}

fn acknowledgement(done: &Arrived) -> Option<[u8; ACKNOWLEDGEMENT]> {
    let mut bytes = [0; ACKNOWLEDGEMENT];
    let Address(from) = done.to;
    let Address(to) = done.from;
    bytes[..ADDRESS].copy_from_slice(&from);
    bytes[ADDRESS..ID].copy_from_slice(&to);
    bytes[ID..].copy_from_slice(&done.done_acknowledgement()?);
    Some(bytes)
}

#[cfg(test)]
mod tests {
    use super::*;

    fn done(id: u8) -> Arrived {
        let mut frame = vec![0; DONE_BYTES];
        frame[..8].copy_from_slice(&[id; 8]);
        frame[8] = 0x40;
        frame[12..52].copy_from_slice(&[id; 40]);
        Arrived { from: Address([5; 16]), to: Address([4; 16]), frame }
    }

    #[test]
    fn only_the_very_same_done_finds_its_receipt() {
        let mut receipts = Receipts::default();
        assert_eq!(receipts.find(&done(1)), None);
        receipts.keep(&done(1), 0);
        let same = done(1);
        let packet = receipts.find(&same).expect("a receipt");
        assert_eq!((packet.from, packet.to), (same.to, same.from));
        assert_eq!(packet.bytes[8], 0x41);
        assert_eq!((&packet.bytes[..8], &packet.bytes[9..]), (&same.frame[..8], &same.frame[9..52]));
        for place in (0..52).filter(|place| *place != 8) {
            let mut other = done(1);
            other.frame[place] ^= 1;
            assert_eq!(receipts.find(&other), None, "byte {place} differs");
        }
        assert_eq!(receipts.find(&Arrived { from: Address([6; 16]), ..done(1) }), None);
    }

    #[test]
    fn the_bytes_behind_a_done_do_not_count_and_a_cut_one_is_none() {
        let mut receipts = Receipts::default();
        let (mut longer, mut cut) = (done(1), done(1));
        longer.frame.push(9);
        cut.frame.pop();
        assert!(!receipts.keep(&cut, 0));
        assert_eq!(receipts, Receipts::default());
        receipts.keep(&done(1), 0);
        assert_eq!(receipts.find(&longer), receipts.find(&done(1)));
        assert_eq!(receipts.find(&cut), None);
        let mut other = done(2);
        other.frame[8] = 0x80;
        assert!(!receipts.keep(&other, 0));
        assert_eq!(receipts.to_bytes().len(), ROW, "an init has no receipt");
    }

    /// A done of its own for each number.
    fn numbered(number: u64) -> Arrived {
        let mut arrived = done(7);
        arrived.frame[..8].copy_from_slice(&number.to_be_bytes());
        arrived
    }

    #[test]
    fn receipts_live_as_long_as_a_tablet_may_ask() {
        let mut receipts = Receipts::default();
        (0..1_000).for_each(|number| assert!(receipts.keep(&numbered(number), number)));
        assert!((0..1_000).all(|number| receipts.find(&numbered(number)).is_some()));
        receipts.keep(&done(1), KEPT_MS + 499);
        assert!(receipts.find(&numbered(499)).is_none());
        assert!((500..1_000).all(|number| receipts.find(&numbered(number)).is_some()));
        receipts.keep(&done(2), 0);
        assert_eq!(receipts.count(), 502, "the clock was put back");
    }

    #[test]
    fn beyond_the_most_the_oldest_goes_first() {
        let mut receipts = Receipts::default();
        (0..=MOST as u64).for_each(|number| assert!(receipts.keep(&numbered(number), 0)));
        assert_eq!(receipts.find(&numbered(0)), None);
        assert!((1..=MOST as u64).all(|number| receipts.find(&numbered(number)).is_some()));
    }

    #[test]
    fn a_message_has_its_receipt_and_sum_by_source_and_id() {
        let mut receipts = Receipts::default();
        receipts.keep(&done(1), 0);
        assert_eq!(receipts.of(Address([5; 16]), Id([1; 8])), receipts.find(&done(1)));
        assert_eq!(receipts.sum(Address([5; 16]), Id([1; 8])), Some([1; 32]));
        assert_eq!(receipts.of(Address([5; 16]), Id([2; 8])), None);
        assert_eq!(receipts.of(Address([4; 16]), Id([1; 8])), None);
    }

    #[test]
    fn receipts_go_on_from_their_bytes() {
        let mut receipts = Receipts::default();
        receipts.keep(&done(1), 0);
        receipts.keep(&done(2), 9);
        let bytes = receipts.to_bytes();
        assert_eq!(Receipts::from_bytes(&bytes), Some(receipts));
        assert_eq!(Receipts::from_bytes(&bytes[1..]), None);
        assert_eq!(Receipts::from_bytes(&[0; ROW * (MOST + 1)]), None);
        assert_eq!(Receipts::from_bytes(&[]), Some(Receipts::default()));
    }
}
