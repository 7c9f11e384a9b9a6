//! Notices: what the office tells a tablet beside the library's packets.
//!
//! A notice has the form of a packet without a flag: the message's id (8 bytes), a 0 where the flags stand, what is told (1), and a number (2). The library
//! refuses such a packet (20, no work) and changes nothing, so a tablet that knows no notices is not misled. The tablet here reads them before the library
//! sees them, and only from its office, about the message that it sends.

use socketlemon::Id;

const BYTES: usize = 12;
const FLAGS: usize = 8;
const TOLD: usize = 9;

/// What is told about a message.
#[derive(Clone, Copy, Debug, PartialEq, Eq)]
pub enum Notice {
    /// 1: its init is not taken yet; so many tablets wait before it.
    Wait(u16),
    /// 2: the office does not have it, and has no receipt for it.
    Gone,
    /// 3: the key of its source is not known.
    Stranger,
}

impl Notice {
    /// The packet of a notice about a message.
    pub fn write(self, id: Id) -> [u8; BYTES] {
        let (told, number) = match self {
            Notice::Wait(before) => (1, before),
            Notice::Gone => (2, 0),
            Notice::Stranger => (3, 0),
        };
        let mut packet = [0; BYTES];
        packet[..FLAGS].copy_from_slice(&id.0);
        packet[TOLD] = told;
        packet[TOLD + 1..].copy_from_slice(&number.to_be_bytes());
        packet
    }

    /// The notice of a packet, and the message that it is about; nothing if it is none.
    pub fn read(packet: &[u8]) -> Option<(Id, Notice)> {
        let packet: &[u8; BYTES] = packet.try_into().ok()?;
        let number = u16::from_be_bytes([packet[TOLD + 1], packet[TOLD + 2]]);
        let notice = match (packet[FLAGS], packet[TOLD], number) {
            (0, 1, before) => Notice::Wait(before),
            (0, 2, 0) => Notice::Gone,
            (0, 3, 0) => Notice::Stranger,
            _ => return None,
        };
        let mut id = [0; FLAGS];
        id.copy_from_slice(&packet[..FLAGS]);
        Some((Id(id), notice))
    }
}

#[cfg(test)]
mod tests {
    use super::*;
    use socketlemon::{Address, Arrival, Refusal, Role, Rules, Store, PACKET_RUN};

    const ALL: [Notice; 5] =
        [Notice::Wait(0), Notice::Wait(3), Notice::Wait(u16::MAX), Notice::Gone, Notice::Stranger];

    #[test]
    fn a_notice_is_read_as_it_was_written() {
        for notice in ALL {
            let packet = notice.write(Id([7; 8]));
            assert_eq!(Notice::read(&packet), Some((Id([7; 8]), notice)));
            assert_eq!(Notice::read(&packet[1..]), None);
            assert_eq!(Notice::read(&[&packet[..], &[0]].concat()), None);
        }
        for (place, byte) in [(FLAGS, 0x80), (FLAGS, 1), (TOLD, 0), (TOLD, 4), (TOLD + 2, 1)] {
            let mut packet = Notice::Gone.write(Id([7; 8]));
            packet[place] = byte;
            assert_eq!(Notice::read(&packet), None, "byte {place} is {byte}");
        }
    }

    #[test]
    fn the_library_takes_none_for_a_packet() {
        let store = |role| Store::new(role, 1).expect("a store");
        let (mut receive, mut send, rules) =
            (store(Role::Receive), store(Role::Send), Rules::accept_unlisted());
        for notice in ALL {
            let frame = &notice.write(Id([7; 8]))[..];
            let arrival =
                Arrival { frame, from: Address([4; 16]), to: Address([5; 16]), rules: &rules, known: true };
            let answer = receive.packet(&mut send, &arrival, &mut [0; PACKET_RUN]).map(|_| ());
            assert_eq!(answer, Err(Refusal::NoWork));
        }
        assert_eq!((receive, send), (store(Role::Receive), store(Role::Send)));
    }
}
