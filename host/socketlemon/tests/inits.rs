//! Inits of a message that is arriving: an equal one is acknowledged and changes nothing, any other starts it again.

mod common;

use common::{message, push, send_at, Side, ID};
use socketlemon::{Address, Calendar, Id, Kind, Packet, Record, Refusal, Rules, FRAME, LONGEST_RUN};

const INIT: u8 = 0x80;
const DONE: u8 = 0x40;
const CHUNK: u8 = 0x10;
const REPLY: u8 = 0x04;
const ACK: u8 = 0x01;

/// The bytes of an init's acknowledgement.
const ACKNOWLEDGED: usize = 21;

const LENGTH: u64 = 1_300;
const TOPIC: &[u8] = b"survey";
const TABLET: Address = Address([5; 16]);

/// A packet that was made by hand: a whole frame, and its addresses.
#[derive(Clone)]
struct Made {
    from: Address,
    to: Address,
    frame: Vec<u8>,
}

impl Made {
    fn new(to: &Side, flags: u8, numbers: &[u64], tail: &[u8]) -> Made {
        let mut frame = [&ID.0[..], &[flags, 0, 0, 0]].concat();
        frame.extend(numbers.iter().flat_map(|n| n.to_be_bytes()));
        frame.extend_from_slice(tail);
        frame.resize(FRAME, 0);
        Made { from: TABLET, to: to.address, frame }
    }

    fn init(to: &Side, length: u64, topic: &[u8]) -> Made {
        Made::new(to, INIT, &[length], &[&[topic.len() as u8], topic].concat())
    }

    /// The run that acknowledges it, if it is an init.
    fn acknowledged(&self) -> Vec<u8> {
        let mut reply = self.frame[..ACKNOWLEDGED].to_vec();
        reply[8] |= ACK;
        [&[0, ACKNOWLEDGED as u8][..], &self.to.0, &self.from.0, &reply].concat()
    }
}

/// A side's answer to a packet: the bytes of the run, and the wake mark.
fn hand(side: &mut Side, made: &Made) -> Result<(Vec<u8>, bool), Refusal> {
    let mut run = [0; LONGEST_RUN];
    let packet = Packet { from: made.from, to: made.to, bytes: &made.frame };
    side.packet(packet, &mut run).map(|answer| (answer.run.as_bytes().to_vec(), answer.wake))
}

/// The init of the message that arrives in [`busy`].
fn good(side: &Side) -> Made {
    Made::init(side, LENGTH, TOPIC)
}

/// A side that holds a message whose slots have grown to two, with a piece in each, and sends one too.
fn busy() -> Side {
    let mut side = Side::new(2, 2);
    let data = message(2_600);
    side.send.push(&push(&side, &Side::new(1, 2), &data), &mut [0; LONGEST_RUN]).expect("push");
    let chunk = |side: &Side, index: u64, size: u64| {
        Made::new(side, CHUNK, &[index, 0, size], &message(size as usize))
    };
    for made in [good(&side), chunk(&side, 0, 1_050), chunk(&side, 1, 250)] {
        hand(&mut side, &made).expect("an acknowledgement");
    }
    assert_eq!(only(&side).slots, 2, "the init gave it one");
    side
}

/// The one record of a side's receive store.
fn only(side: &Side) -> Record {
    let records: Vec<Record> = side.receive.records().collect();
    assert_eq!(records.len(), 1);
    records[0].clone()
}

/// Asserts that a busy side acknowledges an init as usual, and that no byte of its stores has changed.
fn changes_nothing(what: &str, made: &Made) {
    let mut side = busy();
    let before = (side.receive.clone(), side.send.clone());
    assert_eq!(hand(&mut side, made), Ok((made.acknowledged(), false)), "{what}");
    assert!(side.receive == before.0 && side.send == before.1, "{what} changed a store");
    assert_eq!(only(&side).slots, 2, "{what}");
}

/// Asserts that a busy side starts its message again with an init: it then holds what one holds to whom this init is the first.
fn restarts(what: &str, made: &Made) {
    let (mut side, mut fresh) = (busy(), Side::new(2, 2));
    let before = side.send.clone();
    assert_eq!(hand(&mut side, made), Ok((made.acknowledged(), false)), "{what}");
    assert_eq!(hand(&mut fresh, made), Ok((made.acknowledged(), false)), "{what}");
    assert_eq!(only(&side), only(&fresh), "{what}");
    assert!(side.send == before, "{what} changed the send store");
    let count = u64::from(only(&side).slots);
    let done = Made::new(&side, DONE, &[count], &[]);
    assert_eq!(hand(&mut side, &done), Err(Refusal::Gap), "{what} left pieces");
}

#[test]
fn an_init_that_comes_again_changes_nothing() {
    changes_nothing("the same init", &good(&busy()));
}

#[test]
fn the_rest_of_the_frame_does_not_count() {
    let made = good(&busy());
    for place in 9..12 {
        let mut other = made.clone();
        other.frame[place] = 0xff;
        changes_nothing(&format!("another byte {place}"), &other);
    }
    for flag in [0x40, 0x20, 0x10, 0x08, 0x02] {
        let mut other = made.clone();
        other.frame[8] |= flag;
        changes_nothing(&format!("flag {flag:#04x}"), &other);
    }
    let mut other = made;
    other.frame[ACKNOWLEDGED + TOPIC.len()..].fill(0xee);
    changes_nothing("other bytes behind the topic", &other);
}

#[test]
fn each_of_the_five_counts() {
    let side = busy();
    let other = Address([6; 16]);
    restarts("another source", &Made { from: other, ..good(&side) });
    restarts("another destination", &Made { to: other, ..good(&side) });
    restarts("another length", &Made::init(&side, LENGTH - 1, TOPIC));
    restarts("another topic", &Made::init(&side, LENGTH, b"surveY"));
    restarts("a shorter topic", &Made::init(&side, LENGTH, b"surve"));
    restarts("a longer topic", &Made::init(&side, LENGTH, b"survey\0"));
    let mut reply = good(&side);
    reply.frame[8] |= REPLY;
    restarts("the reply flag", &reply);
}

/// Each byte of the addresses, the length and the topic counts.
#[test]
fn each_byte_of_the_five_counts() {
    for place in 0..16 {
        let mut made = good(&busy());
        made.from.0[place] ^= 1;
        restarts(&format!("another byte {place} of the source"), &made);
        let mut made = good(&busy());
        made.to.0[place] ^= 1;
        restarts(&format!("another byte {place} of the destination"), &made);
    }
    // the length's last two bytes: with any other the message would be too long
    for place in (18..20).chain(ACKNOWLEDGED..ACKNOWLEDGED + TOPIC.len()) {
        let mut made = good(&busy());
        made.frame[place] ^= 1;
        restarts(&format!("another byte {place} of the frame"), &made);
    }
}

#[test]
fn a_refused_one_changes_nothing() {
    let subnet = "600::/8".parse().expect("a subnet");
    let elsewhere = Rules::accept_unlisted().topic(TOPIC, &[subnet]).expect("a book");
    for (rules, refusal) in [
        (Rules::reject_unlisted(), Refusal::ClosedTopic),
        (elsewhere, Refusal::ClosedTopic),
        (Rules::from_bytes(&[]), Refusal::BadRules),
    ] {
        let mut side = busy();
        side.rules = rules;
        let before = (side.receive.clone(), side.send.clone());
        let made = good(&side);
        assert_eq!(hand(&mut side, &made), Err(refusal));
        assert!(side.receive == before.0 && side.send == before.1, "{refusal:?} changed a store");
    }
}

/// A reply's init reads no rule book, also when it comes again.
#[test]
fn no_rule_book_stops_a_reply() {
    let mut side = busy();
    let mut reply = good(&side);
    reply.frame[8] |= REPLY;
    hand(&mut side, &reply).expect("an acknowledgement");
    let chunk = Made::new(&side, CHUNK, &[0, 0, 250], &[]);
    hand(&mut side, &chunk).expect("an acknowledgement");
    side.rules = Rules::reject_unlisted();
    let before = side.receive.clone();
    assert_eq!(hand(&mut side, &reply), Ok((reply.acknowledged(), false)));
    assert!(side.receive == before);
}

#[test]
fn it_needs_no_free_record() {
    let mut side = busy();
    let made = good(&side);
    for id in 1..8 {
        let mut other = made.clone();
        other.frame[..8].copy_from_slice(&[id; 8]);
        hand(&mut side, &other).expect("an acknowledgement");
    }
    assert_eq!(side.receive.records().count(), 8);
    let before = side.receive.clone();
    assert_eq!(hand(&mut side, &made), Ok((made.acknowledged(), false)));
    assert!(side.receive == before);
}

#[test]
fn a_new_id_gets_a_record() {
    let mut side = busy();
    let mut made = good(&side);
    made.frame[0] ^= 1;
    hand(&mut side, &made).expect("an acknowledgement");
    let ids: Vec<Id> = side.receive.records().map(|record| record.id).collect();
    let mut other = ID;
    other.0[0] ^= 1;
    assert_eq!(ids, [ID, other]);
}

/// The pieces are there for the done, and a whole message has no more inits.
#[test]
fn the_message_becomes_whole() {
    let mut side = busy();
    let made = good(&side);
    hand(&mut side, &made).expect("an acknowledgement");
    let data = [message(1_050), message(250)].concat();
    let done = Made::new(&side, DONE, &[2], &sum(&data));
    hand(&mut side, &done).expect("the pieces are there");
    assert_eq!(only(&side).kind, Kind::Whole);
    assert_eq!(hand(&mut side, &made), Err(Refusal::AlreadyWhole));
    assert!(side.receive.take(&mut [0; LONGEST_RUN]).expect("take").0.data == data);
    hand(&mut side, &made).expect("the id is free");
    assert_eq!((only(&side).kind, only(&side).slots), (Kind::Arriving, 1));
}

/// The BLAKE3 sum of a message: a side that sends it in one piece puts it into its done.
fn sum(data: &[u8]) -> Vec<u8> {
    let (mut near, far) = (Side::new(1, 1), Side::new(2, 1));
    near.send.push(&push(&near, &far, data), &mut [0; LONGEST_RUN]).expect("push");
    let mut run = [0; LONGEST_RUN];
    for (flags, length) in [(INIT | ACK, 12), (CHUNK | ACK, 36)] {
        let made = Made::new(&near, flags, &[0], &[]);
        let packet = Packet { from: far.address, to: near.address, bytes: &made.frame[..length] };
        near.packet(packet, &mut run).expect("an acknowledgement of the peer");
    }
    let done = near.send.wake(send_at(0, &Calendar::always()), ID, &mut run).expect("wake");
    done.packets().next().expect("a done").bytes[20..52].to_vec()
}
