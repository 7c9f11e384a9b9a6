//! Frames as they came: how many bytes each packet of a transfer needs, and that those behind them are not read.

mod common;

use common::{message, push, send_at, Side, ID};
use socketlemon::{
    Address, Calendar, Packet, Refusal, Run, State, Wake, FRAME, LONGEST_RUN, PACKET_RUN, PUSH_RUN,
};

const CHUNK: u8 = 0x10;

/// What a header needs, and with it every packet without fields that are read.
const HEADER: usize = 12;
/// What a chunk needs before its piece, and its acknowledgement without one.
const CHUNK_FIELDS: usize = 36;
const SIZE_PLACE: usize = 28;

/// What comes of a packet: the run that answers it, and the stores behind it.
type Outcome = (Vec<u8>, bool, [Vec<u8>; 2]);

fn stores(side: &Side) -> [Vec<u8>; 2] {
    [side.receive.as_bytes().to_vec(), side.send.as_bytes().to_vec()]
}

/// Hands bytes over as a packet.
fn hand(side: &mut Side, packet: Packet<'_>, bytes: &[u8]) -> Result<Outcome, Refusal> {
    let mut run = [0; PACKET_RUN];
    let answer = side.packet(Packet { bytes, ..packet }, &mut run)?;
    let (run, wake) = (answer.run.as_bytes().to_vec(), answer.wake);
    Ok((run, wake, stores(side)))
}

/// Asserts that a frame is refused, and that nothing has changed.
fn refused(side: &mut Side, packet: Packet<'_>, bytes: &[u8], refusal: Refusal) {
    let before = stores(side);
    assert_eq!(hand(side, packet, bytes), Err(refusal), "{} bytes", bytes.len());
    assert!(stores(side) == before, "{refusal} changed a store");
}

/// Hands over a packet that needs so many bytes, and gives the packets that answer it. With fewer it was refused;
/// with as many, or with more than it has, it does the same.
fn needs(side: &mut Side, packet: Packet<'_>, needed: usize) -> Vec<u8> {
    let mut longest = packet.bytes.to_vec();
    longest.resize(FRAME + 1, 0xff);
    refused(side, packet, &[], Refusal::BadFrame);
    refused(side, packet, &longest, Refusal::BadFrame);
    for length in 1..needed {
        refused(side, packet, &longest[..length], Refusal::ShortFrame);
    }
    let before = (side.receive.clone(), side.send.clone());
    let whole = hand(side, packet, packet.bytes).expect("a packet of the transfer");
    assert!(whole.2 != [before.0.as_bytes(), before.1.as_bytes()], "it changes something");
    // of an acknowledgement less is needed than comes
    for length in (needed..packet.bytes.len()).chain([packet.bytes.len() + 1, FRAME - 1, FRAME]) {
        (side.receive, side.send) = before.clone();
        let outcome = hand(side, packet, &longest[..length]);
        assert!(outcome.as_ref() == Ok(&whole), "{length} bytes do something else");
    }
    whole.0
}

/// The one packet of a run.
fn only(run: &[u8]) -> Packet<'_> {
    let packets: Vec<Packet<'_>> = Run::from_bytes(run).packets().collect();
    assert_eq!(packets.len(), 1);
    packets[0]
}

/// A tablet that has pushed a message, an office, and the run with its init.
fn pushed(data: &[u8]) -> (Side, Side, Vec<u8>) {
    let (mut tablet, office) = (Side::new(1, 2), Side::new(2, 2));
    let mut run = [0; PUSH_RUN];
    let init = tablet.send.push(&push(&tablet, &office, data), &mut run).expect("push").as_bytes().to_vec();
    (tablet, office, init)
}

/// What the tablet sends at a clock.
fn wake(tablet: &mut Side, clock_ms: u64) -> Vec<u8> {
    let mut run = [0; LONGEST_RUN];
    let out = tablet.send.wake(send_at(clock_ms, &Calendar::always()), ID, &mut run).expect("wake");
    out.as_bytes().to_vec()
}

#[test]
fn each_packet_of_a_transfer_needs_its_bytes() {
    let data = message(300);
    let (mut tablet, mut office, init) = pushed(&data);
    let reply = needs(&mut office, only(&init), 21 + b"survey".len());
    assert_eq!(needs(&mut tablet, only(&reply), HEADER), []);
    let chunk = wake(&mut tablet, 100);
    let reply = needs(&mut office, only(&chunk), CHUNK_FIELDS + data.len());
    assert_eq!(needs(&mut tablet, only(&reply), CHUNK_FIELDS), []);
    let done = wake(&mut tablet, 200);
    let reply = needs(&mut office, only(&done), 52);
    assert_eq!(needs(&mut tablet, only(&reply), HEADER), []);
    let mut run = [0; LONGEST_RUN];
    let (taken, read) = office.receive.take(&mut run).expect("a message");
    assert!(taken.data == data, "with bytes of no other frame");
    assert_eq!(needs(&mut tablet, only(read.as_bytes()), HEADER), []);
    assert_eq!(tablet.send.report(ID).expect("report").state, State::Read);
}

#[test]
fn so_does_the_end_of_one() {
    let (mut tablet, mut office, init) = pushed(b"late");
    office.packet(only(&init), &mut [0; PACKET_RUN]).expect("an init");
    let mut run = [0; LONGEST_RUN];
    let aborted = tablet.send.wake(Wake::Deadline, ID, &mut run).expect("wake");
    assert_eq!(needs(&mut office, only(aborted.as_bytes()), HEADER), []);
    assert_eq!(office.receive.records().count(), 0);
}

/// What a damaged size field says more than came is missing, and is not taken from anywhere.
#[test]
fn a_damaged_size_field_picks_nothing_up() {
    let mut office = Side::new(2, 2);
    let (from, to) = (Address([5; 16]), office.address);
    let init = [&ID.0[..], &[0x80, 0, 0, 0], &1_400u64.to_be_bytes(), &[0]].concat();
    office.packet(Packet { from, to, bytes: &init }, &mut [0; PACKET_RUN]).expect("an init");
    let mut chunk = [&ID.0[..], &[CHUNK, 0, 0, 0], &[0; 24], &message(1_364)].concat();
    assert_eq!(chunk.len(), FRAME);
    for size in [251, 300, 1_364, 1_365, 1 << 32, u64::MAX - 36, u64::MAX - 35, u64::MAX - 34, u64::MAX] {
        chunk[SIZE_PLACE..CHUNK_FIELDS].copy_from_slice(&size.to_be_bytes());
        let packet = Packet { from, to, bytes: &chunk };
        for length in [CHUNK_FIELDS, CHUNK_FIELDS + 1, CHUNK_FIELDS + 250] {
            refused(&mut office, packet, &chunk[..length], Refusal::ShortFrame);
        }
        if size > 1_364 {
            refused(&mut office, packet, &chunk, Refusal::ShortFrame);
        }
    }
    chunk[SIZE_PLACE..CHUNK_FIELDS].copy_from_slice(&1_364u64.to_be_bytes());
    let packet = Packet { from, to, bytes: &chunk };
    assert!(hand(&mut office, packet, &chunk).is_ok(), "the largest piece");
}
