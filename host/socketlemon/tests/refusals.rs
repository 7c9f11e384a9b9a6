//! Each refusal but the 26th and those from the 28th on, brought about by a call; none of them changes a
//! store or a buffer. A `Calendar` is never refused: the tests of its module bring about 26, with bytes that
//! are none. 28, 29 and 31 have files of their own, `sources.rs`, `sums.rs` and `plan.rs`; no call answers 30.

mod common;

use common::{message, push, send_at, Side, ID};
use socketlemon::{
    Address, Calendar, Id, Packet, Push, Refusal, Rules, Wake, FRAME, LONGEST_RUN, PACKET_RUN, PUSH_RUN,
    TAKE_RUN, WAKE_RUN,
};

const INIT: u8 = 0x80;
const DONE: u8 = 0x40;
const CHUNK: u8 = 0x10;
const READ: u8 = 0x08;
const ACK: u8 = 0x01;

/// The sum of a message without bytes, as the BLAKE3 paper's vectors have it.
const EMPTY_SUM: [u8; 32] = [
    0xaf, 0x13, 0x49, 0xb9, 0xf5, 0xf9, 0xa1, 0xa6, 0xa0, 0x40, 0x4d, 0xea, 0x36, 0xdc, 0xc9, 0x49, 0x9b,
    0xcb, 0x25, 0xc9, 0xad, 0xc1, 0x12, 0xb7, 0xcc, 0x9a, 0x93, 0xca, 0xe4, 0x1f, 0x32, 0x62,
];

fn packet(id: Id, flags: u8, numbers: &[u64], tail: &[u8]) -> Vec<u8> {
    let mut bytes = [&id.0[..], &[flags, 0, 0, 0]].concat();
    bytes.extend(numbers.iter().flat_map(|n| n.to_be_bytes()));
    bytes.extend_from_slice(tail);
    bytes
}

/// A chunk with as many bytes as it says.
fn chunk(id: Id, index: u64, offset: u64, size: u64) -> Vec<u8> {
    packet(id, CHUNK, &[index, offset, size], &message(size as usize))
}

/// The answer of a side to a call with a run buffer of so many bytes. A refusal has changed neither a store nor the buffer.
fn call<T>(
    side: &mut Side,
    run_bytes: usize,
    call: impl FnOnce(&mut Side, &mut [u8]) -> Result<T, Refusal>,
) -> Result<T, Refusal> {
    let before = (side.receive.clone(), side.send.clone());
    let mut run = vec![0xee; run_bytes];
    let answer = call(side, &mut run);
    if answer.is_err() {
        assert!((&side.receive, &side.send) == (&before.0, &before.1), "a refusal changed a store");
        assert!(run.iter().all(|byte| *byte == 0xee), "a refusal wrote into the run");
    }
    answer
}

/// The answer of a side to a packet made by hand: how many bytes it sends.
fn hand(side: &mut Side, bytes: &[u8]) -> Result<usize, Refusal> {
    hand_short(side, bytes, LONGEST_RUN)
}

/// The same with a run buffer of so many bytes.
fn hand_short(side: &mut Side, bytes: &[u8], run_bytes: usize) -> Result<usize, Refusal> {
    let (from, to) = (Address([5; 16]), side.address);
    call(side, run_bytes, |side, run| {
        side.packet(Packet { from, to, bytes }, run).map(|answer| answer.run.as_bytes().len())
    })
}

/// The refusal of a take.
fn take(side: &mut Side, run_bytes: usize) -> Option<Refusal> {
    call(side, run_bytes, |side, run| side.receive.take(run).map(|_| ())).err()
}

/// The refusal of a wake.
fn wake(side: &mut Side, wake: Wake<'_>, run_bytes: usize) -> Option<Refusal> {
    call(side, run_bytes, |side, run| side.send.wake(wake, ID, run).map(|_| ())).err()
}

/// An office that holds an arriving message of a length, with no pieces.
fn office(length: u64) -> Side {
    let mut office = Side::new(2, 2);
    assert_eq!(hand(&mut office, &packet(ID, INIT, &[length], &[0])), Ok(34 + 21));
    office
}

/// A tablet that has pushed a message of two pieces.
fn tablet() -> Side {
    let (mut tablet, office) = (Side::new(1, 2), Side::new(2, 2));
    let data = message(2_600);
    tablet.send.push(&push(&tablet, &office, &data), &mut [0; PUSH_RUN]).expect("push");
    tablet
}

#[test]
fn frames_and_outputs() {
    let mut side = office(0);
    for length in [0, FRAME + 1, 65_535] {
        assert_eq!(hand(&mut side, &vec![0; length]), Err(Refusal::BadFrame), "{length} bytes");
    }
    for length in [1, 8, 11] {
        assert_eq!(hand(&mut side, &vec![0; length]), Err(Refusal::ShortFrame), "{length} bytes");
    }
    for length in [12, FRAME - 1, FRAME] {
        assert_eq!(hand(&mut side, &vec![0; length]), Err(Refusal::NoWork), "{length} bytes");
    }
    let init = packet(ID, INIT, &[0], &[0]);
    assert_eq!(hand_short(&mut side, &init, PACKET_RUN - 1), Err(Refusal::ShortOutput));
    assert_eq!(hand(&mut side, &packet(ID, DONE, &[0], &EMPTY_SUM)), Ok(34 + 52));
    assert_eq!(take(&mut side, TAKE_RUN - 1), Some(Refusal::ShortOutput));
    let mut tablet = tablet();
    assert_eq!(wake(&mut tablet, send_at(0, &Calendar::closed()), WAKE_RUN - 1), Some(Refusal::ShortOutput));
    assert_eq!(hand(&mut tablet, &packet(ID, 0, &[], &[])), Err(Refusal::NoWork));
    assert_eq!(hand(&mut tablet, &packet(ID, READ | ACK, &[], &[])), Err(Refusal::NoWork));
}

#[test]
fn inits() {
    let mut side = Side::new(2, 2);
    let init = packet(ID, INIT, &[0], b"\x06survey");
    side.rules = Rules::from_bytes(&[]);
    assert_eq!(hand(&mut side, &init), Err(Refusal::BadRules));
    side.rules = Rules::reject_unlisted();
    assert_eq!(hand(&mut side, &init), Err(Refusal::ClosedTopic));
    let near = |subnet: &str| {
        Rules::reject_unlisted().topic(b"survey", &[subnet.parse().expect("a subnet")]).expect("a book")
    };
    side.rules = near("405::/16");
    assert_eq!(hand(&mut side, &init), Err(Refusal::ClosedTopic));
    side.rules = near("500::/8");
    assert_eq!(hand(&mut side, &init), Ok(34 + 21));
    assert_eq!(hand(&mut side, &packet(ID, DONE, &[0], &EMPTY_SUM)), Ok(34 + 52));
    assert_eq!(hand(&mut side, &init), Err(Refusal::AlreadyWhole));
    assert_eq!(hand(&mut side, &packet(Id([1; 8]), INIT, &[32_501], b"\x06survey")), Err(Refusal::TooLong));
    for id in 1..8 {
        assert_eq!(hand(&mut side, &packet(Id([id; 8]), INIT, &[9], b"\x06survey")), Ok(34 + 21));
    }
    assert_eq!(hand(&mut side, &packet(Id([8; 8]), INIT, &[9], b"\x06survey")), Err(Refusal::NoRecord));
}

#[test]
fn chunks() {
    let mut side = office(1_301);
    assert_eq!(hand(&mut side, &chunk(Id([1; 8]), 0, 0, 250)), Err(Refusal::UnknownId));
    assert_eq!(hand(&mut side, &chunk(ID, 0, 2, 1_300)), Err(Refusal::PastEnd));
    assert_eq!(hand(&mut side, &chunk(ID, 6, 0, 1_300)), Err(Refusal::HighIndex));
    assert_eq!(hand(&mut side, &chunk(ID, 1, 1_299, 1)), Err(Refusal::ShortPiece));
    assert_eq!(hand(&mut side, &chunk(ID, 0, 0, 1_300)), Ok(34 + 36));
    assert_eq!(hand(&mut side, &chunk(ID, 1, 0, 300)), Ok(34 + 36));
    assert_eq!(hand(&mut side, &chunk(ID, 2, 0, 300)), Err(Refusal::NoCell));
}

/// A piece below 250 bytes and below top is kept exactly where it ends the message.
#[test]
fn short_pieces() {
    let length = 1_301;
    for size in [0, 1, 249] {
        let end = length - size;
        let try_at = |offset| hand(&mut office(length), &chunk(ID, 1, offset, size));
        assert_eq!(try_at(end - 1), Err(Refusal::ShortPiece), "{} bytes, one before the end", size);
        assert_eq!(try_at(end), Ok(34 + 36), "{} bytes, at the end", size);
        assert_eq!(try_at(end + 1), Err(Refusal::PastEnd), "{} bytes, one past the end", size);
    }
    let try_chunk = |index, offset, size| hand(&mut office(length), &chunk(ID, index, offset, size));
    assert_eq!(try_chunk(4, 1_051, 249), Err(Refusal::ShortPiece), "just below top");
    assert_eq!(try_chunk(5, 1_051, 249), Ok(34 + 36), "at top");
    assert_eq!(try_chunk(4, 1_050, 250), Ok(34 + 36), "250 bytes");
    assert_eq!(try_chunk(6, 1_300, 1), Err(Refusal::HighIndex), "above top, at the end");
    let mut full = office(length);
    for index in 0..2 {
        assert_eq!(hand(&mut full, &chunk(ID, index, 0, 300)), Ok(34 + 36));
    }
    assert_eq!(hand(&mut full, &chunk(ID, 2, 1_300, 1)), Err(Refusal::NoCell));
    assert_eq!(hand(&mut full, &chunk(ID, 1, 1_300, 1)), Ok(34 + 36), "at a held index");
}

#[test]
fn dones() {
    let done = |count, sum: &[u8]| packet(ID, DONE, &[count], sum);
    assert_eq!(hand(&mut office(1_300), &done(2, &EMPTY_SUM)), Err(Refusal::Count));
    assert_eq!(hand(&mut office(1_300), &done(1, &EMPTY_SUM)), Err(Refusal::Gap));
    let mut side = office(1_300);
    assert_eq!(hand(&mut side, &chunk(ID, 0, 0, 1_299)), Ok(34 + 36));
    assert_eq!(hand(&mut side, &done(1, &EMPTY_SUM)), Err(Refusal::Total));
    assert_eq!(hand(&mut side, &chunk(ID, 0, 0, 1_300)), Ok(34 + 36));
    assert_eq!(hand(&mut side, &done(1, &EMPTY_SUM)), Err(Refusal::Sum));
    let mut side = office(0);
    side.known = false;
    assert_eq!(hand(&mut side, &done(0, &EMPTY_SUM)), Err(Refusal::NoKey));
    side.known = true;
    assert_eq!(hand(&mut side, &done(0, &EMPTY_SUM)), Ok(34 + 52));
    assert_eq!(hand(&mut side, &done(0, &EMPTY_SUM)), Err(Refusal::UnknownId));
}

#[test]
fn acknowledgements() {
    let mut side = tablet();
    assert_eq!(hand(&mut side, &packet(ID, DONE | ACK, &[0], &[])), Err(Refusal::WrongState));
    assert_eq!(hand(&mut side, &packet(ID, READ, &[], &[])), Err(Refusal::WrongState));
    assert_eq!(hand(&mut side, &packet(ID, INIT | ACK, &[0], &[])), Ok(0));
    assert_eq!(hand(&mut side, &packet(ID, CHUNK | ACK, &[2, 0, 0], &[])), Err(Refusal::NoSuchPiece));
    assert_eq!(hand(&mut side, &packet(ID, CHUNK | ACK, &[1, 0, 0], &[])), Ok(0));
}

#[test]
fn pushes_and_takes() {
    let (mut tablet, mut office) = (Side::new(1, 1), Side::new(2, 1));
    let data = message(32_501);
    let good = push(&tablet, &office, &data[..1_300]);
    let mut short = |push: &Push<'_>, run_bytes| {
        call(&mut tablet, run_bytes, |side, run| side.send.push(push, run).map(|_| ())).err()
    };
    assert_eq!(short(&good, PUSH_RUN - 1), Some(Refusal::ShortOutput));
    let mut refused = |push: &Push<'_>| short(push, LONGEST_RUN);
    assert_eq!(refused(&Push { topic: &[1; 256], ..good }), Some(Refusal::TopicTooLarge));
    assert_eq!(refused(&Push { data: &data, ..good }), Some(Refusal::TooLong));
    assert_eq!(refused(&Push { created_ms: u64::MAX, try_ms: 1, ..good }), Some(Refusal::Clock));
    assert_eq!(refused(&Push { data: &data[..1_301], ..good }), Some(Refusal::NoCell));
    assert_eq!(refused(&Push { topic: &[1; 255], ..good }), None);
    assert_eq!(refused(&good), Some(Refusal::IdInUse));
    for id in 1..8 {
        assert_eq!(refused(&Push { id: Id([id; 8]), data: &[], ..good }), None);
    }
    assert_eq!(refused(&Push { id: Id([8; 8]), data: &[], ..good }), Some(Refusal::NoRecord));
    assert_eq!(take(&mut office, LONGEST_RUN), Some(Refusal::NoneWhole));
    assert_eq!(wake(&mut office, Wake::Deadline, LONGEST_RUN), Some(Refusal::UnknownId));
}

#[test]
fn stores_in_the_place_of_the_other_role() {
    let (tablet, mut side) = (Side::new(1, 1), Side::new(2, 1));
    let good = push(&tablet, &side, b"data");
    std::mem::swap(&mut side.receive, &mut side.send);
    assert_eq!(hand(&mut side, &packet(ID, INIT, &[0], &[0])), Err(Refusal::UnsoundStore));
    assert_eq!(take(&mut side, LONGEST_RUN), Some(Refusal::UnsoundStore));
    assert_eq!(wake(&mut side, Wake::Deadline, LONGEST_RUN), Some(Refusal::UnsoundStore));
    let pushed = call(&mut side, LONGEST_RUN, |side, run| side.send.push(&good, run).map(|_| ()));
    assert_eq!(pushed, Err(Refusal::UnsoundStore));
    assert_eq!(side.send.report(ID), Err(Refusal::UnsoundStore), "a report cannot change its store");
}
