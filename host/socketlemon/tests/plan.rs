//! Plans, against the library's own receiver: each is kept and finished by a fresh store of 45 cells, and no
//! greater list is; where there is none, no list of that many sizes is.

mod common;

use common::{message, push, send_at, Side, ID};
use socketlemon::{
    plan, Address, Arrival, Calendar, Packet, Refusal, Role, Rules, Run, Store, LARGEST_PIECE, LONGEST_RUN,
    PACKET_RUN, TAKE_RUN,
};
use std::collections::BTreeSet;

const INIT: u8 = 0x80;
const DONE: u8 = 0x40;
const CHUNK: u8 = 0x10;
const ACK: u8 = 0x01;

const LONGEST: u64 = 32_500;
const LARGEST: u16 = LARGEST_PIECE as u16;
/// The most pieces that one source can have in a store.
const MOST: u64 = Store::MOST_OF_SOURCE as u64;

/// A message with its sum.
struct Message {
    data: Vec<u8>,
    sum: [u8; 32],
}

impl Message {
    fn new(length: u64) -> Message {
        let data = message(length as usize);
        let sum = sum_of(&data);
        Message { data, sum }
    }

    fn length(&self) -> u64 {
        self.data.len() as u64
    }

    /// What a fresh receiver hands out after pieces of these sizes and a done with their number as count.
    fn sent_in(&self, sizes: &[u16]) -> Result<Vec<u8>, Refusal> {
        let mut receiver = Receiver::of(self);
        sizes.iter().try_for_each(|size| receiver.piece(*size))?;
        receiver.done()?;
        Ok(receiver.take())
    }
}

/// The sum of a message, as the library's own sender has it in its done.
fn sum_of(data: &[u8]) -> [u8; 32] {
    let (mut tablet, office) = (Side::new(1, 25), Side::new(2, 1));
    let (always, mut run) = (Calendar::always(), [0; LONGEST_RUN]);
    let mut sent =
        tablet.send.push(&push(&tablet, &office, data), &mut run).expect("push").as_bytes().to_vec();
    for wakes in 0.. {
        for packet in Run::from_bytes(&sent) {
            let mut bytes = packet.bytes.to_vec();
            if bytes[8] & DONE != 0 {
                return bytes[20..52].try_into().expect("a sum");
            }
            bytes[8] |= ACK;
            let ack = Packet { from: office.address, to: tablet.address, bytes: &bytes };
            tablet.packet(ack, &mut [0; PACKET_RUN]).expect("an acknowledgement");
        }
        sent =
            tablet.send.wake(send_at(100 * wakes, &always), ID, &mut run).expect("wake").as_bytes().to_vec();
    }
    unreachable!("a sender goes on until its done")
}

/// A fresh store of 45 cells to which a message was announced, and how much of it was kept.
#[derive(Clone)]
struct Receiver<'m> {
    receive: Store,
    send: Store,
    message: &'m Message,
    pieces: u64,
    bytes: usize,
}

impl<'m> Receiver<'m> {
    fn of(message: &'m Message) -> Receiver<'m> {
        let receive = Store::new(Role::Receive, Store::MOST_CELLS).expect("a store");
        let send = Store::new(Role::Send, 1).expect("a store");
        let mut receiver = Receiver { receive, send, message, pieces: 0, bytes: 0 };
        receiver.hand(INIT, &[message.length()], &[0]).expect("an init");
        receiver
    }

    fn hand(&mut self, flags: u8, numbers: &[u64], tail: &[u8]) -> Result<(), Refusal> {
        let numbers: Vec<u8> = numbers.iter().flat_map(|n| n.to_be_bytes()).collect();
        let frame = [&ID.0[..], &[flags, 0, 0, 0], &numbers, tail].concat();
        let (from, to, rules) = (Address([5; 16]), Address([6; 16]), Rules::accept_unlisted());
        let arrival = Arrival { frame: &frame, from, to, rules: &rules, known: true };
        self.receive.packet(&mut self.send, &arrival, &mut [0; PACKET_RUN]).map(|_| ())
    }

    /// The next piece of the message, from where the one before it ends; zeros are what is past the end.
    fn piece(&mut self, size: u16) -> Result<(), Refusal> {
        let (size, rest) = (usize::from(size), &self.message.data[self.bytes..]);
        let mut piece = rest[..size.min(rest.len())].to_vec();
        piece.resize(size, 0);
        self.hand(CHUNK, &[self.pieces, self.bytes as u64, size as u64], &piece)?;
        self.pieces += 1;
        self.bytes += size;
        Ok(())
    }

    /// A done with the number of pieces as count.
    fn done(&mut self) -> Result<(), Refusal> {
        self.hand(DONE, &[self.pieces], &self.message.sum)
    }

    fn take(&mut self) -> Vec<u8> {
        let (taken, _) = self.receive.take(&mut [0; TAKE_RUN]).expect("a whole message");
        taken.data.to_vec()
    }

    /// The greatest list of so many sizes more that is kept and finished, by trying a few for each.
    fn greatest(&self, more: u64) -> Option<Vec<u16>> {
        if more == 0 {
            return self.clone().done().is_ok().then(Vec::new);
        }
        self.worth_trying().into_iter().rev().find_map(|size| {
            let mut next = self.clone();
            next.piece(size).ok()?;
            Some([vec![size], next.greatest(more - 1)?].concat())
        })
    }

    /// Sizes around all that count: none, what is left, and the bounds of pieces.
    fn worth_trying(&self) -> BTreeSet<u16> {
        let left = (self.message.data.len() - self.bytes) as u16;
        let sizes = [0, 250, 1_300, LARGEST, left.saturating_sub(250), left];
        let around = sizes.into_iter().flat_map(|size| size.saturating_sub(1)..=size + 1);
        around.filter(|size| *size <= LARGEST).collect()
    }
}

/// The fewest and the most pieces of a message.
fn bounds(length: u64) -> (u64, u64) {
    let numbers = || (0..=MOST).filter(|pieces| plan(length, *pieces).is_ok());
    (numbers().min().expect("a number"), numbers().max().expect("a number"))
}

/// Lengths at which a bound or a size changes: around the multiples of 250, 1,300 and 1,364.
fn lengths() -> BTreeSet<u64> {
    let multiples =
        [250, 1_300, LARGEST_PIECE as u64].into_iter().flat_map(|step| (0..=LONGEST).step_by(step as usize));
    multiples.flat_map(|n| n.saturating_sub(1)..=n + 1).filter(|n| *n <= LONGEST).collect()
}

/// Largest pieces, the rest, and zeros: as many as are asked for.
fn largest_first(length: u64, pieces: u64) -> Vec<u16> {
    let left = |index| length.saturating_sub(index * u64::from(LARGEST));
    (0..pieces).map(|index| left(index).min(u64::from(LARGEST)) as u16).collect()
}

#[test]
fn plans_that_there_are() {
    assert_eq!(plan(0, 0), Ok(vec![]));
    assert_eq!(plan(0, 1), Ok(vec![0]));
    assert_eq!(plan(251, 2), Ok(vec![251, 0]));
    assert_eq!(plan(500, 2), Ok(vec![500, 0]));
    assert_eq!(plan(1_301, 2), Ok(vec![1_301, 0]));
    assert_eq!(plan(1_365, 2), Ok(vec![1_364, 1]));
    assert_eq!(plan(7_251, 30), Ok([vec![1_364; 5], vec![431], vec![0; 24]].concat()));
    assert_eq!(plan(32_500, 25), Ok([vec![1_364; 23], vec![1_128, 0]].concat()));
    assert_eq!(plan(32_500, 30), Ok([vec![1_364; 23], vec![1_128], vec![0; 6]].concat()));
}

#[test]
fn plans_that_there_are_not() {
    let too_few = [(1, 0), (1_301, 1), (32_500, 24)];
    let too_many = [(0, 2), (250, 2), (7_250, 30), (32_500, 31), (0, u64::MAX), (32_500, u64::MAX)];
    let too_long =
        [(32_501, 0), (32_501, 25), (32_501, 26), (32_501, 30), (u64::MAX, 1), (u64::MAX, u64::MAX)];
    for (length, pieces) in [&too_few[..], &too_many, &too_long].concat() {
        assert_eq!(plan(length, pieces), Err(Refusal::NoPlan), "{length} bytes in {pieces}");
    }
}

/// Every length and number, beside the closed form.
#[test]
fn a_plan_for_each_number_from_a_piece_for_1300_bytes_to_one_for_250() {
    for length in 0..=LONGEST + 1 {
        let (fewest, most) = ((length + 1_299) / 1_300, ((length + 249) / 250).clamp(1, MOST));
        for pieces in 0..=MOST + 2 {
            let there_is = length <= LONGEST && (fewest..=most).contains(&pieces);
            let expected = there_is.then(|| largest_first(length, pieces)).ok_or(Refusal::NoPlan);
            assert_eq!(plan(length, pieces), expected, "{length} bytes in {pieces}");
        }
    }
}

#[test]
fn each_plan_is_kept_and_finished() {
    let mut plans = 0;
    for length in lengths() {
        let message = Message::new(length);
        for pieces in 0..=MOST + 1 {
            if let Ok(sizes) = plan(length, pieces) {
                assert_eq!(sizes.len() as u64, pieces, "{length} bytes");
                assert!(message.sent_in(&sizes).as_ref() == Ok(&message.data), "{length} bytes in {pieces}");
                plans += 1;
            }
        }
    }
    assert!(plans > 5_000, "{plans} plans");
}

/// A greater list begins as the plan does, up to a piece that is larger. It goes past the end, whatever comes
/// behind it.
#[test]
fn no_greater_list_is_kept() {
    let small = [(0, 0), (0, 1), (1, 1), (250, 1), (251, 2), (500, 2), (1_300, 1), (1_301, 2), (1_301, 6)];
    let large = [(1_364, 2), (1_365, 2), (2_728, 3), (2_729, 11), (7_251, 30), (32_500, 25), (32_500, 30)];
    for (length, pieces) in [&small[..], &large].concat() {
        larger_pieces_are_refused(length, pieces, LARGEST);
    }
    for length in lengths() {
        let (fewest, most) = bounds(length);
        larger_pieces_are_refused(length, fewest, 1);
        larger_pieces_are_refused(length, most, 1);
    }
}

/// Asserts that a receiver keeps a plan, and nothing that is larger by up to so many bytes in the place of
/// any of its pieces.
fn larger_pieces_are_refused(length: u64, pieces: u64, by: u16) {
    let message = Message::new(length);
    let mut receiver = Receiver::of(&message);
    for (index, size) in plan(length, pieces).expect("a plan").into_iter().enumerate() {
        for larger in size + 1..=(size + by).min(LARGEST) {
            let answer = receiver.piece(larger);
            assert_eq!(
                answer,
                Err(Refusal::PastEnd),
                "{length} in {pieces}: {larger} at {index}, not {size}"
            );
        }
        assert_eq!(receiver.piece(size), Ok(()), "{length} in {pieces}: {size} at {index}");
    }
}

/// Where there is a plan, trying finds it; where there is none, trying finds none.
#[test]
fn the_greatest_list_that_trying_finds_is_the_plan() {
    for length in
        [0, 1, 249, 250, 251, 499, 500, 501, 750, 751, 1_299, 1_300, 1_301, 1_364, 1_365, 1_700, 2_729]
    {
        let message = Message::new(length);
        for pieces in 0..=3 {
            let found = Receiver::of(&message).greatest(pieces);
            assert_eq!(plan(length, pieces).ok(), found, "{length} bytes in {pieces}");
        }
    }
}

/// One piece fewer than there can be, and one more: whichever way the message is cut, it is not finished.
#[test]
fn beyond_the_bounds_nothing_is_kept() {
    for length in lengths() {
        let message = Message::new(length);
        let (fewest, most) = bounds(length);
        if fewest > 0 {
            refuses_all_cuts(&message, fewest - 1, Refusal::Count);
        }
        let is_index_allowed = length > MOST * 250;
        let why = if is_index_allowed { Refusal::SourceFull } else { Refusal::HighIndex };
        refuses_all_cuts(&message, most + 1, why);
    }
}

/// Asserts that a message cannot be sent in so many pieces: the largest first, which is refused for this
/// reason; the largest last; all alike; and 250 bytes in each but the last.
fn refuses_all_cuts(message: &Message, pieces: u64, why: Refusal) {
    let (length, largest_first) = (message.length(), largest_first(message.length(), pieces));
    assert_eq!(plan(length, pieces), Err(Refusal::NoPlan), "{length} bytes in {pieces}");
    assert_eq!(message.sent_in(&largest_first), Err(why), "{length} bytes in {pieces}");
    let largest_last: Vec<u16> = largest_first.into_iter().rev().collect();
    for sizes in
        [largest_last, in_steps(length, pieces, length / pieces.max(1)), in_steps(length, pieces, 250)]
    {
        assert!(message.sent_in(&sizes).is_err(), "{length} bytes in {sizes:?}");
    }
}

/// So many pieces, each of a size but for the last, which takes what is left, as far as a frame has room.
fn in_steps(length: u64, pieces: u64, size: u64) -> Vec<u16> {
    let mut left = length;
    let mut next = |wanted: u64| {
        let size = wanted.min(left).min(u64::from(LARGEST));
        left -= size;
        size as u16
    };
    (0..pieces).map(|index| next(if index + 1 == pieces { u64::MAX } else { size })).collect()
}
