//! Cells by source: no source holds more than 30 of a receive store's cells, over its arriving and whole messages.

mod common;

use common::{message, push, send_at, Side};
use socketlemon::{Address, Calendar, Id, Packet, Push, Refusal, Role, Store, LONGEST_RUN, PACKET_RUN};

const INIT: u8 = 0x80;
const DONE: u8 = 0x40;
const ABORTED: u8 = 0x20;
const CHUNK: u8 = 0x10;

const LONGEST: u64 = 32_500;
const MOST: u64 = Store::MOST_OF_SOURCE as u64;
/// The cells that one source leaves to the others.
const REST: u64 = Store::MOST_CELLS as u64 - MOST;

/// The first source, which also sends the chunks, and another one.
const FIRST: Address = Address([5; 16]);
const OTHER: Address = Address([6; 16]);

/// The sum of one zero byte.
const ZERO_SUM: [u8; 32] = [
    0x2d, 0x3a, 0xde, 0xdf, 0xf1, 0x1b, 0x61, 0xf1, 0x4c, 0x88, 0x6e, 0x35, 0xaf, 0xa0, 0x36, 0x73, 0x6d,
    0xcd, 0x87, 0xa7, 0x4d, 0x27, 0xb5, 0xc1, 0x51, 0x02, 0x25, 0xd0, 0xf5, 0x92, 0xe2, 0x13,
];

/// Hands over a packet. A refusal has changed nothing.
fn hand(
    side: &mut Side,
    from: Address,
    id: u8,
    flags: u8,
    numbers: &[u64],
    tail: &[u8],
) -> Result<(), Refusal> {
    let numbers: Vec<u8> = numbers.iter().flat_map(|n| n.to_be_bytes()).collect();
    let bytes = [&[id; 8][..], &[flags, 0, 0, 0], &numbers, tail].concat();
    let (to, before) = (side.address, (side.receive.clone(), side.send.clone()));
    let answer = side.packet(Packet { from, to, bytes: &bytes }, &mut [0; PACKET_RUN]).map(|_| ());
    assert!(
        answer.is_ok() || (&side.receive, &side.send) == (&before.0, &before.1),
        "a refusal changed a store"
    );
    answer
}

fn init(side: &mut Side, from: Address, id: u8, length: u64) {
    assert_eq!(hand(side, from, id, INIT, &[length], &[0]), Ok(()));
}

/// A piece of 250 bytes, from the first source.
fn piece(side: &mut Side, id: u8, index: u64) -> Result<(), Refusal> {
    hand(side, FIRST, id, CHUNK, &[index, 0, 250], &[7; 250])
}

/// An office with two messages of the first source: 1 with so many pieces, and 2 with none.
fn office(pieces: u64) -> Side {
    let mut side = Side::new(2, Store::MOST_CELLS);
    init(&mut side, FIRST, 1, LONGEST);
    keeps(&mut side, 1, pieces);
    init(&mut side, FIRST, 2, LONGEST);
    side
}

/// Asserts that pieces are kept at so many indices from 0 on.
fn keeps(side: &mut Side, id: u8, pieces: u64) {
    (0..pieces).for_each(|index| assert_eq!(piece(side, id, index), Ok(()), "piece {index} of {id}"));
}

/// A message of one byte from the first source is whole.
fn whole(side: &mut Side, id: u8) {
    init(side, FIRST, id, 1);
    assert_eq!(hand(side, FIRST, id, CHUNK, &[0, 0, 1], &[0]), Ok(()));
    assert_eq!(hand(side, FIRST, id, DONE, &[1], &ZERO_SUM), Ok(()));
}

#[test]
fn the_thirtieth_cell_is_the_last_of_a_source() {
    let mut side = office(MOST - 1);
    assert_eq!(piece(&mut side, 1, 29), Ok(()));
    assert_eq!(piece(&mut side, 1, 30), Err(Refusal::SourceFull));
    assert_eq!(piece(&mut side, 2, 0), Err(Refusal::SourceFull), "another message of the source");
    assert_eq!(piece(&mut side, 1, 29), Ok(()), "a held index");
    let no_bytes = hand(&mut side, FIRST, 1, CHUNK, &[129, LONGEST, 0], &[]);
    assert_eq!(no_bytes, Err(Refusal::SourceFull), "a piece of no bytes needs a cell");
    assert_eq!(piece(&mut side, 9, 30), Err(Refusal::UnknownId));
    assert_eq!(hand(&mut side, FIRST, 1, CHUNK, &[30, LONGEST, 250], &[7; 250]), Err(Refusal::PastEnd));
    assert_eq!(piece(&mut side, 1, 130), Err(Refusal::HighIndex));
    assert_eq!(hand(&mut side, FIRST, 1, CHUNK, &[30, 0, 249], &[7; 249]), Err(Refusal::ShortPiece));
}

#[test]
fn a_piece_of_no_bytes_counts() {
    let mut side = office(MOST - 1);
    assert_eq!(hand(&mut side, FIRST, 1, CHUNK, &[129, LONGEST, 0], &[]), Ok(()));
    assert_eq!(piece(&mut side, 1, 30), Err(Refusal::SourceFull));
}

#[test]
fn the_source_of_the_record_counts_and_not_who_sends() {
    let mut side = office(MOST);
    let more = hand(&mut side, OTHER, 1, CHUNK, &[30, 0, 250], &[7; 250]);
    assert_eq!(more, Err(Refusal::SourceFull), "from a sender that holds nothing");
    init(&mut side, OTHER, 3, LONGEST);
    keeps(&mut side, 3, REST); // from the source that is full
    assert_eq!(piece(&mut side, 3, REST), Err(Refusal::NoCell));
    assert_eq!(piece(&mut side, 1, 30), Err(Refusal::SourceFull), "and not for want of a free cell");
}

#[test]
fn whole_messages_count_until_they_are_taken() {
    let mut side = office(MOST - 2);
    whole(&mut side, 3);
    whole(&mut side, 4);
    assert_eq!(piece(&mut side, 1, 28), Err(Refusal::SourceFull));
    side.receive.take(&mut [0; LONGEST_RUN]).expect("a message");
    assert_eq!(piece(&mut side, 1, 28), Ok(()));
    assert_eq!(piece(&mut side, 1, 29), Err(Refusal::SourceFull));
}

#[test]
fn a_drop_and_a_restart_give_cells_back() {
    let mut side = office(MOST);
    assert_eq!(hand(&mut side, FIRST, 1, ABORTED, &[], &[]), Ok(()));
    keeps(&mut side, 2, MOST);
    assert_eq!(piece(&mut side, 2, MOST), Err(Refusal::SourceFull));
    let mut side = office(MOST);
    init(&mut side, FIRST, 1, LONGEST);
    assert_eq!(piece(&mut side, 2, 0), Err(Refusal::SourceFull), "an equal init gives none");
    init(&mut side, FIRST, 1, LONGEST - 1);
    keeps(&mut side, 2, MOST);
    let mut side = office(MOST);
    init(&mut side, OTHER, 1, LONGEST);
    keeps(&mut side, 2, MOST);
}

/// Where the source of a record stands.
fn source_place(record: usize) -> usize {
    16 + 328 * record + 16
}

#[test]
fn bytes_with_31_cells_of_a_source_are_no_store() {
    let mut side = office(MOST);
    init(&mut side, OTHER, 2, LONGEST);
    keeps(&mut side, 2, 1);
    let mut bytes = side.receive.into_bytes();
    assert!(Store::from_bytes(Role::Receive, bytes.clone()).is_ok(), "31 of two sources");
    bytes[source_place(1)..][..16].copy_from_slice(&FIRST.0);
    assert_eq!(Store::from_bytes(Role::Receive, bytes.clone()), Err(Refusal::UnsoundStore));
    bytes[source_place(0)..][..16].copy_from_slice(&OTHER.0);
    assert!(Store::from_bytes(Role::Receive, bytes).is_ok(), "the other way round");
}

/// All cells of a store to send are its node's own.
#[test]
fn a_store_to_send_has_no_such_limit() {
    let (mut tablet, office) = (Side::new(1, Store::MOST_CELLS), Side::new(2, 1));
    let (data, mut run) = (message(LONGEST as usize), [0; LONGEST_RUN]);
    for (id, pieces) in [([1; 8], 25), ([2; 8], 20)] {
        let push = Push { id: Id(id), ..push(&tablet, &office, &data[..pieces * 1_300]) };
        assert!(tablet.send.push(&push, &mut run).is_ok());
        let sent = tablet.send.wake(send_at(0, &Calendar::always()), Id(id), &mut run).expect("it leaves");
        assert_eq!(sent.packets().count(), 1, "its init");
    }
    let push = push(&tablet, &office, &data[..1]);
    assert_eq!(tablet.send.push(&push, &mut run).err(), Some(Refusal::NoCell));
}
