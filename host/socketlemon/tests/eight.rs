//! A send wake sends at most eight pieces: which, in which order, and what it stamps.

mod common;

use common::{message, push, send_at, Side, ID};
use socketlemon::{Calendar, Id, Packet, Refusal, Run, State, Store, Wake, LONGEST_RUN, PUSH_RUN, WAKE_RUN};

const CHUNK: u8 = 0x10;
const DONE: u8 = 0x40;
const ACK: u8 = 0x01;

/// Where the cells of a store start, and their bytes.
const CELLS: usize = 16 + 8 * 328;
const CELL: usize = 1_380;

/// Hands the tablet an acknowledgement: of its init, of a piece, or of its done.
fn acknowledge(tablet: &mut Side, flags: u8, index: u64) {
    let bytes = [&ID.0[..], &[flags | ACK, 0, 0, 0], &index.to_be_bytes(), &[0; 32]].concat();
    let (from, to) = (tablet.address, tablet.address);
    let mut run = [0; LONGEST_RUN];
    let answer = tablet.packet(Packet { from, to, bytes: &bytes }, &mut run).expect("an acknowledgement");
    assert_eq!((answer.run.is_empty(), answer.run.pieces()), (true, 0));
}

/// A tablet whose message of so many pieces is announced.
fn announced(pieces: usize) -> Side {
    let (mut tablet, office) = (Side::new(1, 25), Side::new(2, 25));
    let data = message(1_300 * pieces);
    let mut run = [0; PUSH_RUN];
    let init = tablet.send.push(&push(&tablet, &office, &data), &mut run).expect("push");
    assert_eq!((init.packets().count(), init.pieces()), (1, 0));
    assert_eq!(sent(&mut tablet, 0), [], "an init is no piece");
    acknowledge(&mut tablet, 0x80, 0);
    tablet
}

/// Each piece with its state and stamp, by index.
fn stamps(store: &Store) -> Vec<(u8, u8, u64)> {
    let cells = store.as_bytes()[CELLS..].chunks_exact(CELL);
    let stamp = |cell: &[u8]| u64::from_be_bytes(cell[4..12].try_into().expect("eight bytes"));
    let mut all: Vec<_> =
        cells.filter(|cell| cell[2..4] != [0, 0]).map(|cell| (cell[1], cell[12], stamp(cell))).collect();
    all.sort_unstable();
    all
}

/// The indexes of the pieces that a wake sends, in their order. They alone are stamped, and counted by the
/// library.
fn sent(tablet: &mut Side, clock_ms: u64) -> Vec<u8> {
    let before = stamps(&tablet.send);
    let mut run = [0; LONGEST_RUN];
    let out = tablet.send.wake(send_at(clock_ms, &Calendar::always()), ID, &mut run).expect("wake");
    assert_eq!(out.pieces(), Run::from_bytes(out.as_bytes()).pieces());
    let indexes: Vec<u8> = out.packets().filter(|p| p.bytes[8] == CHUNK).map(|p| p.bytes[19]).collect();
    assert_eq!(out.pieces(), indexes.len());
    let stamped = |(index, state, stamp)| match indexes.contains(&index) {
        true => (index, 1, clock_ms),
        false => (index, state, stamp),
    };
    assert_eq!(stamps(&tablet.send), before.into_iter().map(stamped).collect::<Vec<_>>());
    indexes
}

#[test]
fn eight_are_sent_and_the_others_wait() {
    for pieces in [0, 1, 7, 8, 9, 16, 17, 25] {
        let mut tablet = announced(pieces);
        let all: Vec<u8> = (0..pieces as u8).collect();
        // at one clock nothing is due twice, so wakes go on where the last one has stopped
        for part in all.chunks(8) {
            assert_eq!(sent(&mut tablet, 500), part, "of {} pieces", pieces);
        }
        assert_eq!(sent(&mut tablet, 599), []);
    }
}

#[test]
fn those_never_sent_go_first_then_the_oldest() {
    let mut tablet = announced(10);
    assert_eq!(sent(&mut tablet, 1_000), [0, 1, 2, 3, 4, 5, 6, 7]);
    assert_eq!(sent(&mut tablet, 1_100), [8, 9, 0, 1, 2, 3, 4, 5], "Started ones before due ones");
    assert_eq!(sent(&mut tablet, 1_150), [6, 7], "those of 1,000 alone are due");
    assert_eq!(sent(&mut tablet, 1_200), [0, 1, 2, 3, 4, 5, 8, 9], "equal stamps by index");
    assert_eq!(sent(&mut tablet, 1_250), [6, 7]);
    assert_eq!(sent(&mut tablet, 1_349), [0, 1, 2, 3, 4, 5, 8, 9]);
    assert_eq!(
        sent(&mut tablet, 1_600),
        [6, 7, 0, 1, 2, 3, 4, 5],
        "the oldest stamp before the lowest index"
    );
    assert_eq!(sent(&mut tablet, 1_600), [8, 9]);
    for index in [0, 6, 9] {
        acknowledge(&mut tablet, CHUNK, index);
    }
    assert_eq!(sent(&mut tablet, 1_700), [1, 2, 3, 4, 5, 7, 8], "what is acknowledged is not sent");
}

#[test]
fn clocks_at_their_ends_and_gone_back() {
    let mut tablet = announced(10);
    assert_eq!(sent(&mut tablet, 0), [0, 1, 2, 3, 4, 5, 6, 7]);
    assert_eq!(sent(&mut tablet, u64::MAX), [8, 9, 0, 1, 2, 3, 4, 5]);
    assert_eq!(sent(&mut tablet, 99), [], "stamp 0 is not due, nor what was sent later");
    assert_eq!(sent(&mut tablet, 100), [6, 7], "a stamp of 0 is a stamp");
    assert_eq!(sent(&mut tablet, u64::MAX), [6, 7]);
    assert_eq!(sent(&mut tablet, u64::MAX), []);
    let mut tablet = announced(10);
    assert_eq!(sent(&mut tablet, u64::MAX), [0, 1, 2, 3, 4, 5, 6, 7]);
    assert_eq!(sent(&mut tablet, 0), [8, 9], "a Started piece is due whatever the clock says");
}

#[test]
fn the_done_waits_for_every_acknowledgement_and_is_no_piece() {
    let mut tablet = announced(9);
    sent(&mut tablet, 0);
    sent(&mut tablet, 0);
    for index in 0..9 {
        assert_eq!(sent(&mut tablet, 50), []);
        acknowledge(&mut tablet, CHUNK, index);
    }
    let mut run = [0; LONGEST_RUN];
    let done = tablet.send.wake(send_at(50, &Calendar::always()), ID, &mut run).expect("wake");
    assert_eq!((done.packets().count(), done.pieces()), (1, 0));
    assert_eq!(done.packets().next().expect("a done").bytes[8], DONE);
    acknowledge(&mut tablet, DONE, 0);
    assert_eq!(tablet.send.report(ID).expect("report").state, State::Received);
    assert_eq!(sent(&mut tablet, 5_000), []);
}

#[test]
fn the_run_buffer_has_room_for_eight() {
    assert_eq!((WAKE_RUN, LONGEST_RUN), (10_960, 10_960));
    let mut tablet = announced(25);
    let always = Calendar::always();
    let mut wake = |wake, id, bytes: usize| {
        tablet.send.wake(wake, id, &mut vec![0; bytes]).map(|run| (run.as_bytes().len(), run.pieces()))
    };
    let (send, unknown) = (send_at(0, &always), Id([9; 8]));
    assert_eq!(wake(send, unknown, 10_959), Err(Refusal::ShortOutput), "2 before 8");
    assert_eq!(wake(send, unknown, 10_960), Err(Refusal::UnknownId));
    assert_eq!(wake(send, ID, 10_959), Err(Refusal::ShortOutput));
    assert_eq!(wake(send, ID, 10_960), Ok((10_960, 8)));
    assert_eq!(wake(send, ID, 10_959), Err(Refusal::ShortOutput), "whatever it would send");
    assert_eq!(wake(Wake::Deadline, ID, 46), Ok((46, 0)), "a deadline wake needs less");
}
