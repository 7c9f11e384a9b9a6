//! Transfers in memory, over links as bad as the demo's, one for each seed: of the longest survey,
//! and of surveys whose last piece is of one byte.
//! The links bring inits again behind chunks. An office that starts its message again with them loses surveys.

mod common;

use common::survey;
use socketlemon::{
    Address, Answer, Arrival, Calendar, Id, Packet, Push, Refusal, Role, Rules, Run, State, Store, Wake,
    LONGEST_RUN, MOST_BYTES, PACKET_RUN,
};
use socketlemon_link::datagram::{self, Arrived};
use socketlemon_link::faults::{Faults, Odds};
use socketlemon_link::receipts::Receipts;

const SEEDS: u64 = 200;
const TABLET: Address = Address([5; 16]);
const OFFICE: Address = Address([4; 16]);
const ID: Id = Id([1; 8]);

/// The flags of a packet's byte 8 that tell its kind here: an init, a chunk.
const INIT: u8 = 0x80;
const CHUNK: u8 = 0x10;

/// What an office does with an init of an arriving message.
#[derive(Clone, Copy, PartialEq)]
enum Init {
    /// It hands it to the library, like any other packet.
    AsItComes,
    /// It drops the message first, so that it starts again.
    Restarts,
}

/// One side, with the link that brings its datagrams to the other.
struct Side {
    receive: Store,
    send: Store,
    rules: Rules,
    link: Faults<Vec<u8>>,
    out: Vec<Vec<u8>>,
}

impl Side {
    fn new(seed: u64) -> Side {
        let store = |role| Store::new(role, Store::MOST_CELLS).expect("a store");
        Side {
            receive: store(Role::Receive),
            send: store(Role::Send),
            rules: Rules::accept_unlisted(),
            link: Faults::new(Odds { lose: 0.2, repeat: 0.1, reorder: 0.1, seed }),
            out: Vec::new(),
        }
    }

    fn put(&mut self, packet: &Packet<'_>) {
        self.out.extend(self.link.pass(datagram::write(packet)));
    }

    fn put_all(&mut self, run: &[u8]) {
        Run::from_bytes(run).packets().for_each(|packet| self.put(&packet));
    }

    fn packet<'r>(
        &mut self,
        arrived: &Arrived,
        known: bool,
        run: &'r mut [u8],
    ) -> Result<Answer<'r>, Refusal> {
        let Arrived { frame, from, to } = arrived;
        let arrival = Arrival { frame, from: *from, to: *to, rules: &self.rules, known };
        self.receive.packet(&mut self.send, &arrival, run)
    }

    fn wake(&mut self, clock_ms: u64) {
        let mut run = [0; LONGEST_RUN];
        let calendar = Calendar::always();
        let wake = Wake::Send { clock_ms, calendar: &calendar, unix_ms: clock_ms };
        let out = self.send.wake(wake, ID, &mut run).expect("wake");
        self.put_all(out.as_bytes());
    }
}

/// An office, and the surveys that it has taken.
struct Office {
    side: Side,
    init: Init,
    receipts: Receipts,
    surveys: Vec<Vec<u8>>,
    /// Whether a chunk of the arriving message was acknowledged.
    has_piece: bool,
    /// How many inits came behind such a chunk.
    late_inits: usize,
}

impl Office {
    fn new(seed: u64, init: Init) -> Office {
        let (side, receipts) = (Side::new(seed), Receipts::default());
        Office { side, init, receipts, surveys: Vec::new(), has_piece: false, late_inits: 0 }
    }

    /// Handles a datagram. A whole survey is taken at once; a done that comes again gets its receipt again.
    fn datagram(&mut self, bytes: &[u8]) {
        let arrived = Arrived::read(bytes, OFFICE).expect("a datagram");
        let is_late = arrived.frame[8] == INIT && self.has_piece;
        if is_late && self.init == Init::Restarts {
            let dropped = Arrived::aborted(ID, OFFICE);
            self.side.packet(&dropped, true, &mut [0; PACKET_RUN]).expect("an arriving message");
        }
        let before = self.side.receive.clone();
        let mut run = [0; PACKET_RUN];
        let answer = self.side.packet(&arrived, true, &mut run).map(|answer| answer.run.as_bytes().len());
        if is_late {
            self.late_inits += 1;
            assert!(self.init == Init::Restarts || self.side.receive == before, "it changes nothing");
        }
        match answer {
            Ok(length) => self.accepted(&arrived, &run[..length]),
            Err(_) => self.receipts.find(&arrived).iter().for_each(|packet| self.side.put(packet)),
        }
    }

    /// Sends the answer to a packet that was accepted.
    fn accepted(&mut self, arrived: &Arrived, run: &[u8]) {
        self.side.put_all(run);
        self.has_piece |= arrived.frame[8] == CHUNK;
        self.receipts.keep(arrived, 0);
        if arrived.is_done() {
            self.has_piece = false;
            let (taken, _) = self.side.receive.take(&mut [0; PACKET_RUN]).expect("a survey");
            self.surveys.push(taken.data);
        }
    }
}

/// A tablet takes a datagram, and sends what is due if its answer says so.
fn tablet(side: &mut Side, bytes: &[u8], clock_ms: u64) {
    let arrived = Arrived::read(bytes, TABLET).expect("a datagram");
    let answer = side.packet(&arrived, false, &mut [0; PACKET_RUN]).map(|answer| answer.wake);
    if answer == Ok(true) {
        side.wake(clock_ms);
    }
}

/// What became of a survey.
struct Outcome {
    /// Whether it arrived, and the tablet heard of it, within 20 s.
    arrived: bool,
    late_inits: usize,
}

fn send(seed: u64, data: &[u8], init: Init) -> Outcome {
    let mut near = Side::new(seed);
    let mut far = Office::new(seed + SEEDS, init);
    let push = Push {
        id: ID,
        reply: false,
        from: TABLET,
        to: OFFICE,
        topic: b"survey",
        data,
        created_ms: 0,
        try_ms: 0,
    };
    let mut run = [0; LONGEST_RUN];
    let init = near.send.push(&push, &mut run).expect("push").as_bytes().to_vec();
    near.put_all(&init);
    for clock_ms in (0..20_000).step_by(100) {
        while !(near.out.is_empty() && far.side.out.is_empty()) {
            let (there, back) = (std::mem::take(&mut near.out), std::mem::take(&mut far.side.out));
            there.iter().for_each(|bytes| far.datagram(bytes));
            back.iter().for_each(|bytes| tablet(&mut near, bytes, clock_ms));
        }
        if near.send.report(ID).expect("report").state == State::Received {
            return Outcome { arrived: far.surveys == [data], late_inits: far.late_inits };
        }
        for side in [&mut near, &mut far.side] {
            let late = side.link.release();
            side.out.extend(late);
        }
        near.wake(clock_ms + 100);
    }
    Outcome { arrived: false, late_inits: far.late_inits }
}

/// The seeds for which a survey of this length does not arrive, and those that bring an init behind a chunk.
fn seeds(length: usize, init: Init) -> [Vec<u64>; 2] {
    let data = survey(length, 0);
    let outcomes: Vec<Outcome> = (0..SEEDS).map(|seed| send(seed, &data, init)).collect();
    let those = |fits: fn(&Outcome) -> bool| {
        (0..).zip(&outcomes).filter(|(_, outcome)| fits(outcome)).map(|(seed, _)| seed).collect()
    };
    [those(|outcome| !outcome.arrived), those(|outcome| outcome.late_inits > 0)]
}

#[test]
fn every_survey_arrives() {
    let [lost, late] = seeds(MOST_BYTES, Init::AsItComes);
    assert_eq!(lost, []);
    assert!(late.len() >= 5, "few seeds bring an init behind a chunk: {late:?}");
}

#[test]
fn every_survey_with_a_short_last_piece_arrives() {
    for length in [1_301, 2_601] {
        assert_eq!(seeds(length, Init::AsItComes)[0], [], "{} bytes", length);
    }
}

#[test]
fn an_office_that_restarts_loses_surveys() {
    let [lost, late] = seeds(MOST_BYTES, Init::Restarts);
    assert!(!lost.is_empty());
    assert_eq!(lost, late, "those with an init behind a chunk are lost, and no others");
}
