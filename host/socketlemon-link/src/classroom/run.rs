//! The run: one tablet and one office, joined by a link that does what the script says.
//!
//! Every step is a call of the library; here are only the queue, the letters and the clock.

use super::script::{Letter, Script};
use crate::datagram::Content;
use socketlemon::{
    Address, Arrival, Calendar, Id, Kind, Push, Refusal, Report, Role, Rules, Run, Store, Wake, LONGEST_RUN,
};
use std::collections::VecDeque;

/// How many rounds there are behind the push.
pub const ROUNDS: usize = 50;

/// The milliseconds from one round to the next.
pub const ROUND_MS: u64 = 100;

const ID: Id = Id(*b"a lesson");

/// The sides of the link.
#[derive(Clone, Copy, Debug, PartialEq, Eq)]
pub enum Side {
    /// It sends the survey.
    Tablet,
    /// It receives the survey, and replies.
    Office,
}

/// A packet that a call has put out, and what became of it.
#[derive(Clone, Debug, PartialEq, Eq)]
pub struct Sent {
    /// Its place among all packets of the run, from 0: the place of its letter.
    pub number: usize,
    /// Who has sent it. What the office sends are replies.
    pub from: Side,
    /// What it brings, or what it replies to.
    pub content: Content,
    /// What the link does with it.
    pub letter: Letter,
    /// For each time that it is delivered, whether the library takes it or refuses it.
    pub arrivals: Vec<Result<(), Refusal>>,
}

impl Sent {
    /// Whether it arrives, and is refused each time.
    pub fn is_ignored(&self) -> bool {
        !self.arrivals.is_empty() && self.arrivals.iter().all(Result::is_err)
    }
}

/// A round: the wake at its start, or for round 0 the push, with all replies.
#[derive(Clone, Debug, PartialEq, Eq)]
pub struct Round {
    /// From 0 to 50.
    pub number: usize,
    /// The packets of both sides, in the order in which the calls put them out.
    pub packets: Vec<Sent>,
    /// How far the survey is at the round's end, as the tablet knows it.
    pub report: Report,
    /// Whether the office has the whole survey by then.
    pub is_whole: bool,
}

/// The run of a script: the push and 50 rounds.
pub fn run(script: &Script) -> Result<Vec<Round>, Refusal> {
    let mut link = Link::new(script)?;
    (0..=ROUNDS).map(|number| link.round(number)).collect()
}

/// One side's stores and address.
struct End {
    receive: Store,
    send: Store,
    address: Address,
}

impl End {
    fn new(key: u8) -> Result<End, Refusal> {
        Ok(End {
            receive: Store::new(Role::Receive, Store::MOST_CELLS)?,
            send: Store::new(Role::Send, Store::MOST_CELLS)?,
            address: Address::of_key(&[key; 32])?,
        })
    }
}

/// A packet under way.
struct Waiting {
    /// Its place among the packets of its round.
    place: usize,
    from: Address,
    to: Address,
    frame: Vec<u8>,
}

struct Link<'a> {
    script: &'a Script,
    tablet: End,
    office: End,
    rules: Rules,
    calendar: Calendar,
    /// How many packets have been put out.
    count: usize,
    queue: VecDeque<Waiting>,
    packets: Vec<Sent>,
}

impl Link<'_> {
    fn new(script: &Script) -> Result<Link<'_>, Refusal> {
        Ok(Link {
            script,
            tablet: End::new(1)?,
            office: End::new(2)?,
            rules: Rules::accept_unlisted(),
            calendar: Calendar::always(),
            count: 0,
            queue: VecDeque::new(),
            packets: Vec::new(),
        })
    }

    fn round(&mut self, number: usize) -> Result<Round, Refusal> {
        let mut run = [0; LONGEST_RUN];
        let clock_ms = ROUND_MS * number as u64;
        let out = if number == 0 {
            let data = vec![0; self.script.length.bytes()];
            let push = Push {
                id: ID,
                reply: false,
                from: self.tablet.address,
                to: self.office.address,
                topic: b"survey",
                data: &data,
                created_ms: clock_ms,
                try_ms: 300_000,
            };
            self.tablet.send.push(&push, &mut run)?
        } else {
            let wake = Wake::Send { clock_ms, calendar: &self.calendar, unix_ms: clock_ms };
            self.tablet.send.wake(wake, ID, &mut run)?
        };
        self.put_out(Side::Tablet, out);
        while let Some(packet) = self.queue.pop_front() {
            self.deliver(&packet);
        }
        Ok(Round {
            number,
            packets: std::mem::take(&mut self.packets),
            report: self.tablet.send.report(ID)?,
            is_whole: self.office.receive.records().any(|record| record.kind == Kind::Whole),
        })
    }

    /// Gives each packet of a run its letter, and lets those wait that are not lost.
    fn put_out(&mut self, from: Side, run: Run<'_>) {
        for packet in run {
            let letter = self.script.letters.of(self.count);
            let place = self.packets.len();
            for _ in 0..letter.copies() {
                let frame = packet.bytes.to_vec();
                self.queue.push_back(Waiting { place, from: packet.from, to: packet.to, frame });
            }
            self.packets.push(Sent {
                number: self.count,
                from,
                content: Content::of(packet.bytes),
                letter,
                arrivals: Vec::new(),
            });
            self.count += 1;
        }
    }

    /// Hands a packet to the side that it goes to. The wake mark is not followed: a round wakes once.
    fn deliver(&mut self, packet: &Waiting) {
        let (side, end) = match packet.to == self.tablet.address {
            true => (Side::Tablet, &mut self.tablet),
            false => (Side::Office, &mut self.office),
        };
        let arrival = Arrival {
            frame: &packet.frame,
            from: packet.from,
            to: packet.to,
            rules: &self.rules,
            known: true,
        };
        let mut run = [0; LONGEST_RUN];
        let answer = end.receive.packet(&mut end.send, &arrival, &mut run);
        self.packets[packet.place].arrivals.push(answer.map(|_| ()));
        if let Ok(answer) = answer {
            self.put_out(side, answer.run);
        }
    }
}
