//! Sequences that look random: a node that plays both ends of a bad link, and a stranger who sends whatever a frame can hold.

use std::collections::BTreeSet;

use crate::call::{Address, Call, Id, Packet, Push, Setup, ACK, FRAME, MOST_CELLS};
use crate::frame;
use crate::live::coverage::BOUNDARY_LENGTHS;
use crate::live::rng::Rng;
use crate::live::rules::Book;
use crate::live::run::Step;
use crate::live::tally::{Label, Tally};

/// Packets on the link, at most.
const IN_FLIGHT: usize = 150;

pub struct Plan {
    rng: Rng,
    ids: Vec<Id>,
    peers: Vec<Address>,
    topics: Vec<Vec<u8>>,
    in_flight: Vec<Packet>,
    last_frame: Vec<u8>,
    /// One packet in so many is lost, repeated, or overtaken.
    lose: u64,
    repeat: u64,
    reorder: u64,
    /// Steps for which the link is good and nothing new is begun.
    calm: u64,
}

impl Plan {
    pub fn new(mut rng: Rng, me: Address) -> Self {
        let mut peers: Vec<Address> = (0..3).map(|_| rng.bytes()).collect();
        peers.push(me);
        let topics = vec![vec![], b"ducts".to_vec(), rng.data(1), rng.data(254), rng.data(255)];
        let ids = (0..10).map(|_| rng.bytes()).collect();
        let (lose, repeat, reorder) =
            (*rng.pick(&[4, 15, 1000]), *rng.pick(&[3, 10, 1000]), *rng.pick(&[2, 8, 1000]));
        Self {
            rng,
            ids,
            peers,
            topics,
            in_flight: Vec::new(),
            last_frame: vec![0; FRAME],
            lose,
            repeat,
            reorder,
            calm: 0,
        }
    }

    /// How a node is set up, and the time at which it starts.
    pub fn start(rng: &mut Rng) -> (Setup, u64) {
        let mut cells =
            || if rng.one_in(3) { rng.between(1, MOST_CELLS as u64 - 1) as usize } else { MOST_CELLS };
        let (recv_cells, send_cells) = (cells(), cells());
        (Setup { key: rng.bytes(), recv_cells, send_cells }, rng.between(10_000, 1 << 40))
    }

    /// The first steps: every key known.
    pub fn first(&self) -> Step {
        Step::Call(Call::Known(self.peers.iter().copied().collect()))
    }

    /// Packets that were sent go on the link, unless the same is there already.
    pub fn sent(&mut self, packets: Vec<Packet>) {
        for packet in packets {
            if !self.in_flight.contains(&packet) {
                self.in_flight.push(packet);
            }
        }
        while self.in_flight.len() > IN_FLIGHT {
            let lost = self.rng.below(self.in_flight.len() as u64) as usize;
            self.in_flight.remove(lost);
        }
    }

    /// The next step.
    pub fn next(&mut self, tally: &Tally, clock: u64) -> Step {
        if self.in_flight.is_empty() && tally.leaving.is_empty() {
            self.calm = 0;
        }
        if self.calm > 0 {
            self.calm -= 1;
            return match self.rng.below(12) {
                0 => Step::Clock(clock + 100),
                1 => Step::Call(Call::Take),
                _ => self.deliver(tally, clock),
            };
        }
        match self.rng.below(100) {
            0..=7 => Step::Call(Call::Push(self.push())),
            8..=45 => self.deliver(tally, clock),
            46..=52 => Step::Call(Call::Packet(self.mutated(tally))),
            53 => match self.late_init(tally) {
                Some(packet) => Step::Call(Call::Packet(packet)),
                None => self.deliver(tally, clock),
            },
            54..=65 => {
                let bytes = self.crafted(tally);
                Step::Call(Call::Packet(self.framed_from_anyone(bytes)))
            }
            66..=68 => {
                self.transfer();
                self.deliver(tally, clock)
            }
            69..=82 => Step::Clock(self.later(tally, clock)),
            83..=86 => {
                let bytes = self.acknowledgement(tally);
                let by = *self.rng.pick(&[1, 50, 99, 100, 101, 5_000]);
                Step::Back(by, self.framed_from_anyone(bytes))
            }
            87..=88 => {
                let id = self.any_id(tally);
                Step::Call(Call::Report(id))
            }
            89..=95 => Step::Call(Call::Take),
            96 => Step::Call(Call::Rules(self.rules().write())),
            97 => Step::Call(Call::Known(self.known())),
            _ => {
                self.calm = self.rng.between(20, 120);
                Step::Clock(clock + 100)
            }
        }
    }

    /// A packet off the link, after losses; time passes if there is none.
    fn deliver(&mut self, tally: &Tally, clock: u64) -> Step {
        let bad = self.calm == 0;
        while !self.in_flight.is_empty() {
            let overtakes = bad && self.rng.one_in(self.reorder);
            let at = if overtakes { self.rng.below(self.in_flight.len() as u64) as usize } else { 0 };
            let again = bad && self.rng.one_in(self.repeat);
            let packet = if again { self.in_flight[at].clone() } else { self.in_flight.remove(at) };
            if !(bad && self.rng.one_in(self.lose)) {
                return Step::Call(Call::Packet(self.framed(packet)));
            }
        }
        Step::Clock(self.later(tally, clock))
    }

    /// A packet as it comes in: mostly as it was sent; now and then cut, with just the bytes that it needs, or with
    /// others behind it, zeros or whatever stood in the buffer. Some are no frames.
    fn framed(&mut self, packet: Packet) -> Packet {
        if self.rng.one_in(400) {
            let bytes = vec![self.rng.next() as u8; *self.rng.pick(&[0, FRAME + 1])];
            return Packet { bytes, ..packet };
        }
        let mut bytes = match self.rng.below(4) {
            0 => self.rng.data(FRAME),
            1 => self.last_frame.clone(),
            _ => vec![0; FRAME],
        };
        let sent = packet.bytes.len().min(FRAME);
        bytes[..sent].copy_from_slice(&packet.bytes[..sent]);
        self.last_frame = bytes.clone();
        let needed = frame::needed(&packet.bytes).min(FRAME as u128) as usize;
        bytes.truncate(match self.rng.below(32) {
            0 => needed - 1,
            1 => self.rng.below(sent as u64 + 1) as usize,
            2..=4 => needed,
            5..=7 => needed + 1,
            8..=10 => self.rng.between(sent as u64, FRAME as u64) as usize,
            11..=16 => FRAME,
            _ => sent,
        });
        Packet { bytes, ..packet }
    }

    fn framed_from_anyone(&mut self, bytes: Vec<u8>) -> Packet {
        let (from, to) = (self.address(), self.address());
        self.framed(Packet { from, to, bytes })
    }

    fn address(&mut self) -> Address {
        if self.rng.one_in(20) {
            self.rng.bytes()
        } else {
            *self.rng.pick(&self.peers)
        }
    }

    fn length(&mut self) -> usize {
        if self.rng.one_in(3) {
            self.rng.below(32_501) as usize
        } else {
            *self.rng.pick(&BOUNDARY_LENGTHS)
        }
    }

    fn any_id(&mut self, tally: &Tally) -> Id {
        let held: Vec<Id> =
            tally.leaving.keys().chain(tally.arriving.keys()).chain(tally.whole.keys()).copied().collect();
        match self.rng.below(8) {
            0 => self.rng.bytes(),
            1 | 2 => *self.rng.pick(&self.ids),
            _ if held.is_empty() => *self.rng.pick(&self.ids),
            _ => *self.rng.pick(&held),
        }
    }

    fn push(&mut self) -> Push {
        let reply = self.rng.one_in(4);
        let topic = match self.rng.below(12) {
            _ if reply => vec![],
            0 => self.rng.data(256),
            _ => self.rng.pick(&self.topics).clone(),
        };
        let length = if self.rng.one_in(40) { 32_501 } else { self.length() };
        let try_ms = *self.rng.pick(&[0, 1, 999, 1_000, 300_000, 1 << 50]);
        let created = match self.rng.below(6) {
            0 => *self.rng.pick(&[0, 999, 1_000, u64::MAX - try_ms, u64::MAX]),
            _ => self.rng.between(1_000_000_000_000, 2_000_000_000_000),
        };
        Push {
            id: *self.rng.pick(&self.ids),
            reply,
            to: self.address(),
            topic,
            data: self.rng.data(length),
            created,
            try_ms,
        }
    }

    /// A packet from the link with something changed.
    fn mutated(&mut self, tally: &Tally) -> Packet {
        if self.in_flight.is_empty() {
            let bytes = self.crafted(tally);
            return self.framed_from_anyone(bytes);
        }
        let mut packet = self.rng.pick(&self.in_flight).clone();
        match self.rng.below(6) {
            0 => packet.bytes[8] = self.rng.next() as u8,
            1 => packet.bytes[8] ^= 1 << self.rng.below(8),
            2 => packet.bytes[..8].copy_from_slice(&self.any_id(tally)),
            3 => {
                let at = 12 + 8 * self.rng.below(3) as usize;
                let field = self.number();
                packet.bytes.resize(packet.bytes.len().max(at + 8), 0);
                packet.bytes[at..at + 8].copy_from_slice(&field.to_be_bytes());
            }
            4 => packet.from = self.address(),
            _ => {
                // mostly of a long packet: a short one comes again as it is
                let (at, bit) = (self.rng.below(FRAME as u64) as usize, 1 << self.rng.below(8));
                packet.bytes.get_mut(at).iter_mut().for_each(|byte| **byte ^= bit);
            }
        }
        self.framed(packet)
    }

    /// A number where something turns.
    fn number(&mut self) -> u64 {
        let near = *self.rng.pick(&[
            0,
            1,
            25,
            129,
            249,
            250,
            1_299,
            1_300,
            1_364,
            31_200,
            32_500,
            1 << 16,
            1 << 32,
            1 << 63,
            u64::MAX - 1_364,
            u64::MAX - 36,
            u64::MAX,
        ]);
        match self.rng.below(4) {
            0 => near.wrapping_add(1),
            1 => near.wrapping_sub(1),
            2 => near,
            _ => self.rng.below(32_501),
        }
    }

    /// A packet made by hand.
    fn crafted(&mut self, tally: &Tally) -> Vec<u8> {
        let id = self.any_id(tally);
        let flags = *self.rng.pick(&[
            0,
            0,
            0,
            frame::REPLY,
            frame::READ,
            frame::ABORTED,
            0x02,
            frame::CHUNK,
            frame::DONE,
        ]);
        match self.rng.below(8) {
            0 => {
                let length = if self.rng.one_in(4) { self.number() } else { self.length() as u64 };
                let topic = self.rng.pick(&self.topics).clone();
                frame::init(id, flags, length, &topic)
            }
            1 | 2 => self.chunk(id, flags & !frame::DONE, tally),
            3 | 4 => self.done(id, flags & !frame::CHUNK, tally),
            5 => self.acknowledgement(tally),
            6 => {
                let mut bytes = self.rng.data(FRAME);
                bytes[..8].copy_from_slice(&id);
                bytes
            }
            _ if self.rng.one_in(2) => frame::bare(id, frame::ABORTED),
            _ => frame::bare(id, self.rng.next() as u8),
        }
    }

    /// An init of a message that has arrived in part, if there is one: with another of the five things that an
    /// init says, now and then with all the same. The rest of the header is anything.
    fn late_init(&mut self, tally: &Tally) -> Option<Packet> {
        let in_part = tally.arriving.iter().filter(|(_, message)| !message.pieces.is_empty());
        let held: Vec<(Id, &Label)> = in_part.map(|(id, message)| (*id, &message.label)).collect();
        if held.is_empty() {
            return None;
        }
        let (id, label) = *self.rng.pick(&held);
        let Label { source: mut from, destination: mut to, mut length, mut topic, mut reply } = label.clone();
        let bit = self.rng.below(128) as usize;
        match self.rng.below(31) {
            0 => {}
            1..=6 => from[bit / 8] ^= 0x80 >> (bit % 8),
            7..=12 => to[bit / 8] ^= 0x80 >> (bit % 8),
            13..=18 => length ^= 1 << self.rng.below(12),
            19..=24 if topic.len() < 255 && (topic.is_empty() || self.rng.one_in(2)) => topic.push(0),
            19..=24 if self.rng.one_in(2) => topic.truncate(topic.len() - 1),
            19..=24 => topic[0] ^= 1,
            _ => reply = !reply,
        }
        let flags = if reply { frame::REPLY } else { 0 };
        let mut bytes = frame::init(id, flags, length, &topic);
        if self.rng.one_in(2) {
            bytes[8] |= self.rng.next() as u8 & !(ACK | frame::REPLY);
            bytes[9..12].copy_from_slice(&self.rng.bytes::<3>());
        }
        Some(self.framed(Packet { from, to, bytes }))
    }

    /// A chunk near what its message, if there is one, allows.
    fn chunk(&mut self, id: Id, flags: u8, tally: &Tally) -> Vec<u8> {
        let length = tally.arriving.get(&id).map_or(1_550, |m| m.label.length);
        let top = if length == 0 { 0 } else { (length - 1) / 250 };
        let index = match self.rng.below(5) {
            0 => top,
            1 => top + 1,
            2 => self.number(),
            _ => self.rng.between(0, top),
        };
        let size = match self.rng.below(4) {
            0 => self.number(),
            1 => length.min(1_364),
            _ => self.rng.between(length.min(250), length.min(1_364)),
        };
        let room = length.saturating_sub(size.min(frame::LARGEST_PIECE));
        let offset = match self.rng.below(5) {
            0 => self.number(),
            1 => room,
            2 => room + 1,
            _ => self.rng.between(0, room),
        };
        let data = self.rng.data(size.min(frame::LARGEST_PIECE) as usize);
        frame::chunk(id, flags, index, offset, size, &data)
    }

    /// A done that is right for what its message has, or nearly.
    fn done(&mut self, id: Id, flags: u8, tally: &Tally) -> Vec<u8> {
        let (mut count, mut sum) = match tally.arriving.get(&id) {
            Some(message) => (message.slots(), *blake3::hash(&message.joined()).as_bytes()),
            None => (self.rng.below(3), self.rng.bytes()),
        };
        match self.rng.below(6) {
            0 => count = count.wrapping_sub(1),
            1 => count = self.number(),
            2 => sum[self.rng.below(32) as usize] ^= 1 << self.rng.below(8),
            _ => {}
        }
        frame::done(id, flags, count, &sum)
    }

    /// What a receiver may send for a message that leaves: acknowledgements, and read.
    fn acknowledgement(&mut self, tally: &Tally) -> Vec<u8> {
        let leaving: Vec<(Id, usize)> = tally.leaving.iter().map(|(id, m)| (*id, m.length)).collect();
        let (id, length) =
            if leaving.is_empty() { (*self.rng.pick(&self.ids), 0) } else { *self.rng.pick(&leaving) };
        match self.rng.below(8) {
            0 | 1 => frame::init(id, ACK, length as u64, &[]),
            2..=5 => {
                let pieces = (length as u64).div_ceil(1_300);
                let index = if self.rng.one_in(6) { self.number() } else { self.rng.below(pieces + 1) };
                frame::chunk(id, ACK, index, index.wrapping_mul(1_300), 1_300, &[])
            }
            6 => frame::done(id, ACK, 0, &[0; 32]),
            _ => frame::bare(id, frame::READ),
        }
    }

    /// A whole message of a stranger's, cut in his own way, on the link.
    fn transfer(&mut self) {
        let (id, length) = (*self.rng.pick(&self.ids), self.length());
        let (from, to, data) = (self.address(), self.address(), self.rng.data(length));
        let topic = self.rng.pick(&self.topics).clone();
        let flags = *self.rng.pick(&[0, 0, frame::REPLY]);
        let mut pieces = Vec::new();
        let cut = *self.rng.pick(&[0, 250, 1_300, 1_364]);
        let mut offset = 0;
        while offset < length {
            let left = length - offset;
            let mut size = if cut == 0 { self.rng.between(250, 1_364) as usize } else { cut };
            if cut != 250 && size < left && left - size < 250 {
                size = if left <= 1_364 { left } else { left - 250 };
            }
            let size = size.min(left);
            pieces.push(frame::chunk(
                id,
                0,
                pieces.len() as u64,
                offset as u64,
                size as u64,
                &data[offset..offset + size],
            ));
            offset += size;
        }
        let count = pieces.len() as u64;
        if self.rng.one_in(3) {
            self.rng.shuffle(&mut pieces);
        }
        let init = frame::init(id, flags, length as u64, &topic);
        let done = frame::done(id, 0, count, blake3::hash(&data).as_bytes());
        let packets = std::iter::once(init).chain(pieces).chain(std::iter::once(done));
        let packets: Vec<Packet> = packets.map(|bytes| Packet { from, to, bytes }).collect();
        // a message that is to arrive whole goes first
        if self.rng.one_in(2) {
            self.calm = packets.len() as u64 + 1;
            self.in_flight.splice(0..0, packets);
        } else {
            self.sent(packets);
        }
    }

    /// A later time: mostly a tick's, sometimes about a deadline.
    fn later(&mut self, tally: &Tally, clock: u64) -> u64 {
        let leaving: Vec<Id> = tally.leaving.keys().copied().collect();
        if self.rng.one_in(25) && !leaving.is_empty() {
            let id = *self.rng.pick(&leaving);
            let deadline = tally.next_deadline(&id).unwrap_or(clock);
            let to = *self.rng.pick(&[deadline - 1, deadline, deadline + 1, deadline + 300_000]);
            return to.max(clock + 1);
        }
        clock + *self.rng.pick(&[1, 37, 50, 99, 100, 100, 100, 101, 150, 1_000, 12_345])
    }

    fn rules(&mut self) -> Book {
        let mut topics = Vec::new();
        for topic in self.topics.clone() {
            if self.rng.one_in(3) {
                let subnets = (0..self.rng.below(3)).map(|_| self.subnet()).collect();
                topics.push((topic, subnets));
            }
        }
        Book { accept: !self.rng.one_in(3), topics }
    }

    fn subnet(&mut self) -> (Address, u8) {
        let bits = *self.rng.pick(&[0, 1, 7, 8, 9, 64, 127, 128]);
        let mut address = self.address();
        if self.rng.one_in(2) {
            let bit = self.rng.below(128) as usize;
            address[bit / 8] ^= 0x80 >> (bit % 8);
        }
        (address, bits)
    }

    fn known(&mut self) -> BTreeSet<Address> {
        let unknown = self.rng.below(3 * self.peers.len() as u64) as usize;
        self.peers.iter().enumerate().filter(|(place, _)| *place != unknown).map(|(_, peer)| *peer).collect()
    }
}
