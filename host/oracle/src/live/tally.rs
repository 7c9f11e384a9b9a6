//! What the comparison itself knows of a node: which messages leave, arrive and are whole, and when timers
//! are due. It knows this from the original's answers alone; of ids that have left, from the library's.
//! A refusal that the original does not have must have its reason here.

use std::collections::BTreeMap;

use crate::call::{Address, Call, Id, Packet, Push, Said, Setup, Taken, ACK, MOST_OF_SOURCE, UNKNOWN_ID};
use crate::frame::{self, Kind};
use crate::live::sender::Sender;

const RECORDS: usize = 8;
/// The longest message in the domain of the comparison.
pub const LONGEST: u64 = 32_500;
const CUT: usize = 1300;
const TICK: u64 = 100;
const DEADLINE: u64 = 300_000;

/// A message that leaves, with the timers of its sender.
pub struct Leaving {
    cells: usize,
    /// The length, for packets made by hand.
    pub length: usize,
    next_tick: u64,
    next_deadline: u64,
    deadlines: usize,
}

/// Which of a sender's timers are due.
#[derive(Clone, Copy, PartialEq, Eq)]
pub struct Due {
    pub tick: bool,
    pub deadlines: usize,
}

/// What an init says of its message. Two inits of an id are equal if they say the same.
#[derive(Clone, Debug, Default, PartialEq, Eq)]
pub struct Label {
    pub source: Address,
    pub destination: Address,
    pub length: u64,
    pub topic: Vec<u8>,
    pub reply: bool,
}

impl Label {
    /// What a packet says that is an init.
    pub fn of(init: &Packet) -> Self {
        Self {
            source: init.from,
            destination: init.to,
            length: frame::field(&init.bytes, 0),
            topic: frame::topic(&init.bytes).to_vec(),
            reply: init.flags() & frame::REPLY != 0,
        }
    }

    /// In which of the five another differs, by name.
    pub fn differs_in(&self, other: &Self) -> Vec<&'static str> {
        let Self { source, destination, length, topic, reply } = self;
        let five = [
            ("source", *source != other.source),
            ("destination", *destination != other.destination),
            ("length", *length != other.length),
            ("topic", *topic != other.topic),
            ("reply flag", *reply != other.reply),
        ];
        five.into_iter().filter(|(_, differs)| *differs).map(|(name, _)| name).collect()
    }
}

/// How many slots a message of this length has at its init.
pub fn fresh_slots(length: u64) -> u64 {
    length.div_ceil(CUT as u64)
}

/// A message that is whole: its source, and how many cells it holds.
#[derive(Clone, Copy, Debug, PartialEq, Eq)]
pub struct Whole {
    pub source: Address,
    pub cells: usize,
}

/// A message that arrives.
#[derive(Default)]
pub struct Arriving {
    /// What the init says that opened it.
    pub label: Label,
    pub pieces: BTreeMap<u64, Vec<u8>>,
}

impl Arriving {
    /// The pieces joined by index.
    pub fn joined(&self) -> Vec<u8> {
        self.pieces.values().flatten().copied().collect()
    }

    /// How many pieces a done must count.
    pub fn slots(&self) -> u64 {
        let highest = self.pieces.keys().next_back().map_or(0, |index| index + 1);
        highest.max(fresh_slots(self.label.length))
    }
}

pub struct Tally {
    recv_cells: usize,
    send_cells: usize,
    pub leaving: BTreeMap<Id, Leaving>,
    /// What wakes put out for each message that was pushed last under its id.
    pub senders: BTreeMap<Id, Sender>,
    pub arriving: BTreeMap<Id, Arriving>,
    pub whole: BTreeMap<Id, Whole>,
}

impl Tally {
    pub fn new(setup: &Setup) -> Self {
        Self {
            recv_cells: setup.recv_cells,
            send_cells: setup.send_cells,
            leaving: BTreeMap::new(),
            senders: BTreeMap::new(),
            arriving: BTreeMap::new(),
            whole: BTreeMap::new(),
        }
    }

    /// Whether the call gives a reason to answer with this number, which the original does not have.
    /// A wake that is compared is within hours, so its calendar gives none.
    pub fn has_reason(&self, call: &Call, number: u64) -> bool {
        match call {
            Call::Push(push) => self.push_reason(push, number),
            Call::Packet(packet) => self.packet_reason(packet, number),
            Call::Take => number == 23 && self.whole.is_empty(),
            _ => false,
        }
    }

    fn push_reason(&self, push: &Push, number: u64) -> bool {
        let used: usize = self.leaving.values().map(|m| m.cells).sum();
        match number {
            6 => push.data.len() as u64 > LONGEST,
            7 => self.leaving.len() == RECORDS,
            12 => used + cells(push) > self.send_cells,
            22 => self.leaving.contains_key(&push.id),
            24 => push.created.checked_add(push.try_ms).is_none(),
            _ => false,
        }
    }

    fn packet_reason(&self, packet: &Packet, number: u64) -> bool {
        let (id, frame) = (packet.id(), &packet.bytes);
        match (number, frame::kind(packet.flags()), packet.flags() & ACK) {
            (6, Kind::Init, 0) => frame::field(frame, 0) > LONGEST,
            (7, Kind::Init, 0) => {
                self.arriving.len() + self.whole.len() == RECORDS && !self.arriving.contains_key(&id)
            }
            (12, Kind::Chunk, 0) => {
                !self.has_free_cell()
                    && self.arriving.get(&id).is_some_and(|m| !m.pieces.contains_key(&frame::field(frame, 0)))
            }
            _ => false,
        }
    }

    /// How many cells each message holds that arrives or is whole, with its source.
    fn shares(&self) -> impl Iterator<Item = Whole> + '_ {
        let arriving = self.arriving.values();
        let share = |m: &Arriving| Whole { source: m.label.source, cells: m.pieces.len() };
        arriving.map(share).chain(self.whole.values().copied())
    }

    /// Whether a cell is free for a piece that arrives.
    pub fn has_free_cell(&self) -> bool {
        self.shares().map(|share| share.cells).sum::<usize>() < self.recv_cells
    }

    /// How many cells the messages of a source hold that arrive or are whole.
    pub fn cells_from(&self, source: &Address) -> usize {
        self.shares().filter(|share| share.source == *source).map(|share| share.cells).sum()
    }

    /// Whether another source than this one holds as many as it may.
    pub fn is_full_but_for(&self, source: &Address) -> bool {
        let mut others = self.shares().filter(|share| share.source != *source);
        others.any(|share| self.cells_from(&share.source) == MOST_OF_SOURCE)
    }

    /// How many of them whole messages hold.
    pub fn whole_from(&self, source: &Address) -> usize {
        self.whole.values().filter(|share| share.source == *source).map(|share| share.cells).sum()
    }

    /// The number of what the original did with a packet: by its own words, else by its replies, else by what it holds, of which it says nothing.
    pub fn number(&self, packet: &Packet, replies: &[Packet], said: Option<u64>) -> u64 {
        let (id, ack) = (packet.id(), packet.flags() & ACK != 0);
        let found = match (frame::kind(packet.flags()), ack) {
            _ if !replies.is_empty() => true,
            (Kind::Init | Kind::Chunk | Kind::Done, true) | (Kind::Read, false) => {
                self.leaving.contains_key(&id)
            }
            (Kind::Aborted, false) => self.arriving.contains_key(&id),
            _ => false,
        };
        said.unwrap_or(if found { 0 } else { UNKNOWN_ID })
    }

    /// A push that the original took, at this time, by a node with this address.
    pub fn pushed(&mut self, push: &Push, from: Address, clock: u64) {
        let new = Leaving {
            cells: cells(push),
            length: push.data.len(),
            next_tick: clock + TICK,
            next_deadline: clock + DEADLINE,
            deadlines: 0,
        };
        self.leaving.insert(push.id, new);
        self.senders.insert(push.id, Sender::new(push, from));
    }

    /// A packet that was accepted: the sender of its id hears of it.
    pub fn accepted(&mut self, packet: &Packet) {
        if let Some(sender) = self.senders.get_mut(&packet.id()) {
            sender.acknowledged(packet);
        }
    }

    /// The message that arrives under the id of an init, if the packet is one.
    pub fn opened_before(&self, packet: &Packet) -> Option<&Arriving> {
        self.arriving.get(&packet.id()).filter(|_| frame::is_init(packet.flags()))
    }

    /// A packet of an id that has left, and what the library put out for it: an equal init changes nothing.
    pub fn handled_here(&mut self, packet: &Packet, said: &Said) {
        let is_equal = |message: &Arriving| message.label == Label::of(packet);
        if !self.opened_before(packet).is_some_and(is_equal) {
            self.handled(packet, said);
        }
    }

    /// A packet that came in, and what the original put out for it: every init opens its message anew.
    pub fn handled(&mut self, packet: &Packet, said: &Said) {
        let (id, frame) = (packet.id(), &packet.bytes);
        if packet.flags() & ACK != 0 {
            return;
        }
        match (frame::kind(packet.flags()), said.packets.is_empty()) {
            (Kind::Init, false) => {
                self.arriving.insert(id, Arriving { label: Label::of(packet), pieces: BTreeMap::new() });
            }
            (Kind::Chunk, false) => {
                self.arriving
                    .entry(id)
                    .or_default()
                    .pieces
                    .insert(frame::field(frame, 0), frame::piece(frame).to_vec());
            }
            (Kind::Done, false) => {
                let message = self.arriving.remove(&id).unwrap_or_default();
                self.whole.insert(id, Whole { source: message.label.source, cells: message.pieces.len() });
            }
            (Kind::Aborted, _) => {
                self.arriving.remove(&id);
            }
            _ => {}
        }
    }

    /// A message that was taken.
    pub fn taken(&mut self, taken: &Taken) {
        self.whole.remove(&taken.id);
    }

    /// Which timers of a sender are due at this time; they are set for their next time.
    pub fn due(&mut self, id: &Id, clock: u64) -> Due {
        let m = self.leaving.get_mut(id).expect("the sender of a message that leaves");
        let tick = m.next_tick <= clock;
        if tick {
            m.next_tick = clock + TICK - (clock - m.next_tick) % TICK;
        }
        let mut deadlines = 0;
        while m.next_deadline <= clock && m.deadlines < 2 {
            m.next_deadline += DEADLINE;
            m.deadlines += 1;
            deadlines += 1;
        }
        if m.deadlines == 2 {
            self.leaving.remove(id);
        }
        Due { tick, deadlines }
    }

    /// When a sender's deadline is due next.
    pub fn next_deadline(&self, id: &Id) -> Option<u64> {
        self.leaving.get(id).map(|m| m.next_deadline)
    }
}

fn cells(push: &Push) -> usize {
    push.data.len().div_ceil(CUT)
}

#[cfg(test)]
mod tests {
    use super::*;
    use crate::call::{Wake, BAD_CALENDAR, BAD_LENGTHS, FRAME, NO_CUTS, NO_PLAN};

    fn tally() -> Tally {
        Tally::new(&Setup { key: [0; 32], recv_cells: 2, send_cells: 3 })
    }

    fn push(id: u8, length: usize) -> Push {
        Push {
            id: [id; 8],
            reply: false,
            to: [0; 16],
            topic: vec![],
            data: vec![0; length],
            created: 5,
            try_ms: 5,
        }
    }

    fn packet(mut bytes: Vec<u8>) -> Packet {
        bytes.resize(FRAME, 0);
        Packet { from: [0; 16], to: [0; 16], bytes }
    }

    fn replied() -> Said {
        Said { packets: vec![packet(vec![])], ..Said::default() }
    }

    #[test]
    fn a_refused_push_needs_its_reason() {
        let mut tally = tally();
        tally.pushed(&push(1, 1301), [0; 16], 0);
        let has = |push: Push, number| tally.has_reason(&Call::Push(push), number);
        assert!(has(push(1, 0), 22) && !has(push(2, 0), 22));
        assert!(has(push(2, 1301), 12) && !has(push(2, 1300), 12));
        assert!(has(push(2, 32_501), 6) && !has(push(2, 32_500), 6));
        assert!(has(Push { created: u64::MAX, ..push(2, 0) }, 24) && !has(push(2, 0), 24));
        assert!(!has(push(2, 0), 7) && !has(push(2, 0), 25) && !has(push(2, 0), 2));
        for id in 2..=8 {
            tally.pushed(&push(id, 0), [0; 16], 0);
        }
        assert!(tally.has_reason(&Call::Push(push(9, 0)), 7));
        let wake = Call::Wake(Wake::Send, [1; 8], 0);
        assert!([2, 8, 20, BAD_CALENDAR].iter().all(|number| !tally.has_reason(&wake, *number)));
        let calls =
            [wake, Call::Push(push(9, 0)), Call::Packet(packet(frame::init([9; 8], 0, 0, &[]))), Call::Take];
        for number in [BAD_LENGTHS, NO_CUTS, NO_PLAN] {
            assert!(
                calls.iter().all(|call| !tally.has_reason(call, number)),
                "only sums, cut lists and plans are refused with {number}"
            );
        }
    }

    #[test]
    fn a_refused_packet_needs_its_reason() {
        let mut tally = tally();
        let chunk = |index| packet(frame::chunk([1; 8], 0, index, 0, 300, &[]));
        tally.handled(&packet(frame::init([1; 8], 0, 2000, &[])), &replied());
        tally.handled(&chunk(0), &replied());
        assert!(!tally.has_reason(&Call::Packet(chunk(1)), 12));
        tally.handled(&chunk(1), &replied());
        assert!(
            tally.has_reason(&Call::Packet(chunk(2)), 12) && !tally.has_reason(&Call::Packet(chunk(1)), 12)
        );
        let init = |id, length| Call::Packet(packet(frame::init([id; 8], 0, length, &[])));
        assert!(tally.has_reason(&init(1, 32_501), 6) && !tally.has_reason(&init(1, 32_500), 6));
        assert!(!tally.has_reason(&init(2, 0), 7));
        for id in 2..=8 {
            tally.handled(&packet(frame::init([id; 8], 0, 0, &[])), &replied());
        }
        assert!(tally.has_reason(&init(9, 0), 7) && !tally.has_reason(&init(8, 0), 7));
        assert!(tally.has_reason(&Call::Take, 23));
        tally.handled(&packet(frame::done([8; 8], 0, 0, &[0; 32])), &replied());
        assert!(!tally.has_reason(&Call::Take, 23));
    }

    #[test]
    fn an_equal_init_changes_nothing_once_the_id_has_left() {
        let mut tally = tally();
        let init = packet(frame::init([1; 8], 0, 2000, b"ducts"));
        let chunk = packet(frame::chunk([1; 8], 0, 7, 0, 300, &[]));
        let other = packet(frame::init([1; 8], 0, 2000, b"duct"));
        let held = |tally: &Tally| (tally.arriving[&[1; 8]].pieces.len(), tally.arriving[&[1; 8]].slots());
        for (again, kept) in [(&init, (1, 8)), (&other, (0, 2))] {
            tally.handled(&init, &replied());
            tally.handled(&chunk, &replied());
            assert_eq!(held(&tally), (1, 8));
            tally.handled_here(again, &replied());
            assert_eq!(held(&tally), kept);
        }
        tally.handled(&init, &replied());
        tally.handled(&chunk, &replied());
        tally.handled(&init, &replied());
        assert_eq!(held(&tally), (0, 2), "in the original it opens the message anew");
    }

    #[test]
    fn an_init_says_five_things() {
        let init = packet(frame::init([1; 8], frame::REPLY, 2000, b"ducts"));
        let label = Label::of(&init);
        assert_eq!(label.differs_in(&label), [""; 0]);
        let changed = |change: fn(&mut Label)| {
            let mut other = label.clone();
            change(&mut other);
            label.differs_in(&other)
        };
        assert_eq!(changed(|other| other.source[15] ^= 1), ["source"]);
        assert_eq!(changed(|other| other.destination[0] ^= 1), ["destination"]);
        assert_eq!(changed(|other| other.length ^= 1), ["length"]);
        assert_eq!(changed(|other| other.topic.push(0)), ["topic"]);
        assert_eq!(changed(|other| other.reply = false), ["reply flag"]);
        assert_eq!(changed(|other| *other = Label::default()), ["length", "topic", "reply flag"]);
        let mut bytes = init.bytes.clone();
        bytes[8..12].copy_from_slice(&[frame::INIT | frame::REPLY | 0x7a, 1, 2, 3]);
        assert_eq!(Label::of(&Packet { bytes, ..init }), label, "the rest of the header says nothing");
    }

    #[test]
    fn timers_go_by_hundred_and_three_hundred_thousand() {
        let mut tally = tally();
        tally.pushed(&push(1, 0), [0; 16], 50);
        let mut due = |clock| {
            let due = tally.due(&[1; 8], clock);
            (due.tick, due.deadlines)
        };
        assert_eq!(due(149), (false, 0));
        assert_eq!(due(150), (true, 0));
        assert_eq!(due(249), (false, 0));
        assert_eq!(due(487), (true, 0));
        assert_eq!(due(549), (false, 0));
        assert_eq!(due(300_050), (true, 1));
        assert_eq!(due(600_049), (true, 0));
        assert_eq!(due(600_050), (true, 1));
        assert!(tally.leaving.is_empty());
    }
}
