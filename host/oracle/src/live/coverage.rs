//! What a comparison has met, so that a run that meets nothing is not taken for one that finds nothing.

use std::collections::{BTreeMap, BTreeSet};

use crate::call::{
    Call, Packet, Said, Wake, Woke, ACK, BAD_FRAME, CLOSED_TOPIC, SHORT_FRAME, TOPIC_TOO_LARGE,
};
use crate::frame::{self, Kind};
use crate::live::left::Listed;
use crate::live::run::{AGED, BY_HOURS, EIGHT, FULL, KEPT_BACK, MALFORMED, MIXED, OUTSIDE, STAYS};
use crate::live::run::{AT_LIMIT, BESIDE_FULL, LAST_CELL, NONE_FREE, OTHER_SENDER, WHOLE_COUNTED};
use crate::live::tally::{Label, Tally};

#[derive(Default)]
pub struct Coverage {
    /// Calls compared, by what came out.
    calls: BTreeMap<&'static str, u64>,
    /// What else was seen.
    seen: BTreeMap<&'static str, u64>,
    /// The numbers of compared packets.
    numbers: BTreeMap<u64, u64>,
    flags: BTreeSet<u8>,
    /// Lengths of messages taken.
    lengths: BTreeSet<usize>,
    /// Frames by what they are and how many bytes came of them.
    frames: BTreeMap<(&'static str, Came), u64>,
    /// Calls that lie outside what the original can be asked, by why; they are not compared.
    outside: BTreeMap<String, u64>,
    /// Ids that were pushed or announced.
    ids: u64,
    /// Those of them that left the comparison, by why.
    left: BTreeMap<Listed, u64>,
}

/// How many bytes came of a frame: one fewer than its packet needs, as many, or more.
#[derive(Clone, Copy, Debug, PartialEq, Eq, PartialOrd, Ord)]
enum Came {
    AllButOne,
    All,
    More,
}

impl Came {
    const EACH: [(Self, &'static str); 3] =
        [(Self::AllButOne, "a byte short"), (Self::All, "exact"), (Self::More, "longer")];
}

/// What a frame is, by its flags.
const FRAMES: [&str; 9] =
    ["an init", "a chunk", "a done", "a read", "an aborted", ACK_INIT, ACK_CHUNK, ACK_DONE, "no kind"];
const ACK_INIT: &str = "an acknowledgement of an init";
const ACK_CHUNK: &str = "an acknowledgement of a chunk";
const ACK_DONE: &str = "an acknowledgement of a done";

/// Lengths where the protocol's arithmetic turns.
pub const BOUNDARY_LENGTHS: [usize; 11] = [0, 1, 249, 250, 251, 1299, 1300, 1301, 1550, 32_499, 32_500];

/// What a full run must have met at least once.
const NEEDED: [&str; 38] = [
    "push",
    "push, topic too large",
    "reply pushed",
    "init acknowledged",
    "chunk acknowledged",
    "done acknowledged",
    "packet unanswered",
    "senders seen to wake",
    "senders seen to sleep on",
    "send wake, nothing",
    "send wake, init",
    "send wake, one piece",
    "send wake, more pieces",
    "send wake, done",
    "clock gone back",
    "deadline, aborted",
    "deadline, nothing",
    "report",
    "report of an unknown id",
    "take",
    "address",
    EQUAL_INIT,
    REFUSED_INIT,
    BY_HOURS,
    OUTSIDE,
    KEPT_BACK,
    MALFORMED,
    STAYS,
    EIGHT,
    FULL,
    MIXED,
    AGED,
    LAST_CELL,
    AT_LIMIT,
    BESIDE_FULL,
    WHOLE_COUNTED,
    NONE_FREE,
    OTHER_SENDER,
];

const EQUAL_INIT: &str = "init again, before any piece";
const REFUSED_INIT: &str = "init again behind a piece, refused";

/// What it must have met besides: inits that differ from the one that opened their message in this alone.
const OTHER_INITS: [(&str, &str); 5] = [
    ("source", "init behind a piece, another source"),
    ("destination", "init behind a piece, another destination"),
    ("length", "init behind a piece, another length"),
    ("topic", "init behind a piece, another topic"),
    ("reply flag", "init behind a piece, another reply flag"),
];

impl Coverage {
    /// Takes over what another part of the run has met.
    pub fn join(&mut self, other: Coverage) {
        let Coverage { calls, seen, numbers, flags, lengths, frames, outside, ids, left } = other;
        add(&mut self.frames, frames);
        add(&mut self.calls, calls);
        add(&mut self.seen, seen);
        add(&mut self.numbers, numbers);
        add(&mut self.outside, outside);
        add(&mut self.left, left);
        self.ids += ids;
        self.flags.extend(flags);
        self.lengths.extend(lengths);
    }

    /// Something was seen that is no call.
    pub fn saw(&mut self, what: &'static str) {
        *self.seen.entry(what).or_default() += 1;
    }

    /// A frame came in, of which so many bytes came.
    pub fn frame(&mut self, frame: &[u8]) {
        let Some(flags) = frame.get(8) else {
            return;
        };
        let came = match frame.len() as u128 {
            length if length + 1 == frame::needed(frame) => Came::AllButOne,
            length if length == frame::needed(frame) => Came::All,
            length if length > frame::needed(frame) => Came::More,
            _ => return,
        };
        let what = match (frame::kind(*flags), flags & ACK != 0) {
            (Kind::Init, false) => "an init",
            (Kind::Chunk, false) => "a chunk",
            (Kind::Done, false) => "a done",
            (Kind::Read, _) => "a read",
            (Kind::Aborted, _) => "an aborted",
            (Kind::Init, true) => ACK_INIT,
            (Kind::Chunk, true) => ACK_CHUNK,
            (Kind::Done, true) => ACK_DONE,
            (Kind::None, _) => "no kind",
        };
        *self.frames.entry((what, came)).or_default() += 1;
    }

    /// A call was left out.
    pub fn outside(&mut self, why: String) {
        *self.outside.entry(why).or_default() += 1;
    }

    /// A packet was compared, while the tally was as before it: whether it was an init of a message that arrives,
    /// and how it differed from the one that opened it.
    pub fn init(&mut self, packet: &Packet, said: &Said, tally: &Tally) {
        let Some(message) = tally.opened_before(packet) else {
            return;
        };
        let differs_in = message.label.differs_in(&Label::of(packet));
        match (&differs_in[..], message.pieces.is_empty(), said.number) {
            ([], true, 0) => self.saw(EQUAL_INIT),
            ([], false, CLOSED_TOPIC) => self.saw(REFUSED_INIT),
            ([one], false, 0) => {
                OTHER_INITS.iter().filter(|(name, _)| name == one).for_each(|(_, what)| self.saw(what))
            }
            _ => {}
        }
    }

    /// An id was pushed or announced for the first time.
    pub fn id(&mut self) {
        self.ids += 1;
    }

    /// An id left the comparison.
    pub fn left(&mut self, why: Listed) {
        *self.left.entry(why).or_default() += 1;
    }

    /// How many calls were compared.
    pub fn calls(&self) -> u64 {
        self.calls.values().sum()
    }

    /// A call was compared.
    pub fn add(&mut self, call: &Call, said: &Said) {
        let what = match call {
            Call::Rules(_) | Call::Known(_) => return,
            Call::Push(_) if said.number == TOPIC_TOO_LARGE => "push, topic too large",
            Call::Push(push) if push.reply => "reply pushed",
            Call::Push(_) => "push",
            Call::Packet(packet) => {
                *self.numbers.entry(said.number).or_default() += 1;
                self.flags.insert(packet.flags());
                match said.woke {
                    Some(Woke::Yes) => self.saw("senders seen to wake"),
                    Some(Woke::No) => self.saw("senders seen to sleep on"),
                    _ => {}
                }
                match frame::kind(packet.flags()) {
                    _ if said.packets.is_empty() => "packet unanswered",
                    Kind::Init => "init acknowledged",
                    Kind::Chunk => "chunk acknowledged",
                    _ => "done acknowledged",
                }
            }
            Call::Wake(Wake::Send, ..) => match said.packets.first().map(|p| frame::kind(p.flags())) {
                None => "send wake, nothing",
                Some(Kind::Init) => "send wake, init",
                Some(Kind::Done) => "send wake, done",
                Some(_) if said.packets.len() == 1 => "send wake, one piece",
                Some(_) => "send wake, more pieces",
            },
            Call::Wake(Wake::Deadline, ..) if said.packets.is_empty() => "deadline, nothing",
            Call::Wake(Wake::Deadline, ..) => "deadline, aborted",
            Call::Report(_) if said.report.is_none() => "report of an unknown id",
            Call::Report(_) => "report",
            Call::Take => {
                self.lengths.extend(said.taken.iter().map(|taken| taken.data.len()));
                "take"
            }
        };
        *self.calls.entry(what).or_default() += 1;
    }

    /// What a full run should have met and this one has not.
    pub fn missing(&self) -> Vec<String> {
        let mut missing: Vec<String> = NEEDED
            .iter()
            .chain(OTHER_INITS.iter().map(|(_, what)| what))
            .filter(|what| !self.calls.contains_key(*what) && !self.seen.contains_key(*what))
            .map(|what| what.to_string())
            .collect();
        missing.extend(
            (4..=20)
                .filter(|n| ![6, 7, 12].contains(n) && !self.numbers.contains_key(n))
                .map(|n| format!("a packet answered {n}")),
        );
        for (came, name) in Came::EACH {
            let unmet = FRAMES.iter().filter(|what| !self.frames.contains_key(&(**what, came)));
            missing.extend(unmet.map(|what| format!("a frame of {what}, {name}")));
        }
        missing.extend(
            [BAD_FRAME, SHORT_FRAME]
                .map(|number| format!("answered {number}"))
                .into_iter()
                .filter(|told| !self.outside.contains_key(told)),
        );
        if self.flags.len() < 256 {
            missing.push(format!("{} of 256 flag bytes", 256 - self.flags.len()));
        }
        missing.extend(
            BOUNDARY_LENGTHS
                .iter()
                .filter(|length| !self.lengths.contains(length))
                .map(|length| format!("a message of {length} bytes taken")),
        );
        missing.extend(
            Listed::ALL
                .iter()
                .filter(|why| !self.left.contains_key(why))
                .map(|why| format!("an id that leaves the comparison ({})", why.name())),
        );
        missing
    }

    /// What a full run says if more ids left the comparison than may, for one of the differences.
    pub fn too_many_left(&self) -> Option<String> {
        let (why, left) = self.left.iter().find(|(why, left)| **left * 100 > self.ids * why.most_in_100())?;
        let (name, most) = (why.name(), why.most_in_100());
        Some(format!("{left} of {} ids left the comparison ({name}), more than {most} in 100", self.ids))
    }

    /// The counts as text, a line each.
    pub fn lines(&self) -> String {
        let mut text = String::new();
        for (what, times) in self.calls.iter().chain(&self.seen) {
            text.push_str(&format!("  {times:>9}  {what}\n"));
        }
        let row = |of: Vec<(String, &u64)>| {
            of.iter().map(|(what, times)| format!("{what}: {times}")).collect::<Vec<_>>().join(", ")
        };
        let numbers = row(self.numbers.iter().map(|(number, times)| (number.to_string(), times)).collect());
        let outside = row(self.outside.iter().map(|(why, times)| (why.clone(), times)).collect());
        let frames = Came::EACH.map(|(wanted, name)| {
            let those = self.frames.iter().filter(|((_, came), _)| *came == wanted);
            format!("{} {name}", those.map(|(_, times)| times).sum::<u64>())
        });
        text.push_str(&format!("  frames of {} kinds: {}\n", FRAMES.len(), frames.join(", ")));
        text.push_str(&format!(
            "  {} flag bytes, {} lengths of messages taken\n",
            self.flags.len(),
            self.lengths.len()
        ));
        text + &format!("  packets by number: {numbers}\n  not compared: {outside}\n{}", self.left_line())
    }

    /// How many ids left the comparison, and why.
    fn left_line(&self) -> String {
        let left: u64 = self.left.values().sum();
        let why: Vec<String> = self.left.iter().map(|(why, ids)| format!("{}: {ids}", why.name())).collect();
        let sign = if why.is_empty() { "" } else { ": " };
        format!("  {left} of {} ids left the comparison{sign}{}\n", self.ids, why.join("; "))
    }
}

/// Adds counts to counts.
fn add<T: Ord>(to: &mut BTreeMap<T, u64>, more: BTreeMap<T, u64>) {
    for (what, times) in more {
        *to.entry(what).or_default() += times;
    }
}

#[cfg(test)]
mod tests {
    use super::*;
    use crate::call::{Setup, FRAME};

    /// A run that met so many ids, of which so many left.
    fn met(ids: u64, left: u64) -> Coverage {
        let mut coverage = Coverage::default();
        (0..ids).for_each(|_| coverage.id());
        (0..left).for_each(|_| coverage.left(Listed::ShortLastPiece));
        coverage
    }

    #[test]
    fn too_many_ids_that_leave_are_told() {
        assert_eq!(met(0, 0).too_many_left(), None);
        let mut coverage = met(200, 0);
        for why in Listed::ALL {
            (0..2 * why.most_in_100()).for_each(|_| coverage.left(why));
            assert_eq!(coverage.too_many_left(), None, "each has its own bound");
        }
        coverage.left(Listed::EqualInit);
        let told = "5 of 200 ids left the comparison (C-12, an equal init), more than 2 in 100";
        assert_eq!(coverage.too_many_left().as_deref(), Some(told));
        coverage.left(Listed::ShortLastPiece);
        let told = "9 of 200 ids left the comparison (C-11, a short last piece), more than 4 in 100";
        assert_eq!(coverage.too_many_left().as_deref(), Some(told));
    }

    #[test]
    fn ids_that_leave_are_counted_over_all_parts() {
        let mut coverage = met(3, 0);
        let missing = |coverage: &Coverage| {
            let by =
                |name| coverage.missing().contains(&format!("an id that leaves the comparison ({name})"));
            Listed::ALL.map(|why| by(why.name()))
        };
        assert_eq!(coverage.left_line(), "  0 of 3 ids left the comparison\n");
        assert_eq!(missing(&coverage), [true; 4]);
        coverage.join(met(4, 2));
        assert_eq!(missing(&coverage), [false, true, true, true]);
        let line = "  2 of 7 ids left the comparison: C-11, a short last piece: 2\n";
        assert!(coverage.lines().ends_with(line), "{}", coverage.lines());
        coverage.left(Listed::EqualInit);
        assert_eq!(missing(&coverage), [false, false, true, true]);
        let line = "  3 of 7 ids left the comparison: C-11, a short last piece: 2; C-12, an equal init: 1\n";
        assert!(coverage.lines().ends_with(line), "{}", coverage.lines());
        coverage.left(Listed::FullWake);
        assert_eq!(missing(&coverage), [false, false, false, true]);
        coverage.left(Listed::FullSource);
        assert_eq!(missing(&coverage), [false; 4]);
        let end = "; C-15, a wake with more than eight pieces to send: 1; C-18, a piece of a source with 30 cells: 1\n";
        assert!(coverage.lines().ends_with(end), "{}", coverage.lines());
    }

    fn packet(mut bytes: Vec<u8>) -> Packet {
        bytes.resize(FRAME, 0);
        Packet { from: [1; 16], to: [2; 16], bytes }
    }

    /// What is still missing of frames.
    fn missing_frames(coverage: &Coverage) -> Vec<String> {
        coverage.missing().into_iter().filter(|what| what.starts_with("a frame of ")).collect()
    }

    #[test]
    fn frames_are_told_apart_by_what_came() {
        let mut coverage = Coverage::default();
        assert_eq!(missing_frames(&coverage).len(), 27);
        let packets = [
            (frame::init([1; 8], 0, 9, b"ducts"), 26),
            (frame::chunk([1; 8], 0, 0, 0, 250, &[7; 250]), 286),
            (frame::done([1; 8], 0, 9, &[7; 32]), 52),
            (frame::bare([1; 8], frame::READ), 12),
            (frame::bare([1; 8], frame::ABORTED), 12),
            (frame::init([1; 8], ACK, 9, b"ducts"), 12),
            (frame::chunk([1; 8], ACK, 0, 0, 250, &[]), 36),
            (frame::done([1; 8], ACK, 9, &[7; 32]), 12),
            (frame::bare([1; 8], 0), 12),
        ];
        for ((packet, needed), what) in packets.into_iter().zip(FRAMES) {
            let frame = [packet, vec![0; FRAME]].concat();
            coverage.frame(&frame[..8]);
            coverage.frame(&frame[..needed - 2]);
            for (length, (_, name)) in [needed - 1, needed, FRAME].into_iter().zip(Came::EACH) {
                let told = format!("a frame of {what}, {name}");
                assert!(missing_frames(&coverage).contains(&told), "{told}");
                coverage.frame(&frame[..length]);
                assert!(!missing_frames(&coverage).contains(&told), "{told}");
            }
        }
        assert_eq!(missing_frames(&coverage), [""; 0]);
        let line = "  frames of 9 kinds: 9 a byte short, 9 exact, 9 longer\n";
        assert!(coverage.lines().contains(line), "{}", coverage.lines());
        for number in [BAD_FRAME, SHORT_FRAME] {
            let told = format!("answered {number}");
            assert!(coverage.missing().contains(&told));
            coverage.outside(told.clone());
            assert!(!coverage.missing().contains(&told));
        }
    }

    #[test]
    fn inits_of_an_arriving_message_are_told_apart() {
        let mut coverage = Coverage::default();
        let mut tally = Tally::new(&Setup { key: [0; 32], recv_cells: 2, send_cells: 2 });
        let init = packet(frame::init([1; 8], 0, 2_000, b"ducts"));
        let [done, refused] = [0, CLOSED_TOPIC].map(|number| Said { number, ..Said::default() });
        let replied = Said { packets: vec![init.clone()], ..Said::default() };
        coverage.init(&init, &done, &tally);
        assert!(coverage.seen.is_empty(), "the first");
        tally.handled(&init, &replied);
        coverage.init(&packet(frame::init([1; 8], 0, 1_999, b"ducts")), &done, &tally);
        coverage.init(&packet(frame::init([1; 8], ACK, 2_000, b"ducts")), &done, &tally);
        coverage.init(&init, &refused, &tally);
        assert!(coverage.seen.is_empty(), "another before any piece, an acknowledgement, a refused one");
        coverage.init(&init, &done, &tally);
        assert_eq!(coverage.seen, [(EQUAL_INIT, 1)].into());
        tally.handled(&packet(frame::chunk([1; 8], 0, 0, 0, 250, &[])), &replied);
        coverage.init(&init, &refused, &tally);
        assert_eq!(coverage.seen, [(EQUAL_INIT, 1), (REFUSED_INIT, 1)].into());
        let others = [
            Packet { from: [3; 16], ..init.clone() },
            Packet { to: [3; 16], ..init.clone() },
            packet(frame::init([1; 8], 0, 1_999, b"ducts")),
            packet(frame::init([1; 8], 0, 2_000, b"duct")),
            packet(frame::init([1; 8], frame::REPLY, 2_000, b"ducts")),
        ];
        for (other, (_, what)) in others.iter().zip(OTHER_INITS) {
            assert!(coverage.missing().contains(&what.to_string()));
            coverage.init(other, &refused, &tally);
            assert!(!coverage.seen.contains_key(what), "refused: {what}");
            coverage.init(other, &done, &tally);
            assert_eq!(coverage.seen.get(what), Some(&1), "{what}");
            assert!(!coverage.missing().contains(&what.to_string()));
        }
        let seen = coverage.seen.clone();
        coverage.init(&Packet { from: [3; 16], to: [3; 16], ..init }, &done, &tally);
        assert_eq!(coverage.seen, seen, "it differs in two");
    }
}
