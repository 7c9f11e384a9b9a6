//! Runs the library and the original side by side on a sequence of steps and compares each answer.

use std::collections::BTreeSet;

use crate::call::{Call, Got, Id, Packet, Said, Setup, Wake, Woke, ACK};
use crate::frame::{self, Kind};
use crate::judge::{judge, judge_count};
use crate::library::Node;
use crate::list::{Entry, List};
use crate::live::clock;
use crate::live::coverage::Coverage;
use crate::live::fault::Fault;
use crate::live::hours::Source;
use crate::live::left::{Left, Listed};
use crate::live::rng::Rng;
use crate::live::stack::{self, Original};
use crate::live::tally::{Due, Tally};
use crate::live::words;

mod eight;
mod in_vain;
mod share;
mod short;
mod unjudged;

pub use eight::{AGED, EIGHT, FULL, MIXED, STAYS};
pub use in_vain::{BY_HOURS, KEPT_BACK, MALFORMED, OUTSIDE};
pub use share::{AT_LIMIT, BESIDE_FULL, LAST_CELL, NONE_FREE, OTHER_SENDER, WHOLE_COUNTED};

/// What is done to both sides.
pub enum Step {
    /// A call other than a wake, at the time that the clock shows.
    Call(Call),
    /// A packet while the clock has gone back by so many milliseconds.
    Back(u64, Packet),
    /// The clock moves on to this time, and timers go off.
    Clock(u64),
}

/// A difference: what it is, the calls up to it, and a line about each id that had left.
pub struct Difference {
    pub why: String,
    pub calls: Box<List>,
    pub left: Vec<String>,
}

/// Both sides of a sequence.
pub struct Run<'a> {
    setup: Setup,
    node: Node,
    original: Original,
    pub tally: Tally,
    pub clock: u64,
    entries: Vec<Entry>,
    /// The ids that were pushed or announced.
    met: BTreeSet<Id>,
    /// The ids that have left the comparison.
    left: Left,
    /// Where the calls end that are all compared, and why: there the first id left.
    end: Option<(usize, Listed)>,
    /// What the library put out in this step for ids that have left.
    unjudged: Vec<Packet>,
    /// The hours of wakes.
    hours: Source,
    coverage: &'a mut Coverage,
    fault: Option<Fault>,
}

impl<'a> Run<'a> {
    /// Both sides fresh, at this time. Hours are always open, until they are drawn.
    pub fn new(
        setup: Setup,
        clock: u64,
        coverage: &'a mut Coverage,
        fault: Option<Fault>,
    ) -> Result<Self, Difference> {
        clock::set(clock);
        let theirs = stack::address(&setup.key);
        let failed = |why: String| Difference {
            why,
            calls: Box::new(List { setup: setup.clone(), address: theirs, entries: Vec::new(), end: None }),
            left: Vec::new(),
        };
        let node = Node::new(&setup).map_err(|told| failed(format!("setup is {told}")))?;
        if node.address() != theirs {
            return Err(failed(format!(
                "the library's address of the key is {:?}, the original's {theirs:?}",
                node.address()
            )));
        }
        coverage.saw("address");
        let (original, tally) = (Original::new(&setup), Tally::new(&setup));
        Ok(Self {
            setup,
            node,
            original,
            tally,
            clock,
            entries: Vec::new(),
            met: BTreeSet::new(),
            left: Left::default(),
            end: None,
            unjudged: Vec::new(),
            hours: Source::Always,
            coverage,
            fault,
        })
    }

    /// Draws the hours of wakes from here on.
    pub fn with_hours(self, rng: Rng) -> Self {
        Self { hours: Source::Drawn(rng), ..self }
    }

    /// The calls so far, with what the original put out; up to the one at which the first id left.
    pub fn into_list(mut self) -> List {
        let end = self.end.map(|(calls, why)| {
            self.entries.truncate(calls);
            format!("it ends here: the next call is treated otherwise than by the original ({})", why.name())
        });
        List { address: self.node.address(), setup: self.setup, entries: self.entries, end }
    }

    /// Does a step on both sides and gives the packets that go on the link.
    /// They are the original's; for ids that have left, the library's.
    pub fn step(&mut self, step: Step) -> Result<Vec<Packet>, Difference> {
        let mut sent = match step {
            Step::Call(call) => self.call(call),
            Step::Back(by, packet) => self.back(by, packet),
            Step::Clock(to) => self.clock(to),
        }?;
        let leaving: Vec<Id> = self.tally.leaving.keys().copied().collect();
        for id in leaving {
            self.report(id)?;
        }
        sent.retain(|packet| !self.left.has(&packet.id()));
        sent.append(&mut self.unjudged);
        Ok(sent)
    }

    fn call(&mut self, call: Call) -> Result<Vec<Packet>, Difference> {
        if let Some(number) = self.refused_for_length(&call) {
            return self.hand_in_vain(call, number);
        }
        if wraps(&call) {
            self.coverage.outside("offset and size past 2^64".to_string());
            return Ok(Vec::new());
        }
        if call.id().is_some_and(|id| self.left.has(&id)) {
            return self.call_of_left(call);
        }
        if call == Call::Take {
            self.throw_away_left()?;
        }
        let listed = self.listed(&call);
        let before = listed.map(|_| self.node.clone());
        let got = self.ask_library(&call);
        if got.is_added_refusal() && !listed.is_some_and(Listed::is_refusal) {
            return self.added_refusal(call, &got);
        }
        let mut said = self.ask_original(&call);
        let sent = said.packets.clone();
        let woken = match &call {
            Call::Packet(packet) => {
                let woken = self.split_off_woken(packet, &mut said);
                said.number = self.tally.number(packet, &said.packets, words::last_refusal());
                woken
            }
            _ => Vec::new(),
        };
        if let (Some(why), Some(before), Call::Packet(packet)) = (listed, before, &call) {
            if !why.is_refused(&said) {
                said.packets = sent;
                return self.leave(why, packet.clone(), &before, &got, &said).map(|()| Vec::new());
            }
        }
        if let Some(fault) = self.fault {
            fault.spoil(&call, &mut said);
        }
        self.keep(call.clone(), &got, said.clone())?;
        self.note(&call, &said);
        if got.wake == 1 {
            self.wake_all(&woken)?;
        }
        Ok(sent)
    }

    /// A refusal that the original does not have must have a reason, and is not compared.
    fn added_refusal(&mut self, call: Call, got: &Got) -> Result<Vec<Packet>, Difference> {
        let reason = match self.tally.has_reason(&call, got.number) {
            true => judge_count(got),
            false => Err(format!("the library answers {} without reason", got.number)),
        };
        if let Err(why) = reason {
            return Err(self.differ(call, Said::default(), why));
        }
        self.coverage.outside(format!("answered {}", got.number));
        Ok(Vec::new())
    }

    /// Makes a call of the library, or what a fault makes of it.
    fn ask_library(&mut self, call: &Call) -> Got {
        match self.fault {
            Some(fault) => fault.call(&mut self.node, call, &self.tally),
            None => self.node.call(call),
        }
    }

    /// Makes a call of the original, or what a fault makes of it.
    fn ask_original(&self, call: &Call) -> Said {
        let compared = || self.tally.whole.keys().filter(|id| !self.left.has(id)).count();
        match call {
            Call::Take if self.fault == Some(Fault::Take) && compared() > 1 => {
                self.take_from_original();
                self.take_from_original()
            }
            Call::Take => self.take_from_original(),
            _ => self.original.call(call),
        }
    }

    /// Notes what a call that agrees has changed.
    fn note(&mut self, call: &Call, said: &Said) {
        match call {
            Call::Push(push) if said.number == 0 => {
                self.meet(push.id);
                self.tally.pushed(push, self.node.address(), self.clock);
            }
            Call::Packet(packet) => {
                if said.number == 0 {
                    self.tally.accepted(packet);
                }
                if self.left.has(&packet.id()) {
                    self.tally.handled_here(packet, said);
                } else {
                    self.coverage.init(packet, said, &self.tally);
                    if said.number == 0 {
                        self.saw_kept(packet);
                    }
                    self.tally.handled(packet, said);
                }
                if self.tally.arriving.contains_key(&packet.id()) {
                    self.meet(packet.id());
                }
            }
            Call::Take => said.taken.iter().for_each(|taken| self.tally.taken(taken)),
            _ => {}
        }
    }

    /// An id that was pushed or announced is counted once.
    fn meet(&mut self, id: Id) {
        if self.met.insert(id) {
            self.coverage.id();
        }
    }

    /// Leaves the reply to a packet in what the original said, and gives what its senders sent after it; notes whether they woke, if that shows.
    fn split_off_woken(&self, packet: &Packet, said: &mut Said) -> Vec<Packet> {
        let is_reply = |p: &Packet| p.flags() & ACK != 0 && p.id() == packet.id();
        let (replies, woken): (Vec<Packet>, Vec<Packet>) = said.packets.drain(..).partition(is_reply);
        said.packets = replies;
        let would_send = || {
            let mut node = self.node.clone();
            self.tally
                .leaving
                .keys()
                .filter(|id| !self.left.has(id))
                .any(|id| !node.call(&Call::Wake(Wake::Send, *id, self.clock)).packets.is_empty())
        };
        said.woke = match (woken.is_empty(), self.tally.leaving.is_empty()) {
            (false, _) => Some(Woke::Yes),
            (true, false) if would_send() => Some(Woke::No),
            (true, _) => Some(Woke::Unseen),
        };
        woken
    }

    /// The messages that leave; what the original's senders sent must be of those.
    /// For an id that has left the comparison, they may send anything.
    fn senders(&mut self, sent: &[Packet]) -> Result<Vec<Id>, Difference> {
        let ids: Vec<Id> = self.tally.leaving.keys().copied().collect();
        let astray = |packet: &&Packet| !ids.contains(&packet.id()) && !self.left.has(&packet.id());
        match sent.iter().find(astray) {
            None => Ok(ids),
            Some(packet) => {
                let said = Said { packets: vec![packet.clone()], ..Said::default() };
                let why = "the original sends for a message that does not leave".to_string();
                Err(self.differ(Call::Wake(Wake::Send, packet.id(), self.clock), said, why))
            }
        }
    }

    /// Wakes every sender of the library, as the mark asks; the original's have sent `woken`.
    fn wake_all(&mut self, woken: &[Packet]) -> Result<(), Difference> {
        for id in self.senders(woken)? {
            if self.left.has(&id) {
                self.wake_unjudged(Wake::Send, id)?;
            } else {
                self.wake(Wake::Send, id, of(woken, &id))?;
            }
        }
        Ok(())
    }

    fn back(&mut self, by: u64, packet: Packet) -> Result<Vec<Packet>, Difference> {
        let now = self.clock;
        self.clock = now.saturating_sub(by);
        clock::set(self.clock);
        self.coverage.saw("clock gone back");
        let sent = self.call(Call::Packet(packet));
        self.clock = now;
        clock::set(now);
        sent
    }

    /// Moves the clock on; the timers of each sender go off as the original's task has set them.
    fn clock(&mut self, to: u64) -> Result<Vec<Packet>, Difference> {
        self.clock = to;
        clock::set(to);
        let sent = self.original.run();
        for id in self.senders(&sent)? {
            let due = self.tally.due(&id, to);
            if self.left.has(&id) {
                self.timers_of_left(id, due)?;
            } else {
                self.timers(id, due, of(&sent, &id))?;
            }
        }
        Ok(sent)
    }

    /// Wakes the library's sender of a message by the timers that are due; the original's has sent these.
    fn timers(&mut self, id: Id, due: Due, mut pieces: Vec<Packet>) -> Result<(), Difference> {
        let aborts = pieces.last().is_some_and(|p| frame::kind(p.flags()) == Kind::Aborted);
        let aborted = pieces.split_off(pieces.len() - usize::from(aborts));
        // Where both timers are due, the original picks either first.
        // A sender that has timed out sends nothing more.
        let send_first = due.tick && (due.deadlines == 0 || !pieces.is_empty());
        if due.tick && due.deadlines > 0 {
            self.coverage.saw(if send_first {
                "tick before deadline"
            } else {
                "tick after deadline, or with nothing to send"
            });
        }
        if send_first {
            self.wake(Wake::Send, id, pieces)?;
        } else if !pieces.is_empty() {
            let why = "the original woke while its timers were not due".to_string();
            let said = Said { packets: pieces, ..Said::default() };
            return Err(self.differ(Call::Wake(Wake::Send, id, self.clock), said, why));
        }
        if due.deadlines == 0 && !aborted.is_empty() {
            let why = "the original gave up while its deadline was not due".to_string();
            let said = Said { packets: aborted, ..Said::default() };
            return Err(self.differ(Call::Wake(Wake::Deadline, id, self.clock), said, why));
        }
        let mut aborted = Some(aborted);
        for _ in 0..due.deadlines {
            self.wake(Wake::Deadline, id, aborted.take().unwrap_or_default())?;
        }
        if due.deadlines > 0 && !self.tally.leaving.contains_key(&id) {
            self.report(id)?;
        }
        Ok(())
    }

    fn wake(&mut self, kind: Wake, id: Id, packets: Vec<Packet>) -> Result<(), Difference> {
        let (hours, was_shut) = self.draw_hours(kind, id)?;
        let call = Call::Wake(kind, id, self.clock);
        let leaves = kind == Wake::Send && self.leaves_at_wake(&id);
        let got = self.ask_to_wake(kind, &id, &hours);
        if was_shut && !got.packets.is_empty() {
            self.coverage.saw(KEPT_BACK);
        }
        if leaves {
            return self.leave_at_wake(id, &got, packets);
        }
        let mut said = Said { packets, ..Said::default() };
        if let Some(fault) = self.fault {
            fault.spoil(&call, &mut said);
        }
        self.keep(call.clone(), &got, said)?;
        self.judge_wake(&call, &got)
    }

    /// Compares the reports on a message, unless its id has left, without a place in the list if they agree.
    fn report(&mut self, id: Id) -> Result<(), Difference> {
        if self.left.has(&id) {
            return Ok(());
        }
        let call = Call::Report(id);
        let (got, mut said) = (self.node.call(&call), self.original.call(&call));
        if let Some(fault) = self.fault {
            fault.spoil(&call, &mut said);
        }
        self.judge(call, &got, said).map(|_| ())
    }

    /// Judges a call and keeps it in the list.
    fn keep(&mut self, call: Call, got: &Got, said: Said) -> Result<(), Difference> {
        let entry = self.judge(call, got, said)?;
        self.entries.push(entry);
        Ok(())
    }

    /// Judges a call.
    fn judge(&mut self, call: Call, got: &Got, said: Said) -> Result<Entry, Difference> {
        match judge(got, &said) {
            Ok(()) => {
                self.coverage.add(&call, &said);
                Ok(Entry { call, said })
            }
            Err(why) => Err(self.differ(call, said, why)),
        }
    }

    fn differ(&mut self, call: Call, said: Said, why: String) -> Difference {
        let mut entries = std::mem::take(&mut self.entries);
        entries.push(Entry { call, said });
        let (address, setup) = (self.node.address(), self.setup.clone());
        let calls = Box::new(List { address, setup, entries, end: None });
        Difference { why, calls, left: self.left.lines() }
    }
}

/// The packets of one message.
fn of(packets: &[Packet], id: &Id) -> Vec<Packet> {
    packets.iter().filter(|packet| packet.id() == *id).cloned().collect()
}

/// Whether a chunk's offset and size add up past 2^64, where the original's arithmetic wraps.
fn wraps(call: &Call) -> bool {
    match call {
        Call::Packet(p) if p.flags() & ACK == 0 && frame::kind(p.flags()) == Kind::Chunk => {
            frame::field(&p.bytes, 1)
                .checked_add(frame::field(&p.bytes, 2).min(frame::LARGEST_PIECE))
                .is_none()
        }
        _ => false,
    }
}
