//! What the office does with a datagram. Nothing here waits for the disk; the answers are kept until all is there.

use super::Office;
use crate::admission::{self, Init, Piece, RECORDS};
use crate::datagram::{self, Arrived, Content, Dropped};
use crate::kept;
use crate::line::Asked;
use crate::notice::Notice;
use socketlemon::{Id, Packet, Record, Refusal, Run, PACKET_RUN};
use std::net::SocketAddr;
use std::time::{Duration, Instant};

/// After how long a message counts as abandoned where another one needs its room; where that is of the same source, its tablet has turned to the other one.
const ABANDONED: Duration = Duration::from_secs(10);
const ABANDONED_BY_OWN: Duration = Duration::from_secs(3);

impl Office {
    /// Handles a datagram.
    pub(super) fn datagram(&mut self, datagram: &[u8], peer: SocketAddr) {
        let arrived = match Arrived::read(datagram, self.own) {
            Ok(arrived) => arrived,
            Err(reason) => return self.counts.drop(reason),
        };
        if !self.known.has(arrived.from) {
            return self.stranger(&arrived, peer);
        }
        match (arrived.id(), arrived.content(), arrived.number()) {
            (Some(id), Content::Init, Some(length)) => self.init(&arrived, id, length, peer),
            (Some(id), Content::Piece(_), Some(index)) => self.piece(&arrived, id, index, peer),
            (Some(id), Content::Other, _)
                if arrived.is_aborted() && self.admission.leave(arrived.from, id) => {}
            _ => self.hand_over(&arrived, peer),
        }
    }

    /// Notes who has sent a datagram without a known key. Nothing of it is kept, for it could never become whole.
    fn stranger(&mut self, arrived: &Arrived, peer: SocketAddr) {
        self.counts.drop(Dropped::Stranger);
        self.lines.extend(self.strangers.knock(arrived.from, peer, Instant::now()));
        if let Some(id) = arrived.id().filter(|_| arrived.content() != Content::Other) {
            self.notice(arrived, id, Notice::Stranger, peer);
        }
    }

    /// Decides about an init. That of a message that has arrived opens nothing, and is answered with its receipt; one that finds no room waits.
    fn init(&mut self, arrived: &Arrived, id: Id, length: u64, peer: SocketAddr) {
        if let Some(receipt) = self.kept.receipts.of(arrived.from, id) {
            return self.answers.push((datagram::write(&receipt), peer));
        }
        // what the library would refuse whatever room there is does not wait for room
        if let Err(refusal) = self.calls.on_empty(&self.known, arrived) {
            return self.counts.refuse(refusal);
        }
        let asked = Asked { source: arrived.from, id, cells: admission::cells(length) };
        let now = Instant::now();
        let mut decision = self.admission.init(&self.kept.store, asked, now);
        if decision != Init::Take && self.push_out(&asked, now) {
            decision = self.admission.init(&self.kept.store, asked, now);
        }
        match decision {
            Init::Take => self.hand_over(arrived, peer),
            Init::Wait(before) => {
                let before = u16::try_from(before).unwrap_or(u16::MAX);
                self.notice(arrived, id, Notice::Wait(before), peer);
            }
        }
    }

    /// Decides about a piece. One that goes beyond what its message was promised finds room, or counts as lost.
    fn piece(&mut self, arrived: &Arrived, id: Id, index: u64, peer: SocketAddr) {
        let record = match self.record(id) {
            Some(record) => record,
            None => return self.hand_over(arrived, peer),
        };
        let now = Instant::now();
        self.kept.silence.heard(id, now);
        let asked = Asked { source: record.source, id, cells: usize::from(record.slots) };
        // each turn drops at least one of the others
        for _ in 0..RECORDS {
            match self.admission.piece(&self.kept.store, &record, index) {
                Piece::Take => return self.hand_over(arrived, peer),
                Piece::Wait if self.push_out(&asked, now) => {}
                Piece::Wait => break,
                Piece::Drop(other) => self.give_up(other, "an older one needs its cells"),
                Piece::Never => return self.give_up(id, "it has more pieces than a tablet may have cells"),
            }
        }
        self.counts.refuse(Refusal::NoCell);
    }

    /// Drops a message for a reason, which is said.
    fn give_up(&mut self, id: Id, why: &str) {
        if let Some(record) = self.record(id).filter(|_| self.abort(id)) {
            self.lines.push(format!("message {id} from {} was dropped: {why}", record.source));
        }
    }

    /// Drops the messages that have been abandoned, where one that asks for room finds none. Says whether there were any.
    fn push_out(&mut self, asked: &Asked, now: Instant) -> bool {
        let is_abandoned = |record: &Record| {
            let silent = self.kept.silence.of(record.id, now);
            record.id != asked.id
                && (silent >= ABANDONED || (record.source == asked.source && silent >= ABANDONED_BY_OWN))
        };
        let all: Vec<Id> = self
            .kept
            .arriving()
            .iter()
            .filter(|record| is_abandoned(record))
            .map(|record| record.id)
            .collect();
        all.iter().for_each(|id| self.give_up(*id, "its tablet is silent, and another one needs its cells"));
        !all.is_empty()
    }

    /// Hands a packet to the library, and keeps its answer.
    fn hand_over(&mut self, arrived: &Arrived, peer: SocketAddr) {
        let mut run = [0; PACKET_RUN];
        match self.calls.packet(&mut self.kept.store, &self.known, arrived, &mut run) {
            Ok(length) => {
                self.peers.heard(arrived.from, peer);
                if let Some(id) = arrived.id() {
                    self.kept.silence.heard(id, Instant::now());
                }
                self.kept.receipts.keep(arrived, kept::unix_ms());
                let packets = Run::from_bytes(&run[..length]).packets();
                self.answers.extend(packets.map(|packet| (datagram::write(&packet), peer)));
            }
            Err(refusal) => self.refused(arrived, refusal, peer),
        }
    }

    /// Counts a packet that was refused. One of a message that has arrived gets its receipt again; the sender of one that the office does not have is told.
    fn refused(&mut self, arrived: &Arrived, refusal: Refusal, peer: SocketAddr) {
        let content = arrived.content();
        let is_unknown = refusal == Refusal::UnknownId && content != Content::Other;
        if let Some(id) = arrived.id().filter(|_| is_unknown) {
            let receipt = match content {
                Content::Done => self.kept.receipts.find(arrived),
                _ => self.kept.receipts.of(arrived.from, id),
            };
            match receipt {
                Some(receipt) => return self.answers.push((datagram::write(&receipt), peer)),
                None if self.kept.receipts.of(arrived.from, id).is_some() => {}
                None => self.notice(arrived, id, Notice::Gone, peer),
            }
        }
        self.counts.refuse(refusal);
    }

    /// The arriving record of an id.
    fn record(&self, id: Id) -> Option<Record> {
        self.kept.arriving().into_iter().find(|record| record.id == id)
    }

    /// Drops an arriving message, by the packet with which its sender would.
    pub(super) fn abort(&mut self, id: Id) -> bool {
        let arrived = Arrived::aborted(id, self.own);
        self.calls.packet(&mut self.kept.store, &self.known, &arrived, &mut [0; PACKET_RUN]).is_ok()
    }

    /// Tells the sender of a packet something about its message.
    fn notice(&mut self, arrived: &Arrived, id: Id, notice: Notice, peer: SocketAddr) {
        let packet = Packet { from: self.own, to: arrived.from, bytes: &notice.write(id) };
        self.answers.push((datagram::write(&packet), peer));
    }
}
