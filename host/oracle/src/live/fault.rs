//! Deliberate faults, in what the judge is told to expect or in what the library is made to do: each must be
//! found.

use crate::call::{
    Call, Got, Hours, Packet, Said, Wake, Woke, FRAME, MOST_OF_SOURCE, NO_CELL, SHORT_FRAME, SHORT_PIECE,
    SOURCE_FULL,
};
use crate::frame;
use crate::library::Node;
use crate::live::hours::{says, Says};
use crate::live::left::{acknowledged, Again, Listed, New, Short};
use crate::live::sender::Wanting;
use crate::live::tally::Tally;

const PAST_END: u64 = 9;
const HIGH_INDEX: u64 = 10;

/// A fault.
#[derive(Clone, Copy, Debug, PartialEq, Eq)]
pub enum Fault {
    /// A reply with its last byte changed.
    Reply,
    /// A report with one piece more.
    Report,
    /// The second oldest message taken first.
    Take,
    /// The first two packets of a wake the other way round.
    Wake,
    /// A deadline without its aborted packet.
    Deadline,
    /// Senders that sleep on after an acknowledgement.
    Mark,
    /// A refused packet acknowledged.
    Refused,
    /// A chunk past the end refused for its index.
    Number,
    /// An id left out at every short piece below top, whether it ends its message or not.
    Leave,
    /// No id left out at a short last piece.
    Stay,
    /// An id left out at every init behind a piece, whether it is equal or not.
    LeaveInit,
    /// An id left out at an equal init, also where there is no piece to lose yet.
    LeaveEarly,
    /// No id left out at an equal init.
    StayInit,
    /// The library starts a message again with an equal init.
    Restart,
    /// The library acknowledges any other init behind a piece and does nothing.
    Skip,
    /// The library is always open where its calendar is shut.
    Shut,
    /// The same, but it sends nothing: only its store changes.
    Stamp,
    /// The library never is where its calendar is open for some hours.
    Open,
    /// The library is always open where its calendar is malformed.
    Calendar,
    /// The library sends a ninth piece.
    Nine,
    /// The library stamps pieces that it does not send.
    Unsent,
    /// The library counts the pieces that want sending.
    Wanting,
    /// Of an id that has left, the library sends due pieces before new ones.
    DueFirst,
    /// Of an id that has left, the library sends due pieces of one stamp by falling index.
    Falling,
    /// The library counts a piece where it acknowledges one.
    Counted,
    /// No id left out at a wake with more than eight pieces to send.
    StayFull,
    /// An id left out at every wake with pieces to send.
    LeaveFull,
    /// The library gets a short frame filled up with zeros.
    Fill,
    /// The library misses the last byte that a packet needs.
    Cut,
    /// The library changes its store with a short frame that it refuses.
    Spill,
    /// No id left out at a piece of a source with 30 cells.
    StaySource,
    /// An id left out at a piece of a source with 29 cells too.
    LeaveSource,
    /// The library refuses the thirtieth cell of a source.
    FewCells,
    /// The library counts no cells of whole messages.
    WholeFree,
    /// The library counts the cells of the packet's sender.
    SenderCounted,
    /// The library refuses a piece of a source with 30 cells for want of a cell where none is free.
    CellFirst,
    /// The library drops the message of a piece that it refuses for its source.
    DropSource,
}

/// Each fault by the name that the command line knows.
pub const FAULTS: [(&str, Fault); 37] = [
    ("reply", Fault::Reply),
    ("report", Fault::Report),
    ("take", Fault::Take),
    ("wake", Fault::Wake),
    ("deadline", Fault::Deadline),
    ("mark", Fault::Mark),
    ("refused", Fault::Refused),
    ("number", Fault::Number),
    ("leave", Fault::Leave),
    ("stay", Fault::Stay),
    ("leave-init", Fault::LeaveInit),
    ("leave-early", Fault::LeaveEarly),
    ("stay-init", Fault::StayInit),
    ("restart", Fault::Restart),
    ("skip", Fault::Skip),
    ("shut", Fault::Shut),
    ("stamp", Fault::Stamp),
    ("open", Fault::Open),
    ("calendar", Fault::Calendar),
    ("nine", Fault::Nine),
    ("unsent", Fault::Unsent),
    ("wanting", Fault::Wanting),
    ("due-first", Fault::DueFirst),
    ("falling", Fault::Falling),
    ("counted", Fault::Counted),
    ("stay-full", Fault::StayFull),
    ("leave-full", Fault::LeaveFull),
    ("fill", Fault::Fill),
    ("cut", Fault::Cut),
    ("spill", Fault::Spill),
    ("stay-source", Fault::StaySource),
    ("leave-source", Fault::LeaveSource),
    ("few-cells", Fault::FewCells),
    ("whole-free", Fault::WholeFree),
    ("sender-counted", Fault::SenderCounted),
    ("cell-first", Fault::CellFirst),
    ("drop-source", Fault::DropSource),
];

impl Fault {
    /// Spoils what the original said, where the fault fits the call.
    pub fn spoil(self, call: &Call, said: &mut Said) {
        match (self, call) {
            (Self::Reply, Call::Packet(_)) => {
                if let Some(last) = said.packets.first_mut().and_then(|reply| reply.bytes.last_mut()) {
                    *last ^= 1;
                }
            }
            (Self::Report, Call::Report(_)) => {
                if let Some(report) = said.report.as_mut().filter(|report| report.state == 1) {
                    report.pieces[2] += 1;
                }
            }
            (Self::Wake, Call::Wake(Wake::Send, ..)) if said.packets.len() > 1 => said.packets.swap(0, 1),
            (Self::Deadline, Call::Wake(Wake::Deadline, ..)) => said.packets.clear(),
            (Self::Mark, Call::Packet(_)) if said.woke == Some(Woke::Yes) => said.woke = Some(Woke::No),
            (Self::Refused, Call::Packet(packet)) if said.number == SHORT_PIECE => {
                said.number = 0;
                said.packets = vec![acknowledged(packet)];
            }
            (Self::Number, Call::Packet(_)) if said.number == PAST_END => said.number = HIGH_INDEX,
            _ => {}
        }
    }

    /// Spoils which listed difference treats a packet otherwise than the original.
    pub fn mislead(self, packet: &Packet, tally: &Tally, listed: Option<Listed>) -> Option<Listed> {
        let again = || Again::of(packet, tally);
        match self {
            Self::Leave if Short::of(packet, tally).is_some() => Some(Listed::ShortLastPiece),
            Self::Stay => listed.filter(|why| *why != Listed::ShortLastPiece),
            Self::LeaveInit if again().is_some_and(|init| init.is_late()) => Some(Listed::EqualInit),
            Self::LeaveEarly if again().is_some_and(|init| init.is_equal()) => Some(Listed::EqualInit),
            Self::StayInit => listed.filter(|why| *why != Listed::EqualInit),
            Self::StaySource => listed.filter(|why| *why != Listed::FullSource),
            Self::LeaveSource
                if New::of(packet, tally).is_some_and(|piece| piece.cells + 1 == MOST_OF_SOURCE) =>
            {
                Some(Listed::FullSource)
            }
            _ => listed,
        }
    }

    /// Spoils the hours that the library is told.
    pub fn hours(self, hours: Hours) -> Hours {
        let always = Hours::always();
        match (self, says(&hours)) {
            (Self::Shut | Self::Stamp, Says::Shut) | (Self::Calendar, Says::Malformed) => always,
            (Self::Open, Says::Open) if hours.calendar != always.calendar => {
                let mut calendar = always.calendar;
                calendar[..28].fill(0);
                Hours { calendar, ..always }
            }
            _ => hours,
        }
    }

    /// Makes a call of the library, or what the fault makes of it.
    pub fn call(self, node: &mut Node, call: &Call, tally: &Tally) -> Got {
        match (self, call) {
            (Self::Restart, Call::Packet(packet)) if is_late_init(packet, tally, true) => {
                let bytes = frame::bare(packet.id(), frame::ABORTED);
                node.call(&Call::Packet(Packet { bytes, ..packet.clone() }));
                node.call(call)
            }
            (Self::Skip, Call::Packet(packet)) if is_late_init(packet, tally, false) => {
                node.clone().call(call)
            }
            (Self::Fill, Call::Packet(packet)) if is_short(packet) => node.call(&resized(packet, FRAME)),
            (Self::Spill, Call::Packet(packet)) if is_short(packet) => {
                node.call(&resized(packet, FRAME));
                Got { number: SHORT_FRAME, ..Got::default() }
            }
            (Self::Cut, Call::Packet(packet))
                if frame::needed(&packet.bytes) == packet.bytes.len() as u128 =>
            {
                node.call(&resized(packet, packet.bytes.len() - 1))
            }
            (_, Call::Packet(packet)) if is_new(packet, tally, |piece| self.wrongs(piece, tally)) => {
                self.wrong_share(node, packet)
            }
            (Self::Counted, Call::Packet(_)) => {
                let got = node.call(call);
                Got { pieces: got.packets.len() as u64, ..got }
            }
            _ => node.call(call),
        }
    }

    /// Whether the fault makes the library treat a new piece wrongly for its source's cells.
    fn wrongs(self, piece: &New, tally: &Tally) -> bool {
        let is_full = piece.cells >= MOST_OF_SOURCE;
        match self {
            Self::FewCells => piece.cells + 1 == MOST_OF_SOURCE,
            Self::WholeFree => is_full && piece.cells - piece.of_whole < MOST_OF_SOURCE,
            Self::SenderCounted => !is_full && piece.of_sender >= MOST_OF_SOURCE,
            Self::CellFirst => is_full && !tally.has_free_cell(),
            Self::DropSource => is_full,
            _ => false,
        }
    }

    /// What the library then answers.
    fn wrong_share(self, node: &mut Node, packet: &Packet) -> Got {
        let refused = |number| Got { number, ..Got::default() };
        match self {
            Self::WholeFree => Got { packets: vec![acknowledged(packet)], ..Got::default() },
            Self::CellFirst => refused(NO_CELL),
            Self::DropSource => {
                let bytes = frame::bare(packet.id(), frame::ABORTED);
                node.call(&Call::Packet(Packet { bytes, ..packet.clone() }));
                refused(SOURCE_FULL)
            }
            _ => refused(SOURCE_FULL),
        }
    }

    /// Spoils whether an id leaves with a send wake at which so many pieces want sending.
    pub fn mislead_wake(self, wanting: &Wanting) -> bool {
        match self {
            Self::StayFull => false,
            Self::LeaveFull => wanting.count() > 0,
            _ => wanting.is_too_many(),
        }
    }

    /// Wakes the library's sender of a message, whose id may have left, or does what the fault makes of it.
    pub fn wake(self, wanting: &Wanting, is_left: bool, mut wake: impl FnMut() -> Got) -> Got {
        let mut got = wake();
        let sent = got.packets.len();
        match self {
            // what the first wake has left over goes with the second
            Self::Nine if wanting.is_too_many() => {
                got.packets.extend(wake().packets.into_iter().take(1));
                got.pieces += 1;
            }
            Self::Unsent if wanting.is_too_many() => drop(wake()),
            Self::Wanting => got.pieces = wanting.count() as u64,
            Self::DueFirst if is_left && wanting.new < sent => got.packets.rotate_left(wanting.new),
            Self::Falling if is_left && wanting.count() > 0 && wanting.new == 0 && wanting.one_stamp => {
                got.packets.reverse();
            }
            _ => {}
        }
        got
    }
}

/// Whether a packet brings a new piece of which something holds.
fn is_new(packet: &Packet, tally: &Tally, holds: impl Fn(&New) -> bool) -> bool {
    frame::refusal(&packet.bytes).is_none() && New::of(packet, tally).is_some_and(|piece| holds(&piece))
}

/// Whether fewer bytes came than a packet needs.
fn is_short(packet: &Packet) -> bool {
    frame::refusal(&packet.bytes) == Some(SHORT_FRAME)
}

/// The call with a frame of another length.
fn resized(packet: &Packet, length: usize) -> Call {
    let mut bytes = packet.bytes.clone();
    bytes.resize(length, 0);
    Call::Packet(Packet { bytes, ..packet.clone() })
}

/// Whether a packet is an init behind a piece, and equal to the one that opened its message or not.
fn is_late_init(packet: &Packet, tally: &Tally, is_equal: bool) -> bool {
    let came = frame::refusal(&packet.bytes).is_none();
    came && Again::of(packet, tally).is_some_and(|init| init.is_late() && init.is_equal() == is_equal)
}
