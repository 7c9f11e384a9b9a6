//! The calls, with their arguments, and what comes back: from the library and from the original in the same form.

use std::collections::BTreeSet;

use crate::frame::{self, Kind};

/// A message's id.
pub type Id = [u8; 8];

/// An IPv6 address.
pub type Address = [u8; 16];

/// The most bytes of a frame.
pub const FRAME: usize = 1400;

/// The most cells of a store.
pub const MOST_CELLS: usize = 45;

/// The most cells that the messages of one source hold, of those that a node receives.
pub const MOST_OF_SOURCE: usize = 30;

/// The most pieces that a wake of the library sends.
pub const WAKE_PIECES: usize = 8;

/// The flag that marks an acknowledgement, in a packet's byte 8.
pub const ACK: u8 = 0x01;

/// A packet on its way.
#[derive(Clone, Debug, PartialEq, Eq)]
pub struct Packet {
    pub from: Address,
    pub to: Address,
    pub bytes: Vec<u8>,
}

impl Packet {
    /// The id in its header.
    pub fn id(&self) -> Id {
        self.bytes[..8].try_into().expect("a packet has a header")
    }

    /// The flags in its header.
    pub fn flags(&self) -> u8 {
        self.bytes[8]
    }

    /// Whether it brings a piece of a message.
    pub fn is_piece(&self) -> bool {
        self.flags() & ACK == 0 && frame::kind(self.flags()) == Kind::Chunk
    }
}

/// A message to be sent.
#[derive(Clone, Debug, PartialEq, Eq)]
pub struct Push {
    pub id: Id,
    pub reply: bool,
    pub to: Address,
    pub topic: Vec<u8>,
    pub data: Vec<u8>,
    pub created: u64,
    pub try_ms: u64,
}

/// How a node is set up: its key, and the cells of its two stores.
#[derive(Clone, Debug, PartialEq, Eq)]
pub struct Setup {
    pub key: [u8; 32],
    pub recv_cells: usize,
    pub send_cells: usize,
}

/// The two kinds of wake.
#[derive(Clone, Copy, Debug, PartialEq, Eq)]
pub enum Wake {
    Send = 1,
    Deadline = 2,
}

/// The hours of a wake: a calendar's bytes, and the time that it is asked about, in milliseconds since 1970.
#[derive(Clone, Debug, PartialEq, Eq)]
pub struct Hours {
    pub calendar: Vec<u8>,
    pub unix_ms: u64,
}

impl Hours {
    /// A calendar that is always open: from minute 0 to 1,440 on each weekday, by UTC, with no closed date.
    pub fn always() -> Self {
        let mut calendar = [0, 0, 5, 160].repeat(7);
        calendar.extend([2, 208, 0]);
        Self { calendar, unix_ms: 0 }
    }
}

/// One call on a node.
#[derive(Clone, Debug, PartialEq, Eq)]
pub enum Call {
    /// The rule book that packets are handled with from here on.
    Rules(Vec<u8>),
    /// The addresses whose key is known from here on.
    Known(BTreeSet<Address>),
    Push(Push),
    /// A frame that arrived, as many bytes as came. The original gets it filled up with zeros to 1,400.
    Packet(Packet),
    /// A wake by the clock, within hours where it is a send wake.
    Wake(Wake, Id, u64),
    Report(Id),
    Take,
}

impl Call {
    /// The id that the call is about, if it is about one.
    pub fn id(&self) -> Option<Id> {
        match self {
            Self::Push(push) => Some(push.id),
            Self::Packet(packet) => Some(packet.id()),
            Self::Wake(_, id, _) | Self::Report(id) => Some(*id),
            Self::Rules(_) | Self::Known(_) | Self::Take => None,
        }
    }
}

/// How far a message is.
#[derive(Clone, Debug, PartialEq, Eq)]
pub struct Report {
    pub to: Address,
    pub state: u8,
    /// How many pieces are Started, Sent and Acked.
    pub pieces: [u64; 3],
    pub created_s: u64,
    pub end_s: u64,
    pub length: u64,
}

/// A message that was taken.
#[derive(Clone, Debug, PartialEq, Eq)]
pub struct Taken {
    pub id: Id,
    pub reply: bool,
    pub from: Address,
    pub to: Address,
    pub topic: Vec<u8>,
    pub data: Vec<u8>,
}

/// Whether all senders woke after a packet. It shows only where a sender then has something to send.
#[derive(Clone, Copy, Debug, PartialEq, Eq)]
pub enum Woke {
    Yes,
    No,
    Unseen,
}

pub const BAD_FRAME: u64 = 1;
pub const CLOSED_TOPIC: u64 = 4;
pub const UNKNOWN_ID: u64 = 8;
pub const SHORT_PIECE: u64 = 11;
pub const NO_CELL: u64 = 12;
pub const GAP: u64 = 14;
pub const SUM: u64 = 16;
pub const NO_WORK: u64 = 20;
pub const TOPIC_TOO_LARGE: u64 = 21;
pub const NONE_WHOLE: u64 = 23;
pub const BAD_CALENDAR: u64 = 26;
pub const SHORT_FRAME: u64 = 27;
pub const SOURCE_FULL: u64 = 28;
pub const BAD_LENGTHS: u64 = 29;
pub const NO_CUTS: u64 = 30;
pub const NO_PLAN: u64 = 31;

/// What the original put out after a call.
#[derive(Clone, Debug, PartialEq, Eq, Default)]
pub struct Said {
    /// The refusal's number for what the original said or did not find; 0 if it did the call.
    pub number: u64,
    pub packets: Vec<Packet>,
    pub woke: Option<Woke>,
    pub report: Option<Report>,
    pub taken: Option<Taken>,
}

/// What the library answered to a call.
#[derive(Clone, Debug, PartialEq, Eq, Default)]
pub struct Got {
    pub number: u64,
    pub wake: u64,
    /// How many pieces it says that it sends.
    pub pieces: u64,
    pub packets: Vec<Packet>,
    pub report: Option<Report>,
    pub taken: Option<Taken>,
}

impl Got {
    /// The same as what is expected of the same call; only a packet is asked about its wake mark.
    pub fn expected(&self, call: &Call) -> Said {
        let woke = if self.wake == 1 { Woke::Yes } else { Woke::No };
        Said {
            number: self.number,
            packets: self.packets.clone(),
            woke: matches!(call, Call::Packet(_)).then_some(woke),
            report: self.report.clone(),
            taken: self.taken.clone(),
        }
    }

    /// Whether the number is one that the original does not have: such a call is outside the comparison.
    pub fn is_added_refusal(&self) -> bool {
        matches!(self.number, 1..=3 | 6 | 7 | NO_CELL | 22..=NO_PLAN)
    }
}
