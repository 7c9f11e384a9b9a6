//! Message transfer for house surveys over links that lose, repeat and reorder packets.
//!
//! This is the safe Rust API over the proved library. The library owns bytes: two [`Store`]s, one for what arrives and one for what leaves, and the
//! packets that a call hands back as a [`Run`]. The host owns sockets and clocks. A call gives a result or a [`Refusal`]; a refusal changes nothing.
//! docs/PROTOCOL.md says what each call does.
//! Surveys that are kept get sums that only key holders can make: see [`SumKey`].
//! A sender with a given number of radio slots gets the sizes of its pieces from [`plan`].
//!
//! # A message from a tablet to the office
//!
//! ```
//! use socketlemon::{Address, Arrival, Calendar, Id, Packet, Push, Refusal, Role, Rules, State, Store, Wake, LONGEST_RUN};
//!
//! // each side has two stores and an address, which comes from its key
//! struct Side { receive: Store, send: Store, rules: Rules }
//!
//! impl Side {
//!     fn new(rules: Rules) -> Result<Side, Refusal> {
//!         Ok(Side { receive: Store::new(Role::Receive, 25)?, send: Store::new(Role::Send, 25)?, rules })
//!     }
//!
//!     // hands over a packet and gives back the bytes of the run that answers it
//!     fn packet(&mut self, packet: Packet<'_>) -> Result<Vec<u8>, Refusal> {
//!         let Packet { from, to, bytes } = packet;
//!         let arrival = Arrival { frame: bytes, from, to, rules: &self.rules, known: true };
//!         let mut run = [0; LONGEST_RUN];
//!         let answer = self.receive.packet(&mut self.send, &arrival, &mut run)?;
//!         Ok(answer.run.as_bytes().to_vec())
//!     }
//! }
//!
//! let mut tablet = Side::new(Rules::reject_unlisted())?;
//! let mut office = Side::new(Rules::reject_unlisted().topic(b"survey", &["400::/7".parse()?])?)?;
//! let push = Push {
//!     id: Id(*b"house 12"),
//!     reply: false,
//!     from: Address::of_key(&[1; 32])?,
//!     to: Address::of_key(&[2; 32])?,
//!     topic: b"survey",
//!     data: b"kitchen: 150 m3/h",
//!     created_ms: 0,
//!     try_ms: 300_000,
//! };
//!
//! // messages may leave at any time here; see `Calendar` for hours
//! let calendar = Calendar::always();
//! let unix_ms = 1_794_900_000_000;
//!
//! // the init, then a wake for the piece and one for the done; each is answered at once here
//! let mut run = [0; LONGEST_RUN];
//! let mut out = tablet.send.push(&push, &mut run)?.as_bytes().to_vec();
//! for clock_ms in [100, 200, 300] {
//!     for packet in socketlemon::Run::from_bytes(&out) {
//!         for reply in socketlemon::Run::from_bytes(&office.packet(packet)?) {
//!             tablet.packet(reply)?;
//!         }
//!     }
//!     let wake = Wake::Send { clock_ms, calendar: &calendar, unix_ms: unix_ms + clock_ms };
//!     out = tablet.send.wake(wake, push.id, &mut run)?.as_bytes().to_vec();
//! }
//! assert_eq!(tablet.send.report(push.id)?.state, State::Received);
//!
//! // the office takes the message, and its read packet goes back
//! let (taken, read) = office.receive.take(&mut run)?;
//! assert_eq!(taken.data, push.data);
//! for packet in read {
//!     tablet.packet(packet)?;
//! }
//! assert_eq!(tablet.send.report(push.id)?.state, State::Read);
//! # Ok::<(), Box<dyn std::error::Error>>(())
//! ```

#![warn(missing_docs)]
#![deny(unsafe_code)]

mod address;
mod calendar;
mod date;
#[allow(unsafe_code)]
mod ffi;
mod plan;
mod record;
mod refusal;
mod report;
mod rules;
mod run;
mod store;
mod sums;

pub use address::{Address, Id};
pub use calendar::{Calendar, CalendarError, LocalTime, Offset, Window};
pub use date::{Date, Weekday};
pub use plan::plan;
pub use record::{Kind, Record, Taken};
pub use refusal::Refusal;
pub use report::{Report, State};
pub use rules::{Rules, RulesError, Subnet};
pub use run::{Packet, Packets, Run};
pub use store::{Answer, Arrival, Push, Role, Store, Wake};
pub use sums::{derive_key, keyed_hash, keyed_hash_32, same_sum, SumKey};

/// The most bytes of a frame: no packet is longer.
pub const FRAME: usize = 1_400;

/// The most bytes of a message.
pub const MOST_BYTES: usize = 32_500;

/// The bytes by which a pushed message is cut.
pub const PIECE: usize = 1_300;

/// The most bytes of a piece: what a frame has room for behind its header.
pub const LARGEST_PIECE: usize = FRAME - 36;

/// The run buffer that is enough for [`Store::packet`].
pub const PACKET_RUN: usize = 86;

/// The run buffer that is enough for [`Store::push`].
pub const PUSH_RUN: usize = 310;

/// The most pieces that a [`Store::wake`] sends.
pub const WAKE_PIECES: usize = 8;

/// The run buffer that is enough for [`Store::wake`]: so many pieces, each with its addresses and header.
pub const WAKE_RUN: usize = WAKE_PIECES * (2 + 32 + 36 + PIECE);

/// The run buffer that is enough for [`Store::take`].
pub const TAKE_RUN: usize = 46;

/// The run buffer that is enough for every call: a wake's is the longest.
pub const LONGEST_RUN: usize = WAKE_RUN;

/// The bytes of a [`SumKey`], and of the sums that [`keyed_hash_32`] makes.
pub const SUM_KEY: usize = 32;

/// The most bytes of an output of [`keyed_hash`] and of [`derive_key`].
pub const LONGEST_SUM: usize = 65_536;
