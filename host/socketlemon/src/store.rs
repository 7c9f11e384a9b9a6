//! Stores and the calls on them.

use crate::record::RECORD;
use crate::report::REPORT;
use crate::{ffi, Address, Calendar, Id, Record, Refusal, Report, Rules, Run, Taken};

const HEAD: usize = 16;
const RECORDS: usize = 8;
const CELL: usize = 1_380;
const CELLS_PLACE: usize = 5;
const ROLE_PLACE: usize = 6;

/// The kinds of wake.
const SEND: u64 = 1;
const DEADLINE: u64 = 2;

/// What a store is for.
#[derive(Clone, Copy, Debug, PartialEq, Eq, Hash)]
pub enum Role {
    /// 1: messages that arrive.
    Receive,
    /// 2: messages that leave.
    Send,
}

impl Role {
    fn number(self) -> u64 {
        match self {
            Role::Receive => 1,
            Role::Send => 2,
        }
    }
}

/// A store: up to 8 messages and their pieces, in bytes that can be kept in a file.
///
/// A `Store` is sound for its role: it is made so, and every call keeps it so. [`Refusal::UnsoundStore`] is the answer where a store stands in the place of
/// the other role.
#[derive(Clone, Debug, PartialEq, Eq)]
pub struct Store {
    bytes: Vec<u8>,
}

impl Store {
    /// The most cells of a store; each holds a piece. 25 are enough for the longest message.
    pub const MOST_CELLS: usize = 45;

    /// The most cells of a receive store that the messages of one source hold; a piece that needs one more is [`Refusal::SourceFull`].
    pub const MOST_OF_SOURCE: usize = 30;

    /// A fresh store with 1 to 45 cells; any other number is [`Refusal::UnsoundStore`].
    pub fn new(role: Role, cells: usize) -> Result<Store, Refusal> {
        // one cell too many is refused by the library like any higher number, and is always small enough to lend
        let lent = cells.min(Self::MOST_CELLS + 1);
        let mut store = Store { bytes: vec![0; HEAD + RECORDS * RECORD + CELL * lent] };
        store.setup(role).map(|()| store)
    }

    /// The store of bytes that were kept; [`Refusal::UnsoundStore`] if they are not a sound store of this role.
    ///
    /// ```
    /// use socketlemon::{Refusal, Role, Store};
    /// let kept = Store::new(Role::Receive, 25)?.into_bytes();
    /// assert!(Store::from_bytes(Role::Receive, kept.clone()).is_ok());
    /// assert_eq!(Store::from_bytes(Role::Send, kept), Err(Refusal::UnsoundStore));
    /// # Ok::<(), Refusal>(())
    /// ```
    pub fn from_bytes(role: Role, bytes: Vec<u8>) -> Result<Store, Refusal> {
        let mut store = Store { bytes };
        // a call with empty buffers does nothing but say whether the store is sound: then it is refused for the buffer, or because none is whole
        let answer = match role {
            Role::Receive => ffi::take(&mut store.bytes, &mut [], &mut []),
            Role::Send => ffi::report(&store.bytes, &[0; 8], &mut []),
        };
        match Refusal::from_number(answer.number) {
            Some(Refusal::ShortOutput | Refusal::NoneWhole) => Ok(store),
            _ => Err(Refusal::UnsoundStore),
        }
    }

    /// The store's bytes.
    pub fn as_bytes(&self) -> &[u8] {
        &self.bytes
    }

    /// The store's bytes, given away.
    pub fn into_bytes(self) -> Vec<u8> {
        self.bytes
    }

    /// How many cells it has.
    pub fn cells(&self) -> usize {
        usize::from(self.bytes[CELLS_PLACE])
    }

    /// Its role.
    pub fn role(&self) -> Role {
        match self.bytes[ROLE_PLACE] {
            1 => Role::Receive,
            _ => Role::Send,
        }
    }

    /// The records of the messages that it holds, by their place in the store.
    pub fn records(&self) -> impl Iterator<Item = Record> + '_ {
        self.bytes[HEAD..HEAD + RECORDS * RECORD].chunks_exact(RECORD).filter_map(Record::read)
    }

    /// Makes the store fresh for a role: what it held is gone.
    pub fn setup(&mut self, role: Role) -> Result<(), Refusal> {
        done(ffi::setup(&mut self.bytes, role.number()))
    }

    /// Handles one packet that arrived; `self` is the receive store, `send` the send store. The run buffer has at least [`PACKET_RUN`](crate::PACKET_RUN) bytes.
    ///
    /// An init of an arriving message that is equal to the one that opened it in source, destination, length, topic and reply flag is acknowledged, and
    /// changes nothing; any other starts the message again.
    ///
    /// A piece that needs a new cell is refused where its message's source holds [`MOST_OF_SOURCE`](Store::MOST_OF_SOURCE) of them: counted over the messages
    /// of that source, arriving and whole, whoever sends the piece.
    pub fn packet<'r>(
        &mut self,
        send: &mut Store,
        arrival: &Arrival<'_>,
        run: &'r mut [u8],
    ) -> Result<Answer<'r>, Refusal> {
        let answer = ffi::packet(
            &mut self.bytes,
            &mut send.bytes,
            arrival.frame,
            &arrival.from.0,
            &arrival.to.0,
            arrival.rules.as_bytes(),
            arrival.known,
            run,
        );
        done(answer)?;
        Ok(Answer { run: written(run, answer), wake: answer.wake != 0 })
    }

    /// Takes a message to be sent, on the send store. The run buffer has at least [`PUSH_RUN`](crate::PUSH_RUN) bytes.
    pub fn push<'r>(&mut self, push: &Push<'_>, run: &'r mut [u8]) -> Result<Run<'r>, Refusal> {
        let answer = ffi::push(
            &mut self.bytes,
            &push.id.0,
            push.reply,
            &push.from.0,
            &push.to.0,
            push.topic,
            push.data,
            push.created_ms,
            push.try_ms,
            run,
        );
        done(answer)?;
        Ok(written(run, answer))
    }

    /// Wakes a message of the send store. The run buffer has at least [`WAKE_RUN`](crate::WAKE_RUN) bytes.
    ///
    /// A [`Wake::Send`] sends at most [`WAKE_PIECES`](crate::WAKE_PIECES) pieces: those never sent yet by
    /// index, then those that are due again, the one sent longest ago first. [`Run::pieces`] says how many;
    /// where that is the most, others may be left for the next wake.
    ///
    /// Outside the hours of its calendar a [`Wake::Send`] sends nothing and changes nothing: the run is empty.
    pub fn wake<'r>(&mut self, wake: Wake<'_>, id: Id, run: &'r mut [u8]) -> Result<Run<'r>, Refusal> {
        let bytes = &mut self.bytes;
        let answer = match wake {
            Wake::Send { clock_ms, calendar, unix_ms } => {
                ffi::wake(bytes, SEND, &id.0, clock_ms, calendar.as_bytes(), unix_ms, run)
            }
            Wake::Deadline => ffi::wake(bytes, DEADLINE, &id.0, 0, &[], 0, run),
        };
        done(answer)?;
        Ok(written(run, answer))
    }

    /// Says how far a message of the send store is.
    pub fn report(&self, id: Id) -> Result<Report, Refusal> {
        let mut out = [0; REPORT];
        done(ffi::report(&self.bytes, &id.0, &mut out))?;
        Report::read(&out)
    }

    /// Hands out the oldest whole message of the receive store, with its read packet. The run buffer has at least [`TAKE_RUN`](crate::TAKE_RUN) bytes.
    pub fn take<'r>(&mut self, run: &'r mut [u8]) -> Result<(Taken, Run<'r>), Refusal> {
        let mut data = vec![0; RECORD + crate::MOST_BYTES];
        let answer = ffi::take(&mut self.bytes, &mut data, run);
        done(answer)?;
        let record = Record::read(&data[..RECORD]).ok_or(Refusal::UnsoundStore)?;
        data.drain(..RECORD);
        data.truncate(usize::try_from(record.length).unwrap_or(usize::MAX));
        Ok((Taken { record, data }, written(run, answer)))
    }
}

/// The part of a run buffer that a call has written.
fn written(run: &mut [u8], answer: ffi::Answer) -> Run<'_> {
    let [length, pieces] = [answer.run, answer.pieces].map(|n| usize::try_from(n).unwrap_or(usize::MAX));
    Run::answered(&run[..length.min(run.len())], pieces)
}

fn done(answer: ffi::Answer) -> Result<(), Refusal> {
    Refusal::from_number(answer.number).map_or(Ok(()), Err)
}

/// A packet that arrived, with all that the host knows of it.
#[derive(Clone, Copy, Debug)]
pub struct Arrival<'a> {
    /// The bytes that arrived, and no others: 1 to [`FRAME`](crate::FRAME), else it is [`Refusal::BadFrame`]; fewer than the packet needs are
    /// [`Refusal::ShortFrame`]. Bytes behind those that it needs are not read.
    pub frame: &'a [u8],
    /// The address that the packet came from.
    pub from: Address,
    /// The address that it came to.
    pub to: Address,
    /// The rule book, which an init reads.
    pub rules: &'a Rules,
    /// Whether the key of the source is known that stands in the record of the packet's id; see [`Store::records`].
    pub known: bool,
}

/// What a packet call answers.
#[derive(Clone, Copy, Debug, PartialEq, Eq)]
pub struct Answer<'r> {
    /// What is to be sent.
    pub run: Run<'r>,
    /// Whether every message that is being sent should wake now.
    pub wake: bool,
}

/// A message to be sent.
#[derive(Clone, Copy, Debug)]
pub struct Push<'a> {
    /// Its id; no other message of the store has it.
    pub id: Id,
    /// Whether it is a reply, which no rule book stops.
    pub reply: bool,
    /// The address that it comes from.
    pub from: Address,
    /// The address that it goes to.
    pub to: Address,
    /// Its topic, at most 255 bytes.
    pub topic: &'a [u8],
    /// The message, at most [`MOST_BYTES`](crate::MOST_BYTES) bytes.
    pub data: &'a [u8],
    /// The time now, in milliseconds; only the report shows it.
    pub created_ms: u64,
    /// The try time in milliseconds; only the report shows it.
    pub try_ms: u64,
}

/// Why a message is woken.
#[derive(Clone, Copy, Debug, PartialEq, Eq)]
pub enum Wake<'a> {
    /// Kind 1: what is due is sent, within the calendar's hours. Where the clock went back, no piece is due again.
    Send {
        /// The clock that says what is due, in milliseconds.
        clock_ms: u64,
        /// When messages may leave.
        calendar: &'a Calendar,
        /// The time that the calendar is asked about: milliseconds since 1970 in UTC.
        unix_ms: u64,
    },
    /// Kind 2: the first lets the deadline pass, the second drops the message. It reads no calendar.
    Deadline,
}
