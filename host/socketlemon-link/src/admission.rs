//! Which messages may use cells. A message is admitted only where all the cells that it can need are free beside those that others were promised: so every one
//! that was admitted can become whole, and none waits for a cell that another one waits with.
//!
//! A message is promised the slots of its record: ceil(length / 1,300), what a tablet cuts, or more once a higher index has come. The promises therefore stand
//! in the store, and nothing about them has to be kept beside it.

use crate::line::{Asked, Line};
use socketlemon::{Address, Id, Kind, Record, Store, MOST_BYTES, PIECE};
use std::time::Instant;

/// How many records a store has.
pub const RECORDS: usize = 8;

/// The bytes of the shortest piece that does not end its message.
const LEAST_PIECE: u64 = 250;

/// What is done with an init.
#[derive(Clone, Copy, Debug, PartialEq, Eq)]
pub enum Init {
    /// It is handed to the library.
    Take,
    /// It is not; so many wait before it.
    Wait(usize),
}

/// What is done with a piece.
#[derive(Clone, Copy, Debug, PartialEq, Eq)]
pub enum Piece {
    /// It is handed to the library.
    Take,
    /// It counts as lost: its message has more pieces than were promised, and there is no room for more yet.
    Wait,
    /// The message of this id is in the way, and has to be dropped first.
    Drop(Id),
    /// Its message has more pieces than a source may have cells, and cannot become whole.
    Never,
}

/// Who may use cells, and who waits for them.
#[derive(Clone, Debug, Default)]
pub struct Admission {
    line: Line,
    /// The messages that were admitted before the first of the line.
    passers: Vec<Id>,
    /// The messages that have more pieces than was announced, and how many cells they want: the one that asked first at the front.
    growers: Vec<(Id, usize)>,
}

impl Admission {
    /// Decides about an init. One that has to wait joins the line. It may pass the first of the line only if that one can start beside all that passed it, so
    /// that it waits for none of them.
    pub fn init(&mut self, store: &Store, asked: Asked, now: Instant) -> Init {
        if is_same(store, &asked) {
            return Init::Take;
        }
        self.tidy(store, now);
        let place = self.line.place(asked, now);
        let first = self.line.first().filter(|_| place > 0);
        let fits = self.promised(store, &asked).leaves(asked.cells);
        if !fits || first.map_or(false, |first| !self.may_pass(store, &asked, &first)) {
            return Init::Wait(place);
        }
        match first {
            Some(_) => self.passers.push(asked.id),
            None => self.passers.clear(),
        }
        self.line.leave(asked.source, asked.id);
        Init::Take
    }

    /// Decides about a piece of an arriving message.
    pub fn piece(&mut self, store: &Store, record: &Record, index: u64) -> Piece {
        let wanted = usize::try_from(index).map_or(usize::MAX, |index| index.saturating_add(1));
        let most = (record.length + LEAST_PIECE - 1) / LEAST_PIECE;
        // the library refuses an index that is too high for the length
        if wanted <= usize::from(record.slots) || index >= most.max(1) {
            return Piece::Take;
        }
        if wanted > Store::MOST_OF_SOURCE {
            return Piece::Never;
        }
        self.growers.retain(|(id, _)| is_arriving(store, *id));
        match self.growers.iter_mut().find(|(id, _)| *id == record.id) {
            Some((_, most)) => *most = wanted.max(*most),
            None => self.growers.push((record.id, wanted)),
        }
        let asked = Asked { source: record.source, id: record.id, cells: wanted };
        let promised = Promised::of(store, &asked);
        if promised.leaves_cells(wanted) {
            return Piece::Take;
        }
        self.in_the_way(store, record, promised.of_source + wanted > Store::MOST_OF_SOURCE)
            .map_or(Piece::Wait, Piece::Drop)
    }

    /// The message that has to go for the first of those that grow: the last of the others, of the same source if that one has too many cells.
    fn in_the_way(&self, store: &Store, record: &Record, is_source_full: bool) -> Option<Id> {
        self.growers.first().filter(|(first, _)| *first == record.id)?;
        let fits =
            |other: &Record| other.id != record.id && (!is_source_full || other.source == record.source);
        let those: Vec<Id> = store.records().filter(fits).map(|other| other.id).collect();
        self.growers.iter().rev().map(|(id, _)| *id).find(|id| those.contains(id))
    }

    /// Notes that a message waits no longer, and says whether it did.
    pub fn leave(&mut self, source: Address, id: Id) -> bool {
        self.line.leave(source, id)
    }

    fn tidy(&mut self, store: &Store, now: Instant) {
        self.line.tidy(now);
        self.passers.retain(|id| is_arriving(store, *id));
        self.growers.retain(|(id, _)| is_arriving(store, *id));
    }

    /// What was promised to all others, and what the first of those that grow still wants.
    fn promised(&self, store: &Store, asked: &Asked) -> Promised {
        let mut promised = Promised::of(store, asked);
        if let Some((id, wanted)) = self.growers.first() {
            let slots = store.records().find(|record| record.id == *id).map_or(0, |record| record.slots);
            promised.cells += wanted.saturating_sub(usize::from(slots));
        }
        promised
    }

    /// Whether the first of the line can start beside a message and those that have passed it.
    fn may_pass(&self, store: &Store, asked: &Asked, first: &Asked) -> bool {
        let passers = store.records().filter(|record| self.passers.contains(&record.id));
        let cells: usize = passers.map(|record| usize::from(record.slots)).sum();
        asked.source != first.source
            && cells + asked.cells + first.cells <= store.cells()
            && self.passers.len() + 2 <= RECORDS
    }
}

/// How many cells a tablet needs for a message of a length; none where it is longer than any may be, for the library refuses it.
pub fn cells(length: u64) -> usize {
    match usize::try_from(length) {
        Ok(length) if length <= MOST_BYTES => (length + PIECE - 1) / PIECE,
        _ => 0,
    }
}

fn is_arriving(store: &Store, id: Id) -> bool {
    store.records().any(|record| record.kind == Kind::Arriving && record.id == id)
}

/// Whether an init is of a message that was admitted, with the same need.
fn is_same(store: &Store, asked: &Asked) -> bool {
    store.records().any(|record| {
        (record.id, record.source) == (asked.id, asked.source) && cells(record.length) == asked.cells
    })
}

/// What a store has promised to other messages than one.
struct Promised {
    all: usize,
    cells: usize,
    of_source: usize,
    records: usize,
}

impl Promised {
    fn of(store: &Store, asked: &Asked) -> Promised {
        let mut promised = Promised { all: store.cells(), cells: 0, of_source: 0, records: 0 };
        for record in store.records().filter(|record| record.id != asked.id) {
            let slots = usize::from(record.slots);
            promised.records += 1;
            promised.cells += slots;
            promised.of_source += if record.source == asked.source { slots } else { 0 };
        }
        promised
    }

    fn leaves_cells(&self, cells: usize) -> bool {
        self.cells + cells <= self.all && self.of_source + cells <= Store::MOST_OF_SOURCE
    }

    fn leaves(&self, cells: usize) -> bool {
        self.records < RECORDS && self.leaves_cells(cells)
    }
}

#[cfg(test)]
mod tests {
    use super::*;
    use crate::random::Seeded;
    use socketlemon::{Arrival, Role, Rules, PACKET_RUN};

    #[test]
    fn cells_are_the_pieces_that_a_tablet_cuts() {
        let lengths = [0, 1, 1_300, 1_301, 32_500, 32_501, u64::MAX];
        assert_eq!(lengths.map(cells), [0, 1, 1, 2, 25, 0, 0]);
    }

    /// A message on its way, whose pieces all have one size but the last.
    struct Message {
        source: u8,
        id: Id,
        length: u64,
        size: u64,
        /// How many of its packets were taken: the init, and its pieces by index.
        taken: u64,
        is_over: bool,
    }

    /// An office that only decides, and hands over what it takes.
    struct Desk {
        store: Store,
        send: Store,
        rules: Rules,
        admission: Admission,
    }

    impl Desk {
        fn new() -> Desk {
            let store = |role| Store::new(role, Store::MOST_CELLS).expect("a store");
            let (store, send) = (store(Role::Receive), store(Role::Send));
            Desk { store, send, rules: Rules::accept_unlisted(), admission: Admission::default() }
        }

        /// Hands a packet over, which the library must not refuse.
        fn packet(&mut self, source: u8, id: Id, flags: u8, body: &[u8]) {
            let frame = &[&id.0[..], &[flags, 0, 0, 0], body].concat();
            let (from, to) = (Address([source; 16]), Address([200; 16]));
            let arrival = Arrival { frame, from, to, rules: &self.rules, known: true };
            let answer = self.store.packet(&mut self.send, &arrival, &mut [0; PACKET_RUN]).map(|_| ());
            assert_eq!(answer, Ok(()), "what was promised is there");
        }

        /// The next packet of a message comes; where another one is in the way, its id.
        fn step(&mut self, message: &mut Message, now: Instant) -> Option<Id> {
            let Message { source, id, length, size, taken, .. } = *message;
            if taken == 0 {
                let asked = Asked { source: Address([source; 16]), id, cells: cells(length) };
                if self.admission.init(&self.store, asked, now) == Init::Take {
                    self.packet(source, id, 0x80, &[&length.to_be_bytes()[..], &[0]].concat());
                    message.taken = 1;
                }
                return None;
            }
            let (index, offset) = (taken - 1, (taken - 1) * size);
            if offset >= length {
                self.packet(source, id, 0x20, &[]);
                message.is_over = true;
                return None;
            }
            let record = self.store.records().find(|record| record.id == id).expect("a record");
            match self.admission.piece(&self.store, &record, index) {
                Piece::Take => {
                    let size = size.min(length - offset);
                    let numbers: Vec<u8> =
                        [index, offset, size].iter().flat_map(|n| n.to_be_bytes()).collect();
                    self.packet(source, id, 0x10, &[&numbers[..], &vec![1; size as usize]].concat());
                    message.taken += 1;
                }
                Piece::Wait => {}
                Piece::Drop(other) => return Some(other),
                Piece::Never => panic!("no message here has more than 30 pieces"),
            }
            None
        }
    }

    /// Messages of any length and cut, in any order of packets: all of them finish, and nothing that was promised is refused.
    #[test]
    fn whatever_comes_all_finish() {
        for seed in 0..40 {
            let mut random = Seeded::new(seed);
            let mut below = |n: u64| random.number() % n;
            let mut desk = Desk::new();
            let mut messages: Vec<Message> = (0..24)
                .map(|number| Message {
                    source: below(6) as u8,
                    id: Id([number; 8]),
                    length: below(32_501),
                    size: if below(3) == 0 { 1_084 + below(280) } else { 1_300 },
                    taken: 0,
                    is_over: false,
                })
                .collect();
            let now = Instant::now();
            let mut steps = 0;
            while messages.iter().any(|message| !message.is_over) {
                steps += 1;
                assert!(steps < 100_000, "seed {seed}: they wait for each other");
                let number = below(24) as usize;
                if messages[number].is_over {
                    continue;
                }
                if let Some(other) = desk.step(&mut messages[number], now) {
                    let other = messages.iter_mut().find(|message| message.id == other).expect("one of them");
                    desk.packet(other.source, other.id, 0x20, &[]);
                    other.taken = 0;
                }
            }
            assert_eq!(desk.store.records().count(), 0);
        }
    }
}
