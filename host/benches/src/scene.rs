//! Scenes: what a node holds, and the packet that comes in then. The same scene is set up in the library and in the original.

use oracle::call::{Id, ACK};
use oracle::frame::{self, Kind, ABORTED, READ};
use socketlemon::Refusal;

use crate::{message, LONGEST, PIECE};

/// A step towards a scene.
#[derive(Clone)]
pub enum Step {
    /// A message to be sent.
    Push(Id, Vec<u8>),
    /// A frame that arrives from the peer.
    Packet(Vec<u8>),
    /// A frame that arrives from the other node.
    Other(Vec<u8>),
}

/// A packet call: the steps before it, the frame that it is about, the refusal that it meets, and whether each byte
/// of the library's stores is the same after it.
pub struct Scene {
    pub name: &'static str,
    pub steps: Vec<Step>,
    pub frame: Vec<u8>,
    pub refusal: Option<Refusal>,
    pub changes_nothing: bool,
}

impl Scene {
    fn new(name: &'static str, steps: Vec<Step>, frame: Vec<u8>) -> Self {
        Self { name, steps, frame, refusal: None, changes_nothing: false }
    }

    /// A call that leaves the stores as they were.
    fn changing_nothing(self) -> Self {
        Self { changes_nothing: true, ..self }
    }

    /// The init of the first message that arrives, once more.
    fn init_again(steps: Vec<Step>) -> Self {
        Self::new("init-again", steps, init(arriving(0))).changing_nothing()
    }

    /// An init of the first message that arrives, which has another length now.
    fn init_restart(steps: Vec<Step>) -> Self {
        let frame = frame::init(arriving(0), 0, LONGEST as u64 - 1, TOPIC);
        Self::new("init-restart", steps, frame)
    }

    /// A read packet for a message that nobody sent.
    fn read_unknown(steps: Vec<Step>) -> Self {
        let frame = frame::bare(UNKNOWN, READ);
        let scene = Self::new("read-unknown", steps, frame).changing_nothing();
        Self { refusal: Some(Refusal::UnknownId), ..scene }
    }
}

const MOST_RECORDS: usize = 8;
const SLOTS: usize = LONGEST / PIECE;
const TOPIC: &[u8] = b"survey";

/// The message with this number that arrives.
fn arriving(number: usize) -> Id {
    [0x10 + number as u8; 8]
}

/// The message with this number that leaves.
fn leaving(number: usize) -> Id {
    [0x20 + number as u8; 8]
}

/// An id that nobody has.
const UNKNOWN: Id = [0x40; 8];

fn init(id: Id) -> Vec<u8> {
    frame::init(id, 0, LONGEST as u64, TOPIC)
}

fn chunk(id: Id, index: usize) -> Vec<u8> {
    let offset = index * PIECE;
    let data = &message(LONGEST)[offset..offset + PIECE];
    frame::chunk(id, 0, index as u64, offset as u64, PIECE as u64, data)
}

fn done(id: Id) -> Vec<u8> {
    let sum = blake3::hash(&message(LONGEST));
    frame::done(id, 0, SLOTS as u64, sum.as_bytes())
}

/// The acknowledgement of a packet: its first bytes.
fn ack(mut frame: Vec<u8>) -> Vec<u8> {
    frame[8] |= ACK;
    frame.truncate(match frame::kind(frame[8]) {
        Kind::Init => 21,
        Kind::Chunk => 36,
        _ => 52,
    });
    frame
}

/// How many pieces each message has: as many as fit go to the first, the rest to the second.
fn spread(messages: usize, pieces: usize) -> impl Iterator<Item = usize> {
    let first = pieces.min(SLOTS);
    (0..messages).map(move |number| match number {
        0 => first,
        1 => pieces - first,
        _ => 0,
    })
}

/// Messages that arrive, with so many pieces in all: every second one is the other node's.
fn receive(messages: usize, pieces: usize) -> Vec<Step> {
    let one = |(number, count)| {
        let id = arriving(number);
        let from = if number % 2 == 0 { Step::Packet } else { Step::Other };
        std::iter::once(init(id)).chain((0..count).map(move |index| chunk(id, index))).map(from)
    };
    spread(messages, pieces).enumerate().flat_map(one).collect()
}

/// Messages that leave, with so many pieces in all.
fn send(messages: usize, pieces: usize) -> Vec<Step> {
    let one = |(number, count): (usize, usize)| Step::Push(leaving(number), message(count * PIECE));
    spread(messages, pieces).enumerate().map(one).collect()
}

/// A call of each kind on stores with so many cells, with every record and every cell in use but those that the call takes.
pub fn full(cells: usize) -> Vec<Scene> {
    let steps = |records, pieces| [receive(records, pieces), send(MOST_RECORDS, cells)].concat();
    let all = || steps(MOST_RECORDS, cells);
    let started = || [all(), vec![Step::Packet(ack(init(leaving(0))))]].concat();
    // the piece at the end of the message that is not complete
    let next = if cells > SLOTS { (1, cells - 1 - SLOTS) } else { (0, cells - 1) };
    let held = cells.min(SLOTS) / 2;
    vec![
        Scene::new("init-new", steps(MOST_RECORDS - 1, cells), init(UNKNOWN)),
        Scene::init_again(all()),
        Scene::init_restart(all()),
        Scene::new("chunk-new", steps(MOST_RECORDS, cells - 1), chunk(arriving(next.0), next.1)),
        Scene::new("chunk-held", all(), chunk(arriving(0), held)).changing_nothing(),
        Scene::new("done", all(), done(arriving(0))),
        Scene::read_unknown(all()),
        Scene::new("aborted", all(), frame::bare(arriving(0), ABORTED)),
        Scene::new("ack-init", all(), ack(init(leaving(0)))),
        Scene::new("ack-chunk", started(), ack(chunk(leaving(0), held))),
        Scene::new("ack-done", started(), ack(done(leaving(0)))),
    ]
}

/// A call of each kind where nothing is held but what the call is about.
pub fn empty() -> Vec<Scene> {
    let pushed = || send(1, 1);
    let started = || [pushed(), vec![Step::Packet(ack(init(leaving(0))))]].concat();
    vec![
        Scene::new("init-new", vec![], init(UNKNOWN)),
        Scene::init_again(receive(1, 1)),
        Scene::init_restart(receive(1, 1)),
        Scene::new("chunk-new", receive(1, 0), chunk(arriving(0), 0)),
        Scene::new("chunk-held", receive(1, 1), chunk(arriving(0), 0)).changing_nothing(),
        Scene::new("done", receive(1, SLOTS), done(arriving(0))),
        Scene::read_unknown(vec![]),
        Scene::new("aborted", receive(1, 0), frame::bare(arriving(0), ABORTED)),
        Scene::new("ack-init", pushed(), ack(init(leaving(0)))),
        Scene::new("ack-chunk", started(), ack(chunk(leaving(0), 0))),
        Scene::new("ack-done", started(), ack(done(leaving(0)))),
    ]
}
