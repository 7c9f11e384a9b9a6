//! A node of the library, and its sum.

use std::hint::black_box;

use oracle::call::{Id, Packet};
use socketlemon::{Address, Arrival, Calendar, Push, Refusal, Role, Rules, Run, Store, Wake, LONGEST_RUN};

use crate::scene::{Scene, Step};
use crate::turns::Routine;
use crate::{KEY, OTHER_KEY, PEER_KEY};

/// Both stores, and the host's run buffer.
#[derive(Clone)]
pub struct Node {
    address: Address,
    peer: Address,
    receive: Store,
    send: Store,
    rules: Rules,
    calendar: Calendar,
    run: Vec<u8>,
}

impl Node {
    /// A node with fresh stores of so many cells.
    pub fn new(key: [u8; 32], peer: [u8; 32], cells: usize) -> Self {
        Self {
            address: Address::of_key(&key).expect("an address"),
            peer: Address::of_key(&peer).expect("an address"),
            receive: Store::new(Role::Receive, cells).expect("a receive store"),
            send: Store::new(Role::Send, cells).expect("a send store"),
            rules: Rules::accept_unlisted(),
            calendar: Calendar::always(),
            run: vec![0; LONGEST_RUN],
        }
    }

    /// The node of a scene, before its packet.
    pub fn of(scene: &Scene, cells: usize) -> Self {
        let mut node = Self::new(KEY, PEER_KEY, cells);
        let other = Address::of_key(&OTHER_KEY).expect("an address");
        for step in &scene.steps {
            match step {
                Step::Push(id, data) => drop(node.push(*id, data)),
                Step::Packet(frame) => node.arrives(frame, node.peer),
                Step::Other(frame) => node.arrives(frame, other),
            }
        }
        node
    }

    /// The packet call of a scene, which is answered as the scene says.
    pub fn routine<'a>(name: &'static str, scene: &'a Scene, cells: usize) -> Routine<'a> {
        let start = Self::of(scene, cells);
        let mut after = start.clone();
        assert_eq!(after.packet(&scene.frame).err(), scene.refusal, "{}", scene.name);
        assert_eq!(after.holds_the_same(&start), scene.changes_nothing, "{}", scene.name);
        Routine::fresh(
            name,
            move || start.clone(),
            |node| node.packet(black_box(&scene.frame)).map(|(run, wake)| (run.as_bytes().len(), wake)),
        )
    }

    /// A step of a scene.
    fn arrives(&mut self, frame: &[u8], from: Address) {
        self.packet_from(frame, from).expect("a step is not refused");
    }

    /// The bytes of each store.
    pub fn store_bytes(&self) -> usize {
        self.send.as_bytes().len()
    }

    /// Whether its stores hold what those of another hold, byte for byte.
    pub fn holds_the_same(&self, other: &Self) -> bool {
        self.receive == other.receive && self.send == other.send
    }

    /// Takes a message to be sent to the peer.
    pub fn push(&mut self, id: Id, data: &[u8]) -> Run<'_> {
        let push = Push {
            id: socketlemon::Id(id),
            reply: false,
            from: self.address,
            to: self.peer,
            topic: b"survey",
            data,
            created_ms: 0,
            try_ms: 60_000,
        };
        self.send.push(&push, &mut self.run).expect("room for the message")
    }

    /// Hands over a frame of the peer; gives what is to be sent, and whether the senders should wake.
    pub fn packet(&mut self, frame: &[u8]) -> Result<(Run<'_>, bool), Refusal> {
        self.packet_from(frame, self.peer)
    }

    fn packet_from(&mut self, frame: &[u8], from: Address) -> Result<(Run<'_>, bool), Refusal> {
        let arrival = Arrival { frame, from, to: self.address, rules: &self.rules, known: true };
        let answer = self.receive.packet(&mut self.send, &arrival, &mut self.run)?;
        Ok((answer.run, answer.wake))
    }

    /// Wakes the sender of a message.
    pub fn wake(&mut self, id: Id) -> Run<'_> {
        let wake = Wake::Send { clock_ms: 0, calendar: &self.calendar, unix_ms: 0 };
        self.send.wake(wake, socketlemon::Id(id), &mut self.run).expect("the message leaves")
    }

    /// Wakes the sender of a message as it is told; gives the bytes of what it sends.
    pub fn wake_as(&mut self, wake: Wake<'_>, id: Id) -> Result<usize, Refusal> {
        self.send.wake(wake, socketlemon::Id(id), &mut self.run).map(|run| run.as_bytes().len())
    }

    /// The oldest whole message, and its read packet.
    pub fn take(&mut self) -> (Vec<u8>, Run<'_>) {
        let (taken, run) = self.receive.take(&mut self.run).expect("a whole message");
        (taken.data, run)
    }
}

/// The packets of a run, kept by the host on their way.
pub fn packets(run: Run<'_>) -> Vec<Packet> {
    let packet = |p: socketlemon::Packet<'_>| Packet { from: p.from.0, to: p.to.0, bytes: p.bytes.to_vec() };
    run.packets().map(packet).collect()
}

#[link(name = "blake3_export", kind = "static")]
extern "C" {
    fn socketlemon_blake3(bytes: *const u8, length: usize, out: *mut [u8; 32]);
}

/// The library's sum.
pub fn sum(bytes: &[u8]) -> [u8; 32] {
    let mut out = [0; 32];
    // SAFETY: a live slice with its length, and a place for 32 bytes.
    unsafe { socketlemon_blake3(bytes.as_ptr(), bytes.len(), &mut out) };
    out
}
