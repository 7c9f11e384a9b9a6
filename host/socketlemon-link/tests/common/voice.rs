//! A voice that speaks to an office packet by packet, and a tablet made of the library's calls.

use super::{Folder, Office};
use socketlemon::{
    Address, Arrival, Calendar, Id, Push, Role, Rules, Run, Store, Wake, FRAME, LONGEST_RUN, MOST_BYTES,
};
use socketlemon_link::datagram::{self, Arrived};
use socketlemon_link::keys::Key;
use socketlemon_link::notice::Notice;
use std::net::UdpSocket;
use std::time::Duration;

/// A socket that speaks to an office.
pub struct Voice {
    pub socket: UdpSocket,
    pub office: Address,
}

impl Voice {
    pub fn to(office: &Office) -> Voice {
        let socket = UdpSocket::bind("[::1]:0").expect("a socket");
        socket.connect(&office.socket).expect("the office's socket");
        socket.set_read_timeout(Some(Duration::from_secs(5))).expect("a time to wait");
        Voice { socket, office: office.address.parse().expect("its address") }
    }

    pub fn send(&self, from: Address, packet: &[u8]) {
        self.raw(&datagram::write(&socketlemon::Packet { from, to: self.office, bytes: packet }));
    }

    /// Sends bytes; what the system does not take now is lost.
    pub fn raw(&self, bytes: &[u8]) {
        let _ = self.socket.send(bytes);
    }

    /// The next packet that comes to an address.
    pub fn receive(&self, own: Address) -> Option<Arrived> {
        let mut buffer = [0; datagram::MOST + 1];
        let length = self.socket.recv(&mut buffer).ok()?;
        Some(Arrived::read(&buffer[..length], own).expect("a datagram of the office"))
    }

    /// The flags of the office's answer to a packet, and what it notices.
    pub fn ask(&self, from: Address, packet: &[u8]) -> (u8, Option<Notice>) {
        self.send(from, packet);
        let answer = self.receive(from).expect("an answer");
        assert_eq!(answer.frame[..8], packet[..8], "the answer is about the same message");
        (answer.frame[8], Notice::read(&answer.frame).map(|(_, notice)| notice))
    }

    /// Announces a message of the longest length, which the office acknowledges.
    pub fn announce(&self, from: Address, id: u8) {
        assert_eq!(self.ask(from, &init(id, MOST_BYTES)), (0x81, None), "init {id}");
    }

    /// Sends pieces of a message, at these indices, each of which is acknowledged.
    pub fn pieces(&self, from: Address, id: u8, indices: std::ops::Range<u64>, size: usize) {
        for index in indices {
            assert_eq!(self.ask(from, &piece(id, index, size)), (0x11, None), "piece {index} of {id}");
        }
    }
}

/// The init of a message.
pub fn init(id: u8, length: usize) -> Vec<u8> {
    [&[id; 8][..], &[0x80, 0, 0, 0], &(length as u64).to_be_bytes(), b"\x06survey"].concat()
}

/// A piece of a size, at its place in a message whose pieces all have this size.
pub fn piece(id: u8, index: u64, size: usize) -> Vec<u8> {
    let size = size as u64;
    let numbers: Vec<u8> = [index, index * size, size].iter().flat_map(|n| n.to_be_bytes()).collect();
    [&[id; 8][..], &[0x10, 0, 0, 0], &numbers, &vec![id; size as usize]].concat()
}

/// The address of a key file.
pub fn address(folder: &Folder, name: &str) -> Address {
    Key::of_file(&folder.path(name)).expect("a key").address()
}

/// The address of a key that nobody has introduced.
pub fn stranger(key: u8) -> Address {
    Key([key; 32]).address()
}

pub const ID: Id = Id([1; 8]);

/// The known tablet, with a survey of one piece or none.
pub struct Tablet {
    pub own: Address,
    pub id: Id,
    pub send: Store,
    pub init: Vec<u8>,
}

impl Tablet {
    pub fn push(folder: &Folder, voice: &Voice, data: &[u8]) -> Tablet {
        Tablet::push_as(folder, voice, data, ID)
    }

    pub fn push_as(folder: &Folder, voice: &Voice, data: &[u8], id: Id) -> Tablet {
        let own = address(folder, "tablet.key");
        let mut send = Store::new(Role::Send, 1).expect("a store");
        let (from, to) = (own, voice.office);
        let push = Push { id, reply: false, from, to, topic: b"survey", data, created_ms: 0, try_ms: 0 };
        let init = only(send.push(&push, &mut [0; LONGEST_RUN]).expect("push"));
        Tablet { own, id, send, init }
    }

    /// Sends init and chunk, which are acknowledged. Gives them, and the done that is next.
    pub fn send_all(&mut self, voice: &Voice) -> [Vec<u8>; 3] {
        let mut packets = [self.init.clone(), Vec::new(), Vec::new()];
        for number in 0..2 {
            packets[number + 1] = self.next(voice, &packets[number], 100 * number as u64);
        }
        packets
    }

    /// Sends a packet, which is acknowledged, and gives the one that is next.
    pub fn next(&mut self, voice: &Voice, packet: &[u8], clock_ms: u64) -> Vec<u8> {
        let acknowledgement = self.ask(voice, packet).expect("an acknowledgement");
        self.take(&acknowledgement);
        self.wake(clock_ms)
    }

    /// The one packet that it sends at a clock.
    pub fn wake(&mut self, clock_ms: u64) -> Vec<u8> {
        let wake = Wake::Send { clock_ms, calendar: &Calendar::always(), unix_ms: 0 };
        only(self.send.wake(wake, self.id, &mut [0; LONGEST_RUN]).expect("wake"))
    }

    /// The office's answer to a packet.
    pub fn ask(&self, voice: &Voice, packet: &[u8]) -> Option<Arrived> {
        voice.send(self.own, packet);
        voice.receive(self.own)
    }

    /// Hands an answer of the office to the library.
    pub fn take(&mut self, arrived: &Arrived) {
        let mut receive = Store::new(Role::Receive, 1).expect("a store");
        let (frame, from, to) = (&arrived.frame, arrived.from, arrived.to);
        let arrival = Arrival { frame, from, to, rules: &Rules::reject_unlisted(), known: false };
        receive.packet(&mut self.send, &arrival, &mut [0; FRAME]).expect("an answer that fits");
    }
}

/// The one packet of a run.
fn only(run: Run<'_>) -> Vec<u8> {
    let packets: Vec<_> = run.packets().collect();
    assert_eq!(packets.len(), 1);
    packets[0].bytes.to_vec()
}
