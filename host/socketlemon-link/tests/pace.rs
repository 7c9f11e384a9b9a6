//! The tablet's pace: eight pieces leave with a wake, every 100 ms and with each acknowledgement.

mod common;

use common::{key, link, survey, Folder};
use socketlemon::{Address, Packet, MOST_BYTES};
use socketlemon_link::datagram::{self, Arrived};
use std::net::{SocketAddr, UdpSocket};
use std::process::{Child, Stdio};
use std::time::{Duration, Instant};

const OFFICE: Address = Address([4; 16]);

/// The flags of a packet's byte 8.
const INIT: u8 = 0x80;
const DONE: u8 = 0x40;
const CHUNK: u8 = 0x10;
const ACK: u8 = 0x01;

/// A tablet that sends a survey of 25 pieces, and the socket that it takes for its office's.
struct Tablet {
    child: Child,
    socket: UdpSocket,
    at: Option<SocketAddr>,
}

impl Tablet {
    fn start(folder: &Folder) -> Tablet {
        let socket = UdpSocket::bind("[::1]:0").expect("a socket");
        socket.set_read_timeout(Some(Duration::from_secs(60))).expect("a time to wait");
        let to = socket.local_addr().expect("its address").to_string();
        key(folder, "tablet.key");
        folder.file("survey", &survey(MOST_BYTES, 0));
        let words = ["tablet", "send", "survey", "--to", &to, "--office", "404:404:404:404:404:404:404:404"];
        let child =
            link(folder, &words).stdout(Stdio::null()).stderr(Stdio::null()).spawn().expect("a tablet");
        Tablet { child, socket, at: None }
    }

    /// The next packet that it sends with these flags; others are passed over.
    fn next(&mut self, flags: u8) -> Arrived {
        let mut buffer = [0; datagram::MOST + 1];
        loop {
            let (length, at) = self.socket.recv_from(&mut buffer).expect("a datagram of the tablet");
            self.at = Some(at);
            let arrived = Arrived::read(&buffer[..length], OFFICE).expect("a packet to the office");
            if arrived.frame[8] == flags {
                return arrived;
            }
        }
    }

    /// The index of the next piece that it sends.
    fn piece(&mut self) -> u8 {
        self.next(CHUNK).frame[19]
    }

    /// Acknowledges a packet.
    fn acknowledge(&self, arrived: &Arrived) {
        let mut frame = arrived.frame.clone();
        frame[8] |= ACK;
        let bytes = datagram::write(&Packet { from: OFFICE, to: arrived.from, bytes: &frame });
        self.socket.send_to(&bytes, self.at.expect("where the tablet is")).expect("an acknowledgement");
    }
}

impl Drop for Tablet {
    fn drop(&mut self) {
        let _ = self.child.kill();
        let _ = self.child.wait();
    }
}

/// 25 pieces take four wakes, the last of which is the third by the clock. After that the oldest go first.
#[test]
fn without_an_acknowledgement_eight_leave_every_100_ms() {
    let folder = Folder::new();
    let mut tablet = Tablet::start(&folder);
    let init = tablet.next(INIT);
    let start = Instant::now();
    tablet.acknowledge(&init);
    let first: Vec<u8> = (0..25).map(|_| tablet.piece()).collect();
    let spent = start.elapsed();
    assert_eq!(first, (0..25).collect::<Vec<u8>>());
    assert!(spent >= Duration::from_millis(200), "25 pieces within {:?}", spent);
    let again: Vec<u8> = (0..15).map(|_| tablet.piece()).collect();
    assert_eq!(again, (0..15).collect::<Vec<u8>>());
}

/// Acknowledges each piece as it comes; new ones come by index. Gives how long behind the first the last one came.
fn acknowledge_all(tablet: &mut Tablet) -> Duration {
    let init = tablet.next(INIT);
    tablet.acknowledge(&init);
    let (mut new, mut start) = (0, None);
    while new < 25 {
        let piece = tablet.next(CHUNK);
        start.get_or_insert_with(Instant::now);
        let index = piece.frame[19];
        assert!(index <= new, "piece {} before {}", index, new);
        new = new.max(index + 1);
        tablet.acknowledge(&piece);
    }
    start.map_or(Duration::ZERO, |start: Instant| start.elapsed())
}

/// Where each piece is acknowledged as it comes.
#[test]
fn pieces_come_by_index_and_the_done_behind_them() {
    let folder = Folder::new();
    let mut tablet = Tablet::start(&folder);
    acknowledge_all(&mut tablet);
    assert_eq!(tablet.next(DONE).frame[19], 25, "the done counts all pieces");
}

/// By the clock alone, four wakes with eight pieces at most take 300 ms. On a busy machine a try may take as long.
#[test]
fn with_acknowledgements_no_piece_waits_for_the_clock() {
    let folder = Folder::new();
    let mut tries = (0..10).map(|_| acknowledge_all(&mut Tablet::start(&folder)));
    assert!(tries.any(|spent| spent < Duration::from_millis(250)), "25 pieces never came within 250 ms");
}
