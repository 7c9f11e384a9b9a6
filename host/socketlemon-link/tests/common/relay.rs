//! A link between tablets and an office that loses, delays, repeats and reorders, and can be cut: a relay of datagrams with a socket of its own for each tablet.

use socketlemon_link::random::Seeded;
use std::net::{SocketAddr, UdpSocket};
use std::sync::atomic::{AtomicBool, Ordering};
use std::sync::Arc;
use std::thread::JoinHandle;
use std::time::{Duration, Instant};

/// How bad the link is: the first two are probabilities for a datagram, and each is late by up to a time, which reorders them.
/// With a number, so many of the packets by which a tablet gives up are lost, the first ones, and none behind them.
#[derive(Clone, Copy)]
pub struct Bad {
    pub lose: f64,
    pub repeat: f64,
    pub late: Duration,
    pub lost_aborts: Option<usize>,
    pub seed: u64,
}

impl Bad {
    pub const GOOD: Bad = Bad { lose: 0.0, repeat: 0.0, late: Duration::ZERO, lost_aborts: None, seed: 1 };
}

/// Where a datagram has its packet's flags, behind the two addresses and the id; and those of a packet by which a tablet gives up.
const FLAGS: usize = 16 + 16 + 8;
const ABORTED: u8 = 0x20;

/// A relay that runs until it is dropped.
pub struct Relay {
    pub socket: String,
    is_cut: Arc<AtomicBool>,
    is_over: Arc<AtomicBool>,
    thread: Option<JoinHandle<()>>,
}

impl Relay {
    /// A relay to an office's socket.
    pub fn to(office: &str, bad: Bad) -> Relay {
        let front = UdpSocket::bind("[::1]:0").expect("a socket");
        front.set_nonblocking(true).expect("a socket that does not wait");
        let socket = front.local_addr().expect("its address").to_string();
        let office = office.parse().expect("the office's socket");
        let (is_cut, is_over) = (Arc::new(AtomicBool::new(false)), Arc::new(AtomicBool::new(false)));
        let random = Seeded::new(bad.seed);
        let mut work = Work { front, office, backs: Vec::new(), late: Vec::new(), aborts: 0, bad, random };
        let (cut, over) = (Arc::clone(&is_cut), Arc::clone(&is_over));
        let thread = std::thread::spawn(move || {
            while !over.load(Ordering::Relaxed) {
                work.step(cut.load(Ordering::Relaxed));
                std::thread::sleep(Duration::from_millis(1));
            }
        });
        Relay { socket, is_cut, is_over, thread: Some(thread) }
    }

    /// Cuts the link, or mends it.
    pub fn cut(&self, is_cut: bool) {
        self.is_cut.store(is_cut, Ordering::Relaxed);
    }
}

impl Drop for Relay {
    fn drop(&mut self) {
        self.is_over.store(true, Ordering::Relaxed);
        self.thread.take().into_iter().for_each(|thread| drop(thread.join()));
    }
}

/// A datagram on its way: when it is due, the back socket that it uses, whether it goes to the office, its bytes.
type Late = (Instant, usize, bool, Vec<u8>);

struct Work {
    front: UdpSocket,
    office: SocketAddr,
    /// For each tablet the socket that speaks for it.
    backs: Vec<(SocketAddr, UdpSocket)>,
    late: Vec<Late>,
    /// How many packets by which a tablet gives up have come.
    aborts: usize,
    bad: Bad,
    random: Seeded,
}

impl Work {
    fn step(&mut self, is_cut: bool) {
        let mut buffer = [0; 2_000];
        let mut came = Vec::new();
        while let Ok((length, tablet)) = self.front.recv_from(&mut buffer) {
            came.push((self.back(tablet), true, buffer[..length].to_vec()));
        }
        for (number, (_, back)) in self.backs.iter().enumerate() {
            while let Ok(length) = back.recv(&mut buffer) {
                came.push((number, false, buffer[..length].to_vec()));
            }
        }
        came.into_iter()
            .filter(|_| !is_cut)
            .for_each(|(number, there, bytes)| self.take(number, there, bytes));
        let now = Instant::now();
        let (due, rest) = std::mem::take(&mut self.late).into_iter().partition(|(at, ..): &Late| *at <= now);
        self.late = rest;
        for (_, number, there, bytes) in due {
            let (tablet, back) = &self.backs[number];
            // what the system does not take is lost
            let _ = if there { back.send(&bytes) } else { self.front.send_to(&bytes, tablet) };
        }
    }

    fn take(&mut self, number: usize, there: bool, bytes: Vec<u8>) {
        if self.is_lost(there, &bytes) {
            return;
        }
        let copies = 1 + usize::from(self.random.chance(self.bad.repeat));
        for _ in 0..copies {
            let part = (self.random.number() % 1_000) as u32;
            self.late.push((Instant::now() + self.bad.late * part / 1_000, number, there, bytes.clone()));
        }
    }

    fn is_lost(&mut self, there: bool, bytes: &[u8]) -> bool {
        match self.bad.lost_aborts {
            Some(lost) if there && bytes.get(FLAGS) == Some(&ABORTED) => {
                self.aborts += 1;
                self.aborts <= lost
            }
            _ => self.random.chance(self.bad.lose),
        }
    }

    /// The number of the socket that speaks for a tablet.
    fn back(&mut self, tablet: SocketAddr) -> usize {
        if let Some(number) = self.backs.iter().position(|(other, _)| *other == tablet) {
            return number;
        }
        let back = UdpSocket::bind("[::1]:0").expect("a socket");
        back.connect(self.office).expect("the office's socket");
        back.set_nonblocking(true).expect("a socket that does not wait");
        self.backs.push((tablet, back));
        self.backs.len() - 1
    }
}
