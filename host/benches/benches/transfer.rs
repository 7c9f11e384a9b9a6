//! A whole transfer of the longest message, from the push to the read packet, in turns: the library, and the original with its runtime. And the library's calls in
//! it, by what each is about.

use std::hint::black_box;
use std::time::{Duration, Instant};

use benches::library::{self, Node};
use benches::scan::{self, joined_zero};
use benches::turns::{self, Routine};
use benches::{message, KEY, LONGEST, PEER_KEY, PIECE};
use oracle::call::{Id, Packet, ACK};
use oracle::frame::{self, Kind};
use socketlemon::Store;

const ID: Id = *b"house 12";

/// The frames of packets, as they arrive.
fn frames(packets: Vec<Packet>) -> Vec<Vec<u8>> {
    packets.into_iter().map(|packet| packet.bytes).collect()
}

/// What makes the calls of a transfer.
trait Caller {
    fn call<T>(&mut self, name: &'static str, call: impl FnOnce() -> T) -> T;
}

/// Makes them, and no more.
struct Plain;

impl Caller for Plain {
    fn call<T>(&mut self, _: &'static str, call: impl FnOnce() -> T) -> T {
        call()
    }
}

/// The calls of one name: how many they are, and how long they took together.
struct Calls {
    name: &'static str,
    count: usize,
    spent: Duration,
}

/// Makes them and times each.
#[derive(Default)]
struct Timed(Vec<Calls>);

impl Caller for Timed {
    fn call<T>(&mut self, name: &'static str, call: impl FnOnce() -> T) -> T {
        let start = Instant::now();
        let value = call();
        let spent = start.elapsed();
        match self.0.iter_mut().find(|calls| calls.name == name) {
            Some(calls) => {
                calls.count += 1;
                calls.spent += spent;
            }
            None => self.0.push(Calls { name, count: 1, spent }),
        }
        value
    }
}

/// The name of the call that takes a packet with these flags.
fn packet_call(flags: u8) -> &'static str {
    match (frame::kind(flags), flags & ACK != 0) {
        (Kind::Init, false) => "init",
        (Kind::Init, true) => "ack-init",
        (Kind::Chunk, false) => "chunk",
        (Kind::Chunk, true) => "ack-chunk",
        (Kind::Done, false) => "done",
        (Kind::Done, true) => "ack-done",
        (Kind::Read, _) => "read",
        other => unreachable!("a transfer has no {other:?}"),
    }
}

/// Hands packets to a node of the library; gives what it sends back, and whether its senders should wake.
fn hand(caller: &mut impl Caller, node: &mut Node, packets: Vec<Packet>) -> (Vec<Packet>, bool) {
    let mut back = (Vec::new(), false);
    for frame in frames(packets) {
        let answer = caller.call(packet_call(frame[8]), || node.packet(&frame));
        let (run, wake) = answer.expect("a packet of the peer");
        back.0.extend(library::packets(run));
        back.1 |= wake;
    }
    back
}

/// Sends a message from the tablet to the office, and gives it as it was taken there.
fn ours(caller: &mut impl Caller, (tablet, office): &mut (Node, Node), data: &[u8]) -> Vec<u8> {
    let mut out = library::packets(caller.call("push", || tablet.push(ID, data)));
    let mut left = data.len().div_ceil(PIECE);
    while !out.is_empty() {
        let (replies, _) = hand(caller, office, out);
        let (_, wake) = hand(caller, tablet, replies);
        out = if wake {
            let name = if left > 0 { "wake-chunks" } else { "wake-done" };
            let run = caller.call(name, || tablet.wake(ID));
            left -= run.pieces();
            library::packets(run)
        } else {
            Vec::new()
        };
    }
    let (taken, read) = caller.call("take", || office.take());
    let read = library::packets(read);
    hand(caller, tablet, read);
    taken
}

/// The same with the original, whose senders wake by themselves.
#[cfg(original)]
fn original(data: &[u8]) -> Option<Routine<'_>> {
    use benches::original::Node;

    let hand = |node: &Node, packets: Vec<Packet>| {
        let frames = frames(packets);
        node.packets(frames.iter().map(Vec::as_slice))
    };
    let transfer = move |(tablet, office): &mut (Node, Node)| {
        tablet.push(ID, data.to_vec());
        loop {
            let out = tablet.sent();
            if out.is_empty() {
                break;
            }
            hand(office, out);
            hand(tablet, office.sent());
        }
        let taken = office.take();
        hand(tablet, office.sent());
        taken
    };
    let fresh = || (Node::new(KEY, PEER_KEY), Node::new(PEER_KEY, KEY));
    assert!(transfer(&mut fresh()) == data, "the original's message arrives");
    Some(Routine::fresh("original", fresh, transfer))
}

#[cfg(not(original))]
fn original(_: &[u8]) -> Option<Routine<'_>> {
    None
}

/// The library's nodes before a transfer.
fn fresh() -> (Node, Node) {
    let node = |key, peer| Node::new(key, peer, Store::MOST_CELLS);
    (node(KEY, PEER_KEY), node(PEER_KEY, KEY))
}

/// The transfer, beside it the original's, and of what it takes at least a scan of both stores and a sum.
fn transfer(data: &[u8]) {
    let transfer = |nodes: &mut (Node, Node)| ours(&mut Plain, nodes, data);
    assert!(transfer(&mut fresh()) == data, "the library's message arrives");
    let routines = [
        Routine::fresh("ours", fresh, transfer),
        scan::routine("scan", joined_zero, Store::MOST_CELLS),
        Routine::repeated("sum", || library::sum(black_box(data))),
    ];
    turns::measure("transfer", data.len(), routines.into_iter().chain(original(data)).collect());
}

/// A transfer of which each call is timed, and last all of it: so many calls, and what the host does between them.
fn timed(data: &[u8]) -> Vec<Calls> {
    let (mut calls, mut nodes) = (Timed::default(), fresh());
    let start = Instant::now();
    ours(&mut calls, &mut nodes, data);
    let spent = start.elapsed();
    let count = calls.0.iter().map(|calls| calls.count).sum();
    calls.0.push(Calls { name: "all", count, spent });
    calls.0
}

/// All calls of one name in a transfer, for each name, and the transfer itself; the value is how many calls they are. Each is the mean of the same transfers, the
/// half that took neither longest nor shortest, so that the parts add up to the whole.
fn calls(data: &[u8]) {
    let (start, least) = (Instant::now(), turns::least_time());
    let mut transfers = vec![timed(data)];
    while start.elapsed() < least {
        transfers.push(timed(data));
    }
    transfers.sort_by_key(|calls| calls.last().map(|all| all.spent));
    let quarter = transfers.len() / 4;
    let middle = &transfers[quarter..transfers.len() - quarter];
    for (i, Calls { name, count, .. }) in middle[0].iter().enumerate() {
        let spent: Duration = middle.iter().map(|calls| calls[i].spent).sum();
        turns::keep("transfer-calls", name, count, "mean", turns::nanoseconds(spent) / middle.len() as f64);
    }
}

fn main() {
    let data = message(LONGEST);
    transfer(&data);
    calls(&data);
}
