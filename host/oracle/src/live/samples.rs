//! The lists in crates/replay/data: sequences for which the original's answers are kept.
//! Wakes are by a calendar that is always open, as in the program that replays the lists.
//! A list ends where the first id leaves the comparison: from there on the library's answers are its own.

use std::collections::BTreeSet;

use crate::call::{Address, Call, Id, Packet, Push, Setup, ACK, FRAME, MOST_CELLS};
use crate::frame;
use crate::list::List;
use crate::live::compare;
use crate::live::coverage::Coverage;
use crate::live::run::{Difference, Run, Step};
use crate::live::{clock, stack};

const PEER: Address = [0x42; 16];
const START: u64 = 1_000_000;
const RANDOM_STEPS: u64 = 120;
/// A random list that is kept is at most so large.
const RANDOM_BYTES: usize = 45_000;
/// Every number that the original has a counterpart for, but 23.
const NUMBERS: [u64; 16] = [0, 4, 5, 8, 9, 10, 11, 13, 14, 15, 16, 17, 18, 19, 20, 21];

/// Lengths where the protocol's arithmetic turns, up to those of eight pieces: of a longer message, a wake of
/// the library does not send all.
const LENGTHS: [usize; 11] = [0, 1, 249, 250, 251, 1299, 1300, 1301, 1550, 10_399, 10_400];

/// Each list with its name: four made by hand, and random ones until every number has come up in those.
/// A random list that would end early is not kept.
pub fn samples() -> Result<Vec<(String, List)>, Difference> {
    let by_hand = [("lengths", lengths()?), ("flags", flags()?), ("inits", inits()?), ("wakes", wakes()?)];
    let mut samples = Vec::from(by_hand.map(|(name, list)| (name.to_string(), list)));
    let mut wanted = BTreeSet::from(NUMBERS);
    for seed in 1.. {
        let list = compare::one(seed, RANDOM_STEPS, None, &mut Coverage::default(), None)?;
        let numbers: BTreeSet<u64> = list.entries.iter().map(|entry| entry.said.number).collect();
        if !wanted.is_disjoint(&numbers) && list.end.is_none() && list.write().len() <= RANDOM_BYTES {
            wanted.retain(|number| !numbers.contains(number));
            samples.push((format!("random-{seed}"), list));
        }
        if wanted.is_empty() {
            break;
        }
    }
    clock::release();
    Ok(samples)
}

fn setup() -> Setup {
    Setup { key: [7; 32], recv_cells: MOST_CELLS, send_cells: MOST_CELLS }
}

fn push(number: usize, length: usize) -> Push {
    let data = (0..length).map(|at| (at / 100 + number) as u8).collect();
    Push {
        id: [number as u8; 8],
        reply: number % 3 == 2,
        to: PEER,
        topic: vec![b't'; if number % 3 == 2 { 0 } else { number }],
        data,
        created: 1_700_000_000_999,
        try_ms: 1,
    }
}

fn framed(packet: &Packet) -> Packet {
    let mut bytes = packet.bytes.clone();
    bytes.resize(FRAME, 0);
    Packet { bytes, ..packet.clone() }
}

/// Messages of these lengths over a good link, and what becomes of each: taken, or given up at its deadline.
/// Those with a short last piece come last: the list ends where that piece arrives.
fn lengths() -> Result<List, Difference> {
    let (setup, mut coverage) = (setup(), Coverage::default());
    let me = stack::address(&setup.key);
    let mut run = Run::new(setup, START, &mut coverage, None)?;
    run.step(Step::Call(Call::Known([me].into())))?;
    let mut lengths: Vec<(usize, usize)> = LENGTHS.into_iter().enumerate().collect();
    lengths.sort_by_key(|(_, length)| has_short_last_piece(*length));
    for (number, length) in lengths {
        let message = push(number + 1, length);
        let id = message.id;
        let mut in_flight = run.step(Step::Call(Call::Push(message)))?;
        // two ticks with nothing on the way: all that can arrive has
        for _ in 0..2 {
            while !in_flight.is_empty() {
                let packet = framed(&in_flight.remove(0));
                in_flight.extend(run.step(Step::Call(Call::Packet(packet)))?);
            }
            run.step(Step::Call(Call::Report(id)))?;
            in_flight = run.step(Step::Clock(run.clock + 100))?;
        }
        for packet in run.step(Step::Call(Call::Take))? {
            run.step(Step::Call(Call::Packet(framed(&packet))))?;
        }
        run.step(Step::Call(Call::Report(id)))?;
        for _ in 0..2 {
            for packet in run.step(Step::Clock(run.clock + 300_000))? {
                run.step(Step::Call(Call::Packet(framed(&packet))))?;
            }
            run.step(Step::Call(Call::Report(id)))?;
        }
    }
    Ok(run.into_list())
}

/// Whether a message is cut into several pieces of which the last is below 250 bytes.
fn has_short_last_piece(length: usize) -> bool {
    length > 1300 && (1..250).contains(&(length % 1300))
}

/// Every flag byte, on an id that both arrives and leaves, with a body that is a piece of it.
fn flags() -> Result<List, Difference> {
    let (setup, mut coverage) = (setup(), Coverage::default());
    let me = stack::address(&setup.key);
    let mut run = Run::new(setup, START, &mut coverage, None)?;
    run.step(Step::Call(Call::Known([me, PEER].into())))?;
    let id: Id = [1; 8];
    run.step(Step::Call(Call::Push(push(1, 2600))))?;
    for flags in 0..=u8::MAX {
        let mut bytes = frame::chunk(id, 0, u64::from(flags) % 3, 0, 300, &[flags; 300]);
        bytes[8] = flags;
        run.step(Step::Call(Call::Packet(framed(&Packet { from: PEER, to: me, bytes }))))?;
        if flags % 16 == 15 {
            run.step(Step::Clock(run.clock + 50))?;
            run.step(Step::Call(Call::Report(id)))?;
        }
    }
    Ok(run.into_list())
}

/// A message of eight pieces that are lost, in part, again and again: those that are due leave with one wake.
/// Then one of nine pieces, of which the original sends all with its first wake: there the list ends.
fn wakes() -> Result<List, Difference> {
    let (setup, mut coverage) = (setup(), Coverage::default());
    let me = stack::address(&setup.key);
    let mut run = Run::new(setup, START, &mut coverage, None)?;
    run.step(Step::Call(Call::Known([me].into())))?;
    let packet = |bytes| Packet { from: PEER, to: me, bytes };
    let acknowledged = |id, index| packet(frame::chunk(id, ACK, index, 1_300 * index, 1_300, &[]));
    let message = push(1, 10_400);
    let id = message.id;
    run.step(Step::Call(Call::Push(message)))?;
    hand(&mut run, &[&packet(frame::init(id, ACK, 10_400, &[]))])?;
    for round in [&[7, 0][..], &[], &[3, 8], &[1, 2, 3, 4], &[6, 5]] {
        for index in round {
            hand(&mut run, &[&acknowledged(id, *index)])?;
        }
        for later in [50, 49, 1] {
            run.step(Step::Clock(run.clock + later))?;
            run.step(Step::Call(Call::Report(id)))?;
        }
    }
    let longer = push(2, 11_700);
    let init = packet(frame::init(longer.id, ACK, 11_700, &[]));
    run.step(Step::Call(Call::Push(longer)))?;
    hand(&mut run, &[&init])?;
    Ok(run.into_list())
}

/// Hands frames to both sides.
fn hand(run: &mut Run<'_>, packets: &[&Packet]) -> Result<(), Difference> {
    packets.iter().try_for_each(|packet| run.step(Step::Call(Call::Packet(framed(packet)))).map(drop))
}

/// Inits of a message that has arrived in part, and of which the slots have grown from two to ten.
/// One that differs in the source, the destination, the length, the topic or the reply flag starts it again,
/// and one that is refused changes nothing, as dones show by their refusals. Then it becomes whole.
/// The last init is equal to the one before it, behind a piece: there the list ends.
fn inits() -> Result<List, Difference> {
    let (setup, mut coverage) = (setup(), Coverage::default());
    let me = stack::address(&setup.key);
    let mut run = Run::new(setup, START, &mut coverage, None)?;
    run.step(Step::Call(Call::Known([PEER].into())))?;
    let id: Id = [1; 8];
    let packet = |bytes| Packet { from: PEER, to: me, bytes };
    let init = packet(frame::init(id, 0, 2_600, b"ducts"));
    let piece = |index| packet(frame::chunk(id, 0, index, 1_300 * (index % 2), 1_300, &[3; 1_300]));
    let [first, second, tenth] = [0, 1, 9].map(piece);
    let done = |count| packet(frame::done(id, 0, count, blake3::hash(&[3; 2_600]).as_bytes()));
    let [of_two, of_ten] = [2, 10].map(done);
    let other = |change: fn(&mut Packet)| {
        let mut other = init.clone();
        change(&mut other);
        other
    };
    let reply = other(|init| init.bytes[8] |= frame::REPLY);
    let shorter = other(|init| {
        init.bytes[20] -= 1;
        init.bytes.truncate(25);
    });
    for changed in [
        &other(|init| init.from[15] ^= 1),
        &other(|init| init.to[15] ^= 1),
        &other(|init| init.bytes[19] -= 1),
        &other(|init| init.bytes[21] ^= 1),
        &shorter,
        &reply,
    ] {
        hand(&mut run, &[&init, &init, &first, &tenth, changed, &of_ten, &of_two])?;
    }
    hand(&mut run, &[&init, &first, &tenth])?;
    run.step(Step::Call(Call::Rules(vec![1])))?;
    hand(&mut run, &[&init, &of_two, &of_ten, &reply, &of_ten])?;
    run.step(Step::Call(Call::Rules(vec![0])))?;
    hand(&mut run, &[&first, &second, &of_two, &init])?;
    run.step(Step::Call(Call::Take))?;
    hand(&mut run, &[&init, &init, &first, &init])?;
    Ok(run.into_list())
}
