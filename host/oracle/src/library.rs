//! The library by its C interface (include/socketlemon.h): a node with a receive store and a send store. All `unsafe` for it stands here.

use std::collections::BTreeSet;

use crate::call::{Address, Call, Got, Hours, Id, Packet, Push, Report, Setup, Taken, Wake};

/// What each export answers.
#[repr(C)]
struct Answer {
    number: u64,
    run: u64,
    wake: u64,
    pieces: u64,
}

impl Answer {
    /// Whether the call was done, where it has nothing to send; else what it answers.
    fn done(&self) -> Result<(), String> {
        match (self.number, self.run, self.wake, self.pieces) {
            (0, 0, 0, 0) => Ok(()),
            told => Err(format!("answered {told:?}")),
        }
    }
}

#[rustfmt::skip]
extern "C" {
    fn socketlemon_setup(store: *mut u8, store_len: usize, role: u64) -> Answer;
    fn socketlemon_address(key: *const u8, key_len: usize, out: *mut u8, out_len: usize) -> Answer;
    fn socketlemon_packet(recv: *mut u8, recv_len: usize, send: *mut u8, send_len: usize, frame: *const u8, frame_len: usize, from: *const u8,
        to: *const u8, rules: *const u8, rules_len: usize, known: u64, run: *mut u8, run_len: usize) -> Answer;
    fn socketlemon_push(send: *mut u8, send_len: usize, id: *const u8, reply: u64, from: *const u8, to: *const u8, topic: *const u8, topic_len: usize,
        data: *const u8, data_len: usize, created: u64, try_ms: u64, run: *mut u8, run_len: usize) -> Answer;
    fn socketlemon_wake(send: *mut u8, send_len: usize, kind: u64, id: *const u8, clock: u64, calendar: *const u8, calendar_len: usize,
        unix_ms: u64, run: *mut u8, run_len: usize) -> Answer;
    fn socketlemon_report(send: *const u8, send_len: usize, id: *const u8, out: *mut u8, out_len: usize) -> Answer;
    fn socketlemon_take(recv: *mut u8, recv_len: usize, data: *mut u8, data_len: usize, run: *mut u8, run_len: usize) -> Answer;
}

const RECORDS: usize = 8;
const HEAD_BYTES: usize = 16;
const RECORD_BYTES: usize = 328;
const CELL_BYTES: usize = 1380;
const RUN_BYTES: usize = 10_960;
const DATA_BYTES: usize = RECORD_BYTES + 32_500;
const REPORT_BYTES: usize = 44;
const ARRIVING: u8 = 1;

/// The address that the library makes of a key.
pub fn address(key: &[u8; 32]) -> Result<Address, String> {
    let mut out = [0; 16];
    let answer = unsafe { socketlemon_address(key.as_ptr(), key.len(), out.as_mut_ptr(), out.len()) };
    answer.done().map(|()| out)
}

/// A node: both stores, and what a host keeps beside them.
#[derive(Clone, PartialEq, Eq)]
pub struct Node {
    address: Address,
    recv: Vec<u8>,
    send: Vec<u8>,
    rules: Vec<u8>,
    known: BTreeSet<Address>,
}

impl Node {
    /// A node with fresh stores, that accepts every topic and knows no key.
    pub fn new(setup: &Setup) -> Result<Self, String> {
        let store = |cells: usize, role| {
            let mut bytes = vec![0xee; HEAD_BYTES + RECORDS * RECORD_BYTES + CELL_BYTES * cells];
            let answer = unsafe { socketlemon_setup(bytes.as_mut_ptr(), bytes.len(), role) };
            answer.done().map(|()| bytes)
        };
        let (recv, send) = (store(setup.recv_cells, 1)?, store(setup.send_cells, 2)?);
        Ok(Self { address: address(&setup.key)?, recv, send, rules: vec![0], known: BTreeSet::new() })
    }

    /// The node's own address.
    pub fn address(&self) -> Address {
        self.address
    }

    /// The bytes of the send store.
    #[cfg_attr(not(original), allow(dead_code))]
    pub fn send_store(&self) -> &[u8] {
        &self.send
    }

    /// Makes a call and gives what the library answers; a wake's calendar is always open.
    pub fn call(&mut self, call: &Call) -> Got {
        match call {
            Call::Rules(book) => {
                self.rules = book.clone();
                Got::default()
            }
            Call::Known(addresses) => {
                self.known = addresses.clone();
                Got::default()
            }
            Call::Push(push) => self.push(push),
            Call::Packet(packet) => self.packet(packet),
            Call::Wake(kind, id, clock) => self.wake(*kind, id, *clock, &Hours::always()),
            Call::Report(id) => self.report(id),
            Call::Take => self.take(),
        }
    }

    fn push(&mut self, p: &Push) -> Got {
        let mut run = [0; RUN_BYTES];
        let answer = unsafe {
            socketlemon_push(
                self.send.as_mut_ptr(),
                self.send.len(),
                p.id.as_ptr(),
                p.reply.into(),
                self.address.as_ptr(),
                p.to.as_ptr(),
                p.topic.as_ptr(),
                p.topic.len(),
                p.data.as_ptr(),
                p.data.len(),
                p.created,
                p.try_ms,
                run.as_mut_ptr(),
                run.len(),
            )
        };
        got(answer, &run)
    }

    fn packet(&mut self, p: &Packet) -> Got {
        let source = p.bytes.get(..8).and_then(|id| self.source_of(&array(id)));
        let known = source.is_some_and(|source| self.known.contains(&source));
        let mut run = [0; RUN_BYTES];
        let answer = unsafe {
            socketlemon_packet(
                self.recv.as_mut_ptr(),
                self.recv.len(),
                self.send.as_mut_ptr(),
                self.send.len(),
                p.bytes.as_ptr(),
                p.bytes.len(),
                p.from.as_ptr(),
                p.to.as_ptr(),
                self.rules.as_ptr(),
                self.rules.len(),
                known.into(),
                run.as_mut_ptr(),
                run.len(),
            )
        };
        got(answer, &run)
    }

    /// Wakes a sender by these hours.
    pub fn wake(&mut self, kind: Wake, id: &Id, clock: u64, hours: &Hours) -> Got {
        let mut run = [0; RUN_BYTES];
        let answer = unsafe {
            socketlemon_wake(
                self.send.as_mut_ptr(),
                self.send.len(),
                kind as u64,
                id.as_ptr(),
                clock,
                hours.calendar.as_ptr(),
                hours.calendar.len(),
                hours.unix_ms,
                run.as_mut_ptr(),
                run.len(),
            )
        };
        got(answer, &run)
    }

    fn report(&mut self, id: &Id) -> Got {
        let mut out = [0; REPORT_BYTES];
        let answer = unsafe {
            socketlemon_report(self.send.as_ptr(), self.send.len(), id.as_ptr(), out.as_mut_ptr(), out.len())
        };
        let report = (answer.number == 0).then(|| Report {
            to: array(&out[..16]),
            state: out[16],
            pieces: [out[17].into(), out[18].into(), out[19].into()],
            created_s: number(&out[20..28]),
            end_s: number(&out[28..36]),
            length: number(&out[36..44]),
        });
        Got { report, ..got(answer, &[]) }
    }

    fn take(&mut self) -> Got {
        let mut run = [0; RUN_BYTES];
        let mut data = vec![0; DATA_BYTES];
        let answer = unsafe {
            socketlemon_take(
                self.recv.as_mut_ptr(),
                self.recv.len(),
                data.as_mut_ptr(),
                data.len(),
                run.as_mut_ptr(),
                run.len(),
            )
        };
        let taken = (answer.number == 0).then(|| {
            let (record, data) = data.split_at(RECORD_BYTES);
            Taken {
                id: array(&record[8..16]),
                reply: record[2] != 0,
                from: array(&record[16..32]),
                to: array(&record[32..48]),
                topic: record[72..72 + usize::from(record[6])].to_vec(),
                data: data[..number(&record[48..56]) as usize].to_vec(),
            }
        });
        Got { taken, ..got(answer, &run) }
    }

    /// The source in the arriving record of an id, which a host reads to know whose key is asked for.
    fn source_of(&self, id: &Id) -> Option<Address> {
        let records = self.recv[HEAD_BYTES..].chunks(RECORD_BYTES).take(RECORDS);
        records.filter(|r| r[1] == ARRIVING && r[8..16] == *id).map(|r| array(&r[16..32])).next()
    }
}

/// An answer, with the packets of its run.
fn got(answer: Answer, run: &[u8]) -> Got {
    let mut packets = Vec::new();
    let mut rest = &run[..answer.run as usize];
    while !rest.is_empty() {
        let (count, after) = rest.split_at(2);
        let (packet, after) = after.split_at(32 + usize::from(u16::from_be_bytes(array(count))));
        packets.push(Packet {
            from: array(&packet[..16]),
            to: array(&packet[16..32]),
            bytes: packet[32..].to_vec(),
        });
        rest = after;
    }
    let Answer { number, wake, pieces, .. } = answer;
    Got { number, wake, pieces, packets, ..Got::default() }
}

fn array<const N: usize>(bytes: &[u8]) -> [u8; N] {
    bytes.try_into().expect("a field has its size")
}

fn number(bytes: &[u8]) -> u64 {
    u64::from_be_bytes(array(bytes))
}
