//! What is measured by itself: wakes that send, and the clock. What a wake starts from is made anew for each, outside the measured time.

use benches::library::Node;
use criterion::{black_box, criterion_group, criterion_main, BatchSize, BenchmarkId, Criterion};
use criterion::{measurement::WallTime, BenchmarkGroup};
use oracle::call::ACK;
use oracle::frame;
use socketlemon::{Calendar, Store, Wake, WAKE_RUN};

type Group<'a> = BenchmarkGroup<'a, WallTime>;

/// Times `routine` on a copy of `start`, one call at a time: the stores' bytes are as near as after a copy.
fn time<I: Clone, O>(group: &mut Group<'_>, name: BenchmarkId, start: &I, routine: impl Fn(&mut I) -> O) {
    group.bench_function(name, |b| b.iter_batched_ref(|| start.clone(), &routine, BatchSize::PerIteration));
}

/// The message that leaves.
const LEAVING: [u8; 8] = *b"house 12";

/// A node with all cells in use and a message of 25 pieces that is announced, then woken at these clocks.
fn announced(clocks: &[u64]) -> Node {
    let mut node = Node::new(benches::KEY, benches::PEER_KEY, Store::MOST_CELLS);
    node.push(LEAVING, &benches::message(benches::LONGEST));
    node.push([1; 8], &benches::message(20 * benches::PIECE));
    let init = frame::init(LEAVING, ACK, benches::LONGEST as u64, &[]);
    node.packet(&init).expect("an acknowledgement");
    for clock_ms in clocks {
        let calendar = Calendar::always();
        let wake = Wake::Send { clock_ms: *clock_ms, calendar: &calendar, unix_ms: 0 };
        node.wake_as(wake, LEAVING).expect("the message leaves");
    }
    node
}

/// Send wakes of a message of 25 pieces, by which of them want sending: none; all, never sent; all, sent at
/// one time; all, sent at four times, of which the oldest is not that of the first pieces.
fn wakes(c: &mut Criterion) {
    let mut group = c.benchmark_group("wakes");
    let always = Calendar::always();
    let eight = Ok(WAKE_RUN);
    for (name, clocks, clock_ms, answer) in [
        ("none", &[0, 0, 0, 0][..], 99, Ok(0)),
        ("new", &[], 0, eight),
        ("due", &[0, 0, 0, 0], 1_000, eight),
        ("stamps", &[0, 10, 20, 30, 125], 1_000, eight),
    ] {
        let send = Wake::Send { clock_ms, calendar: &always, unix_ms: 0 };
        let start = announced(clocks);
        assert_eq!(start.clone().wake_as(send, LEAVING), answer, "{name}");
        time(&mut group, BenchmarkId::new(name, 25), &start, |node| node.wake_as(black_box(send), LEAVING));
    }
}

/// What the clock itself adds to each call.
fn clock(c: &mut Criterion) {
    time(&mut c.benchmark_group("clock"), BenchmarkId::new("nothing", 0), &0, |zero| *black_box(zero));
}

criterion_group!(all, wakes, clock);
criterion_main!(all);
