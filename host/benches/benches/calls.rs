//! Packet calls of each kind on the largest stores, in turns: the library, the original's handler, and a plain scan of the stores' bytes. What a call starts from
//! is made anew for each, outside the measured time.

use benches::library::Node;
use benches::scan::{self, joined_zero};
use benches::scene::{self, Scene};
use benches::turns::{self, Routine};
use socketlemon::Store;

/// The original's call, on a node that is made anew each time. Both have sent the same number of packets.
#[cfg(original)]
fn original(scene: &Scene) -> Option<Routine<'_>> {
    use benches::{library, original};
    use std::hint::black_box;

    let node = original::Node::of(scene);
    node.packet(&scene.frame);
    let replies = node.sent().iter().filter(|packet| packet.flags() & oracle::call::ACK != 0).count();
    let mut node = Node::of(scene, Store::MOST_CELLS);
    let ours = node.packet(&scene.frame).map_or(0, |(run, _)| library::packets(run).len());
    assert_eq!(ours, replies, "replies to {}", scene.name);

    Some(Routine::timed("original", || original::Node::of(scene).packet(black_box(&scene.frame))))
}

#[cfg(not(original))]
fn original(_: &Scene) -> Option<Routine<'_>> {
    None
}

fn main() {
    for (name, scenes) in [("full", scene::full(Store::MOST_CELLS)), ("empty", scene::empty())] {
        for scene in &scenes {
            let scan = scan::routine("scan", joined_zero, Store::MOST_CELLS);
            let ours = Node::routine("ours", scene, Store::MOST_CELLS);
            let routines = [scan, ours].into_iter().chain(original(scene)).collect();
            turns::measure(&format!("calls-{name}"), scene.name, routines);
        }
    }
}
