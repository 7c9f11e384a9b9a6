//! A node of the original: its `MessageStack` on a runtime of one thread. The packets come in by a stream, and the original asks that stream for the next one as
//! soon as it has handled the last: so the stream measures the handler, and nothing of the runtime.

use std::collections::BTreeSet;
use std::net::{IpAddr, Ipv6Addr};
use std::pin::Pin;
use std::sync::{Arc, Mutex, MutexGuard};
use std::task::{Context, Poll, Waker};
use std::time::{Duration, Instant};

use futures::{FutureExt, Stream};
use oracle::call::{Address, Id, Packet, FRAME};
use oracle::crypto::{PacketBuffer, PublicKey};
use oracle::data::{DataPlane, Wire};
use oracle::message::MessageStack;
use tokio::runtime::{Builder, Runtime};

use crate::scene::{Scene, Step};
use crate::{KEY, OTHER_KEY, PEER_KEY};

/// Turns of the runtime after which every task waits.
const TURNS: usize = 8;

/// The longest time that a message is tried, which only the report shows.
const TRY: Duration = Duration::from_secs(60);

type Arrival = (PacketBuffer, IpAddr, IpAddr);

/// What the stream and the node share.
#[derive(Default)]
struct Shared {
    waiting: Vec<Arrival>,
    handed: Option<Instant>,
    spent: Duration,
    waker: Option<Waker>,
}

/// The stream of packets: the last one in comes out first.
#[derive(Clone, Default)]
struct Feed(Arc<Mutex<Shared>>);

impl Feed {
    fn lock(&self) -> MutexGuard<'_, Shared> {
        self.0.lock().expect("nobody panics while holding the feed")
    }
}

impl Stream for Feed {
    type Item = Arrival;

    fn poll_next(self: Pin<&mut Self>, context: &mut Context<'_>) -> Poll<Option<Arrival>> {
        let now = Instant::now();
        let mut shared = self.lock();
        if let Some(handed) = shared.handed.take() {
            shared.spent += now - handed;
        }
        match shared.waiting.pop() {
            Some(arrival) => {
                shared.handed = Some(Instant::now());
                Poll::Ready(Some(arrival))
            }
            None => {
                shared.waker = Some(context.waker().clone());
                Poll::Pending
            }
        }
    }
}

/// The node.
pub struct Node {
    runtime: Runtime,
    stack: MessageStack<()>,
    feed: Feed,
    wire: Wire,
    address: Address,
    peer: Address,
}

fn address(key: [u8; 32]) -> Address {
    PublicKey::from(key).address().octets()
}

fn ip(address: Address) -> IpAddr {
    Ipv6Addr::from(address).into()
}

impl Node {
    /// A fresh node that knows its peer's key.
    pub fn new(key: [u8; 32], peer: [u8; 32]) -> Self {
        // the runtime's clock stands still, so a sender is at work at once and no timer goes off
        let runtime = Builder::new_current_thread().enable_time().start_paused(true).build();
        let runtime = runtime.expect("a runtime can be made");
        let (feed, wire) = (Feed::default(), Wire::default());
        wire.know(&BTreeSet::from([address(peer)]));
        let stack = {
            let _inside = runtime.enter();
            MessageStack::new(DataPlane::new(key, wire.clone()), feed.clone(), None)
        };
        let node = Self { runtime, stack, feed, wire, address: address(key), peer: address(peer) };
        node.run();
        node
    }

    /// The node of a scene, before its packet.
    pub fn of(scene: &Scene) -> Self {
        let node = Self::new(KEY, PEER_KEY);
        for step in &scene.steps {
            match step {
                Step::Push(id, data) => node.push(*id, data.clone()),
                Step::Packet(frame) => drop(node.packet(frame)),
                Step::Other(frame) => drop(node.other(frame)),
            }
        }
        node.sent();
        node
    }

    /// Lets every task go on until all wait.
    fn run(&self) {
        self.runtime.block_on(async {
            for _ in 0..TURNS {
                tokio::task::yield_now().await;
            }
        });
    }

    /// Takes a message to be sent to the peer.
    pub fn push(&self, id: Id, data: Vec<u8>) {
        rand::set_next(id);
        let pushed = {
            let _inside = self.runtime.enter();
            self.stack.new_message(ip(self.peer), data, b"survey".to_vec(), TRY, false)
        };
        assert!(pushed.is_ok(), "the topic is short");
        self.run();
    }

    /// Hands over a frame of the peer; gives how long the handler took.
    pub fn packet(&self, frame: &[u8]) -> Duration {
        self.packets(std::iter::once(frame))
    }

    /// Hands over a frame of the other node.
    fn other(&self, frame: &[u8]) -> Duration {
        self.packets_from(std::iter::once(frame), address(OTHER_KEY))
    }

    /// Hands over frames of the peer, filled up with zeros; gives how long the handler took for all of them.
    pub fn packets<'a>(&self, frames: impl DoubleEndedIterator<Item = &'a [u8]>) -> Duration {
        self.packets_from(frames, self.peer)
    }

    fn packets_from<'a>(&self, frames: impl DoubleEndedIterator<Item = &'a [u8]>, from: Address) -> Duration {
        let waker = {
            let mut shared = self.feed.lock();
            shared.spent = Duration::ZERO;
            shared.waiting.extend(frames.rev().map(|frame| {
                let mut buffer = PacketBuffer::new();
                buffer.buffer_mut()[..frame.len()].copy_from_slice(frame);
                buffer.set_size(FRAME);
                (buffer, ip(from), ip(self.address))
            }));
            shared.waker.take()
        };
        waker.expect("the original waits for packets").wake();
        self.run();
        let shared = self.feed.lock();
        assert!(shared.waiting.is_empty() && shared.handed.is_none(), "the original has handled all");
        shared.spent
    }

    /// The packets sent since the last call.
    pub fn sent(&self) -> Vec<Packet> {
        self.wire.sent()
    }

    /// The oldest whole message; its read packet is sent.
    pub fn take(&self) -> Vec<u8> {
        self.stack.message(true, None).now_or_never().expect("a whole message").data
    }
}
