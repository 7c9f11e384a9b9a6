//! The original: its `MessageStack` on a runtime of one thread, with the clocks set by hand.

use std::net::{IpAddr, Ipv6Addr};
use std::time::Duration;

use futures::channel::mpsc::{unbounded, UnboundedSender};
use futures::FutureExt;
use tokio::runtime::{Builder, Runtime};

use crate::call::{
    Address, Call, Id, Packet, Push, Report, Said, Setup, Taken, FRAME, NONE_WHOLE, TOPIC_TOO_LARGE,
    UNKNOWN_ID,
};
use crate::crypto::{PacketBuffer, PublicKey};
use crate::data::{DataPlane, Wire};
use crate::live::clock;
use crate::live::rules::Book;
use crate::live::words;
use crate::message::{MessageId, MessageStack, PushMessageError, TransmissionProgress};
use crate::subnet::Subnet;

/// Turns of the runtime after which nothing is left to do: each polls the timers once and then every task that is ready.
const TURNS: usize = 8;

/// The node as the original runs it.
pub struct Original {
    runtime: Runtime,
    stack: MessageStack<()>,
    packets: UnboundedSender<(PacketBuffer, IpAddr, IpAddr)>,
    wire: Wire,
}

/// The address that the original makes of a key.
pub fn address(key: &[u8; 32]) -> Address {
    PublicKey::from(*key).address().octets()
}

impl Original {
    /// A node at the time that the clocks show.
    pub fn new(setup: &Setup) -> Self {
        words::listen();
        let runtime = Builder::new_current_thread().enable_time().build().expect("a runtime can be made");
        let (packets, arriving) = unbounded();
        let wire = Wire::default();
        let stack = {
            let _inside = runtime.enter();
            MessageStack::new(DataPlane::new(setup.key, wire.clone()), arriving, None)
        };
        let new = Self { runtime, stack, packets, wire };
        new.run();
        new
    }

    /// Lets every task go on until all wait, and gives what they sent.
    pub fn run(&self) -> Vec<Packet> {
        self.runtime.block_on(async {
            for _ in 0..TURNS {
                tokio::task::yield_now().await;
            }
        });
        self.wire.sent()
    }

    /// Makes a call that the original has; a wake comes by its own timers instead.
    pub fn call(&self, call: &Call) -> Said {
        match call {
            Call::Rules(book) => self.rules(&Book::read(book).expect("only well-formed books are compared")),
            Call::Known(addresses) => self.wire.know(addresses),
            Call::Push(push) => return self.push(push),
            Call::Packet(packet) => return self.packet(packet),
            Call::Report(id) => {
                let report = self.report(id);
                let number = if report.is_none() { UNKNOWN_ID } else { 0 };
                return Said { number, report, ..Said::default() };
            }
            Call::Take => return self.take(),
            Call::Wake(..) => unreachable!("wakes come by the original's timers"),
        }
        Said::default()
    }

    fn rules(&self, book: &Book) {
        for topic in self.stack.topics() {
            self.stack.remove_topic_whitelist(topic);
        }
        self.stack.set_default_topic_action(book.accept);
        for (topic, subnets) in &book.topics {
            self.stack.add_topic_whitelist(topic.clone());
            for (address, bits) in subnets {
                let subnet = Subnet::new(ip(address), *bits).expect("prefix bits are at most 128");
                self.stack.add_topic_whitelist_src(topic.clone(), subnet);
            }
        }
    }

    fn push(&self, push: &Push) -> Said {
        clock::set_wall(push.created);
        let try_for = Duration::from_millis(push.try_ms);
        let pushed = {
            let _inside = self.runtime.enter();
            if push.reply {
                assert!(push.topic.is_empty(), "the original's replies have no topic");
                self.stack.reply_message(message_id(&push.id), ip(&push.to), push.data.clone(), try_for);
                Ok(())
            } else {
                rand::set_next(push.id);
                self.stack
                    .new_message(ip(&push.to), push.data.clone(), push.topic.clone(), try_for, false)
                    .map(|_| ())
            }
        };
        let number = match pushed {
            Ok(()) => 0,
            Err(PushMessageError::TopicTooLarge) => TOPIC_TOO_LARGE,
        };
        Said { number, packets: self.run(), ..Said::default() }
    }

    fn packet(&self, packet: &Packet) -> Said {
        // a new buffer is of zeros, and all of it is in use
        let mut buffer = PacketBuffer::new();
        buffer.buffer_mut()[..packet.bytes.len()].copy_from_slice(&packet.bytes);
        buffer.set_size(FRAME);
        self.packets
            .unbounded_send((buffer, ip(&packet.from), ip(&packet.to)))
            .expect("the original takes packets");
        Said { packets: self.run(), ..Said::default() }
    }

    fn report(&self, id: &Id) -> Option<Report> {
        let info = self.stack.message_info(message_id(id))?;
        let (state, pieces) = match info.state {
            TransmissionProgress::Pending => (0, [0; 3]),
            TransmissionProgress::Sending { pending, sent, acked } => {
                (1, [pending as u64, sent as u64, acked as u64])
            }
            TransmissionProgress::Received => (2, [0; 3]),
            TransmissionProgress::Read => (3, [0; 3]),
            TransmissionProgress::Aborted => (4, [0; 3]),
        };
        Some(Report {
            to: octets(info.dst),
            state,
            pieces,
            created_s: info.created as u64,
            end_s: info.deadline as u64,
            length: info.msg_len as u64,
        })
    }

    fn take(&self) -> Said {
        let taken = self.stack.message(true, None).now_or_never().map(|m| Taken {
            id: id_bytes(&m.id),
            reply: m.is_reply,
            from: octets(m.src_ip),
            to: octets(m.dst_ip),
            topic: m.topic,
            data: m.data,
        });
        let number = if taken.is_none() { NONE_WHOLE } else { 0 };
        Said { number, taken, packets: self.run(), ..Said::default() }
    }
}

fn ip(address: &Address) -> IpAddr {
    Ipv6Addr::from(*address).into()
}

fn octets(ip: IpAddr) -> Address {
    match ip {
        IpAddr::V6(ip) => ip.octets(),
        IpAddr::V4(_) => unreachable!("only IPv6 addresses are handed in"),
    }
}

fn message_id(id: &Id) -> MessageId {
    MessageId::from_hex(faster_hex::hex_string(id).as_bytes()).expect("digits of eight bytes")
}

fn id_bytes(id: &MessageId) -> Id {
    let mut bytes = [0; 8];
    faster_hex::hex_decode(id.as_hex().as_bytes(), &mut bytes).expect("an id is sixteen digits");
    bytes
}
