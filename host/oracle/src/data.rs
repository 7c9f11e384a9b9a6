//! In place of the original's data plane and router: it keeps what is sent, and knows the keys that it is told.

use std::collections::BTreeSet;
use std::marker::PhantomData;
use std::mem;
use std::net::{IpAddr, Ipv6Addr};
use std::sync::{Arc, Mutex, MutexGuard};

use crate::call::Packet;
use crate::crypto::{PacketBuffer, PublicKey};

/// What the comparison shares with the data plane.
#[derive(Clone, Default)]
pub struct Wire(Arc<Mutex<Shared>>);

#[derive(Default)]
struct Shared {
    sent: Vec<Packet>,
    known: BTreeSet<[u8; 16]>,
}

impl Wire {
    fn lock(&self) -> MutexGuard<'_, Shared> {
        self.0.lock().expect("nobody panics while holding the wire")
    }

    /// The packets sent since the last call, oldest first.
    pub fn sent(&self) -> Vec<Packet> {
        mem::take(&mut self.lock().sent)
    }

    /// Sets the addresses whose key is known.
    pub fn know(&self, addresses: &BTreeSet<[u8; 16]>) {
        self.lock().known = addresses.clone();
    }
}

/// The original's way out.
pub struct DataPlane<M> {
    router: Router,
    metrics: PhantomData<M>,
}

impl<M> DataPlane<M> {
    /// A way out of the node with this key, onto this wire.
    pub fn new(key: [u8; 32], wire: Wire) -> Self {
        Self { router: Router { key: key.into(), wire }, metrics: PhantomData }
    }

    /// Keeps a packet.
    pub fn inject_message_packet(&self, from: Ipv6Addr, to: Ipv6Addr, packet: PacketBuffer) {
        self.router.wire.lock().sent.push(Packet {
            from: from.octets(),
            to: to.octets(),
            bytes: packet.to_vec(),
        });
    }

    /// Who knows keys.
    pub fn router(&self) -> &Router {
        &self.router
    }
}

/// The original's table of keys.
pub struct Router {
    key: PublicKey,
    wire: Wire,
}

impl Router {
    /// The node's own key.
    pub fn node_public_key(&self) -> PublicKey {
        self.key
    }

    /// A key for an address that is known; which one makes no difference to the messages.
    pub fn get_pubkey(&self, ip: IpAddr) -> Option<PublicKey> {
        match ip {
            IpAddr::V6(ip) if self.wire.lock().known.contains(&ip.octets()) => Some(self.key),
            _ => None,
        }
    }
}
