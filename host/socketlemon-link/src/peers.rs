//! Where the sides that speak to the office were last heard.

use socketlemon::Address;
use std::collections::VecDeque;
use std::net::SocketAddr;

/// How many are remembered.
const MOST: usize = 64;

/// The sockets by address, the one heard last at the end.
#[derive(Clone, Debug, Default)]
pub struct Peers(VecDeque<(Address, SocketAddr)>);

impl Peers {
    /// Notes that an address was heard from a socket, and forgets the one not heard for longest if there are too many.
    pub fn heard(&mut self, address: Address, socket: SocketAddr) {
        self.0.retain(|(other, _)| *other != address);
        if self.0.len() == MOST {
            self.0.pop_front();
        }
        self.0.push_back((address, socket));
    }

    /// The socket of an address.
    pub fn socket(&self, address: Address) -> Option<SocketAddr> {
        self.0.iter().find(|(other, _)| *other == address).map(|(_, socket)| *socket)
    }
}

#[cfg(test)]
mod tests {
    use super::*;

    #[test]
    fn the_last_socket_counts_and_the_longest_silent_goes() {
        let socket = |port| SocketAddr::from(([0u16; 8], port));
        let mut peers = Peers::default();
        (0..MOST as u8).for_each(|n| peers.heard(Address([n; 16]), socket(1)));
        peers.heard(Address([0; 16]), socket(2));
        peers.heard(Address([200; 16]), socket(3));
        assert_eq!(peers.socket(Address([0; 16])), Some(socket(2)));
        assert_eq!(peers.socket(Address([1; 16])), None);
        assert_eq!(peers.socket(Address([2; 16])), Some(socket(1)));
        assert_eq!(peers.socket(Address([200; 16])), Some(socket(3)));
    }
}
