//! Two sides, each with its stores and address, and packets that are made by hand.

use socketlemon::{Address, Answer, Arrival, Calendar, Id, Packet, Push, Refusal, Role, Rules, Store, Wake};

pub const ID: Id = Id(*b"house 12");

pub struct Side {
    pub receive: Store,
    pub send: Store,
    pub address: Address,
    pub rules: Rules,
    pub known: bool,
}

impl Side {
    pub fn new(key: u8, cells: usize) -> Side {
        Side {
            receive: Store::new(Role::Receive, cells).expect("a receive store"),
            send: Store::new(Role::Send, cells).expect("a send store"),
            address: Address::of_key(&[key; 32]).expect("an address"),
            rules: Rules::accept_unlisted(),
            known: true,
        }
    }

    /// Hands over a packet. Whatever it is, no piece is sent for it.
    pub fn packet<'r>(&mut self, packet: Packet<'_>, run: &'r mut [u8]) -> Result<Answer<'r>, Refusal> {
        let Packet { from, to, bytes: frame } = packet;
        let arrival = Arrival { frame, from, to, rules: &self.rules, known: self.known };
        let answer = self.receive.packet(&mut self.send, &arrival, run)?;
        assert_eq!(answer.run.pieces(), 0, "a packet is answered with a piece");
        Ok(answer)
    }
}

pub fn push<'a>(from: &Side, to: &Side, data: &'a [u8]) -> Push<'a> {
    Push {
        id: ID,
        reply: false,
        from: from.address,
        to: to.address,
        topic: b"survey",
        data,
        created_ms: 5_000,
        try_ms: 60_000,
    }
}

/// A send wake by a calendar, at a clock that started in 1970.
pub fn send_at(clock_ms: u64, calendar: &Calendar) -> Wake<'_> {
    Wake::Send { clock_ms, calendar, unix_ms: clock_ms }
}

/// A message in which each piece is different.
pub fn message(length: usize) -> Vec<u8> {
    (0..length).map(|i| (i * 31 + i / 251 + i / 1_300) as u8).collect()
}
