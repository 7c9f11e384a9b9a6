//! The office's packet calls.

use crate::datagram::Arrived;
use crate::failure::Failure;
use crate::keys::Known;
use socketlemon::{Arrival, Kind, Refusal, Role, Rules, Store, PACKET_RUN};

/// What a packet call asks for beside the receive store.
#[derive(Debug)]
pub struct Calls {
    rules: Rules,
    /// The office sends nothing of its own; a packet call asks for a send store all the same.
    nothing_to_send: Store,
    /// An empty store, whose copies tell whether the library would take an init at all.
    empty: Store,
}

impl Calls {
    /// The calls of an office that takes these topics.
    pub fn new(rules: Rules) -> Result<Calls, Failure> {
        let store = |role| {
            Store::new(role, 1).map_err(|refusal| Failure::new(format!("cannot make a store: {refusal}")))
        };
        Ok(Calls { rules, nothing_to_send: store(Role::Send)?, empty: store(Role::Receive)? })
    }

    /// The library's answer to a packet: how much of the run was written.
    pub fn packet(
        &mut self,
        store: &mut Store,
        known: &Known,
        arrived: &Arrived,
        run: &mut [u8],
    ) -> Result<usize, Refusal> {
        let id = arrived.id();
        let record = store.records().find(|record| record.kind == Kind::Arriving && Some(record.id) == id);
        let known = record.map_or(false, |record| known.has(record.source));
        let Arrived { frame, from, to } = arrived;
        let arrival = Arrival { frame, from: *from, to: *to, rules: &self.rules, known };
        Ok(store.packet(&mut self.nothing_to_send, &arrival, run)?.run.as_bytes().len())
    }

    /// Why the library would refuse a packet on an empty store.
    pub fn on_empty(&mut self, known: &Known, arrived: &Arrived) -> Result<(), Refusal> {
        let mut copy = self.empty.clone();
        self.packet(&mut copy, known, arrived, &mut [0; PACKET_RUN]).map(|_| ())
    }
}
