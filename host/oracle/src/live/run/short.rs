//! Frames that are refused for their length: only the library gets them, and must do nothing else.

use super::{Difference, Run};
use crate::call::{Call, Got, Packet, Said};
use crate::frame;

impl Run<'_> {
    /// The number with which a frame is refused for its length alone.
    pub(super) fn refused_for_length(&mut self, call: &Call) -> Option<u64> {
        let Call::Packet(packet) = call else {
            return None;
        };
        self.coverage.frame(&packet.bytes);
        frame::refusal(&packet.bytes)
    }

    /// Hands the library a frame that the original never gets. It must answer with the number alone, and no byte
    /// of its stores may change.
    pub(super) fn hand_in_vain(&mut self, call: Call, number: u64) -> Result<Vec<Packet>, Difference> {
        let before = self.node.clone();
        let got = self.ask_library(&call);
        let is_kept = self.node == before;
        if is_kept && got == (Got { number, ..Got::default() }) {
            self.coverage.outside(format!("answered {number}"));
            return Ok(Vec::new());
        }
        let Call::Packet(packet) = &call else {
            unreachable!("only a frame has a length");
        };
        let why = format!(
            "of a frame {} bytes came, and the library answers {} for {number}, sends {} packets and {} its stores",
            packet.bytes.len(),
            got.number,
            got.packets.len(),
            if is_kept { "keeps" } else { "changes" },
        );
        Err(self.differ(call, Said { number, ..Said::default() }, why))
    }
}

#[cfg(test)]
mod tests {
    use super::*;
    use crate::call::{Id, Setup, MOST_CELLS};
    use crate::live::clock;
    use crate::live::coverage::Coverage;
    use crate::live::run::Step;

    const PEER: [u8; 16] = [9; 16];
    const ID: Id = [1; 8];

    /// Hands a frame to both sides, and gives the packets that answer it.
    fn hand(run: &mut Run<'_>, bytes: &[u8]) -> Vec<Packet> {
        let packet = Packet { from: PEER, to: [8; 16], bytes: bytes.to_vec() };
        run.step(Step::Call(Call::Packet(packet))).unwrap_or_else(|difference| panic!("{}", difference.why))
    }

    #[test]
    fn a_packet_is_compared_as_soon_as_enough_came() {
        let setup = Setup { key: [7; 32], recv_cells: MOST_CELLS, send_cells: MOST_CELLS };
        let mut coverage = Coverage::default();
        let mut run = Run::new(setup, 1_000_000, &mut coverage, None).unwrap_or_else(|d| panic!("{}", d.why));
        run.step(Step::Call(Call::Known([PEER].into()))).unwrap_or_else(|d| panic!("{}", d.why));
        let sum = blake3::hash(&[5; 300]);
        for packet in [
            frame::init(ID, 0, 300, b"ducts"),
            frame::chunk(ID, 0, 0, 0, 300, &[5; 300]),
            frame::done(ID, 0, 1, sum.as_bytes()),
        ] {
            let before = (run.node.clone(), run.entries.len());
            for length in 0..packet.len() {
                assert_eq!(hand(&mut run, &packet[..length]), [], "{length} bytes");
            }
            assert!(
                run.node == before.0 && run.entries.len() == before.1,
                "nothing has changed or was compared"
            );
            let behind = [&packet[..], &[0xff]].concat();
            assert_eq!(hand(&mut run, &behind).len(), 1, "an acknowledgement, on both sides");
            assert_eq!(run.entries.len(), before.1 + 1);
        }
        let taken = run.node.clone().call(&Call::Take).taken;
        assert_eq!(taken.map(|taken| taken.data), Some(vec![5; 300]));
        let outside = coverage.lines();
        assert!(outside.contains("not compared: answered 1: 3, answered 27: 411\n"), "{outside}");
        clock::release();
    }
}
