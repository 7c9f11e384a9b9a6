//! Pieces by the cells that their message's source holds: which of them were met, compared or at the limit.

use super::Run;
use crate::call::{Packet, MOST_OF_SOURCE};
use crate::live::left::New;

/// What is counted of pieces that both have kept.
pub const LAST_CELL: &str = "piece kept, the thirtieth cell of its source";
pub const AT_LIMIT: &str = "piece kept at a held index, its source with 30 cells";
pub const BESIDE_FULL: &str = "piece kept, another source with 30 cells";

/// What is counted of pieces with which an id leaves.
pub const WHOLE_COUNTED: &str = "id that leaves at 30 cells, some of whole messages";
pub const NONE_FREE: &str = "id that leaves at 30 cells, no cell free";
pub const OTHER_SENDER: &str = "id that leaves at 30 cells, the piece from another sender";

impl Run<'_> {
    /// Notes a packet that both have accepted, while the tally is as before it.
    pub(super) fn saw_kept(&mut self, packet: &Packet) {
        let Some(message) = self.tally.arriving.get(&packet.id()).filter(|_| packet.is_piece()) else {
            return;
        };
        let source = message.label.source;
        let (cells, is_new) = (self.tally.cells_from(&source), New::of(packet, &self.tally).is_some());
        self.saw_each([
            (LAST_CELL, is_new && cells + 1 == MOST_OF_SOURCE),
            (AT_LIMIT, !is_new && cells == MOST_OF_SOURCE),
            (BESIDE_FULL, is_new && self.tally.is_full_but_for(&source)),
        ]);
    }

    /// Notes a packet with which its id leaves for its source's cells, while the tally is as before it.
    pub(super) fn saw_refused(&mut self, packet: &Packet) {
        if let Some(piece) = New::of(packet, &self.tally) {
            self.saw_each([
                (WHOLE_COUNTED, piece.of_whole > 0),
                (NONE_FREE, !self.tally.has_free_cell()),
                (OTHER_SENDER, piece.is_of_other),
            ]);
        }
    }

    fn saw_each(&mut self, seen: [(&'static str, bool); 3]) {
        seen.into_iter().filter(|(_, is_seen)| *is_seen).for_each(|(what, _)| self.coverage.saw(what));
    }
}

#[cfg(test)]
mod tests {
    use super::*;
    use crate::call::{Address, Call, Id, Setup, MOST_CELLS};
    use crate::frame;
    use crate::live::clock;
    use crate::live::coverage::Coverage;
    use crate::live::left::Listed;
    use crate::live::run::Step;

    const FULL: Address = [9; 16];
    const OTHER: Address = [6; 16];

    fn hand(run: &mut Run<'_>, from: Address, bytes: Vec<u8>) -> usize {
        let packet = Packet { from, to: [8; 16], bytes };
        let step = Step::Call(Call::Packet(packet));
        run.step(step).unwrap_or_else(|difference| panic!("{}", difference.why)).len()
    }

    fn init(run: &mut Run<'_>, from: Address, id: Id, length: u64) {
        assert_eq!(hand(run, from, frame::init(id, 0, length, &[])), 1);
    }

    /// How many replies a piece of 250 bytes has.
    fn piece(run: &mut Run<'_>, from: Address, id: Id, index: u64) -> usize {
        hand(run, from, frame::chunk(id, 0, index, 0, 250, &[5; 250]))
    }

    /// Runs a test on both sides, where `[1; 8]` of the full source has so many pieces.
    fn with_pieces(count: u64, test: impl FnOnce(&mut Run<'_>)) -> String {
        let setup = Setup { key: [7; 32], recv_cells: MOST_CELLS, send_cells: 1 };
        let mut coverage = Coverage::default();
        let mut run = Run::new(setup, 1_000_000, &mut coverage, None).unwrap_or_else(|d| panic!("{}", d.why));
        run.step(Step::Call(Call::Known([FULL].into()))).unwrap_or_else(|d| panic!("{}", d.why));
        init(&mut run, FULL, [1; 8], 32_500);
        for index in 0..count {
            assert_eq!(piece(&mut run, FULL, [1; 8], index), 1);
        }
        test(&mut run);
        clock::release();
        coverage.lines()
    }

    #[test]
    fn an_id_leaves_at_a_piece_of_a_source_with_30_cells() {
        let lines = with_pieces(29, |run| {
            assert_eq!(piece(run, FULL, [1; 8], 29), 1, "the thirtieth is compared");
            assert_eq!(piece(run, FULL, [1; 8], 29), 1, "and so is a held index");
            init(run, OTHER, [2; 8], 32_500);
            assert_eq!(piece(run, FULL, [2; 8], 0), 1, "and another source's, whoever sends it");
            assert!(run.left.is_empty());
            let calls = run.entries.len();
            assert_eq!(piece(run, OTHER, [1; 8], 30), 0, "the library's answer goes on the link: none");
            assert!(run.left.has(&[1; 8]) && !run.left.has(&[2; 8]));
            assert_eq!(run.end, Some((calls, Listed::FullSource)));
            assert_eq!(run.tally.cells_from(&FULL), 30, "the tally follows the library");
            init(run, FULL, [3; 8], 32_500);
            assert_eq!(piece(run, FULL, [3; 8], 0), 0);
            assert!(run.left.has(&[3; 8]), "each id of the source leaves at its own piece");
            // what has left is aborted on both sides, and the source has cells again
            hand(run, FULL, frame::bare([1; 8], frame::ABORTED));
            init(run, FULL, [4; 8], 32_500);
            assert_eq!(piece(run, FULL, [4; 8], 0), 1);
            assert!(!run.left.has(&[4; 8]));
        });
        for what in [LAST_CELL, AT_LIMIT, BESIDE_FULL, OTHER_SENDER] {
            assert!(lines.contains(&format!("1  {what}\n")), "{what}: {lines}");
        }
        assert!(!lines.contains(WHOLE_COUNTED) && !lines.contains(NONE_FREE), "{lines}");
    }

    #[test]
    fn whole_messages_count_until_they_are_taken() {
        let lines = with_pieces(29, |run| {
            init(run, FULL, [2; 8], 250);
            assert_eq!(piece(run, FULL, [2; 8], 0), 1);
            let sum = blake3::hash(&[5; 250]);
            assert_eq!(hand(run, FULL, frame::done([2; 8], 0, 1, sum.as_bytes())), 1);
            init(run, FULL, [3; 8], 250);
            assert_eq!(piece(run, FULL, [3; 8], 0), 0);
            assert!(run.left.has(&[3; 8]));
            run.step(Step::Call(Call::Take)).unwrap_or_else(|d| panic!("{}", d.why));
            init(run, FULL, [4; 8], 250);
            assert_eq!(piece(run, FULL, [4; 8], 0), 1);
            assert!(!run.left.has(&[4; 8]));
        });
        assert!(lines.contains(&format!("1  {WHOLE_COUNTED}\n")), "{lines}");
    }

    #[test]
    fn it_leaves_at_28_where_no_cell_is_free_and_stays_at_12() {
        let lines = with_pieces(30, |run| {
            init(run, OTHER, [2; 8], 32_500);
            for index in 0..15 {
                assert_eq!(piece(run, OTHER, [2; 8], index), 1);
            }
            assert_eq!(piece(run, OTHER, [2; 8], 15), 0);
            assert!(!run.left.has(&[2; 8]), "12 is a refusal of the library alone");
            assert_eq!(piece(run, FULL, [1; 8], 30), 0);
            assert!(run.left.has(&[1; 8]));
        });
        assert!(lines.contains(&format!("1  {NONE_FREE}\n")), "{lines}");
        assert!(lines.contains("answered 12: 1, "), "{lines}");
    }

    /// The original refuses a short last piece, the library keeps it or is full.
    #[test]
    fn a_short_last_piece_of_a_full_source_is_refused_by_both() {
        with_pieces(30, |run| {
            assert_eq!(hand(run, FULL, frame::chunk([1; 8], 0, 30, 32_499, 1, &[5])), 0);
            assert_eq!(run.end.map(|(_, why)| why), Some(Listed::FullSource));
        });
        with_pieces(29, |run| {
            assert_eq!(hand(run, FULL, frame::chunk([1; 8], 0, 30, 32_499, 1, &[5])), 1);
            assert_eq!(run.end.map(|(_, why)| why), Some(Listed::ShortLastPiece));
        });
    }
}
