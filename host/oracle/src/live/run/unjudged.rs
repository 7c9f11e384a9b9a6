//! What is done for ids that have left the comparison.
//! Both sides get their packets. Nothing of them is compared; what the library's wakes put out is judged by
//! the comparison's own count of pieces.

use super::{of, Difference, Run};
use crate::call::{Call, Got, Hours, Id, Packet, Said, Taken, Wake, SOURCE_FULL};
use crate::frame;
use crate::judge::{judge, judge_count};
use crate::library::Node;
use crate::list::Entry;
use crate::live::left::Listed;
use crate::live::tally::{Due, LONGEST};
use crate::live::words;

/// Why a call of an id that has left is not compared.
const OF_LEFT: &str = "of an id that has left";

impl Run<'_> {
    /// The listed difference that treats a call otherwise than the original.
    pub(super) fn listed(&self, call: &Call) -> Option<Listed> {
        let Call::Packet(packet) = call else {
            return None;
        };
        let listed = Listed::of(packet, &self.tally);
        self.fault.map_or(listed, |fault| fault.mislead(packet, &self.tally, listed))
    }

    /// The id of a packet leaves the comparison, if the two have differed as it is listed.
    /// `before` is the library's node as it was before the packet.
    pub(super) fn leave(
        &mut self,
        why: Listed,
        packet: Packet,
        before: &Node,
        got: &Got,
        said: &Said,
    ) -> Result<(), Difference> {
        let (id, asked) = (packet.id(), why.asked(&packet));
        let otherwise = if judge(got, &asked).is_err() || !why.is_from(&packet, said) {
            Some(format!("the library answers {} and the original {}", got.number, said.number))
        } else if why.keeps_stores() && self.node != *before {
            Some("the library's stores have changed".to_string())
        } else {
            self.probe(why, &packet)
        };
        if why == Listed::FullSource {
            self.saw_refused(&packet);
        }
        let call = Call::Packet(packet);
        if let Some(otherwise) = otherwise {
            let why = format!("left out ({}), though {otherwise}", why.name());
            return Err(self.differ(call, asked, why));
        }
        self.end.get_or_insert((self.entries.len(), why));
        self.left.add(id, why);
        self.coverage.left(why);
        self.keep_unjudged(call, got)
    }

    /// What shows that the original has not done with a packet what the difference is from.
    fn probe(&self, why: Listed, packet: &Packet) -> Option<String> {
        why.probes(packet, &self.tally).into_iter().find_map(|(probe, number)| {
            let kind = frame::kind(probe.flags());
            let call = Call::Packet(probe.clone());
            let replies = self.original.call(&call).packets;
            let told = self.tally.number(&probe, &replies, words::last_refusal());
            (told != number).then(|| format!("the original then answers {told} to a {kind:?}, not {number}"))
        })
    }

    /// A call of an id that has left: a packet goes to both sides, any other call is left out.
    pub(super) fn call_of_left(&mut self, call: Call) -> Result<Vec<Packet>, Difference> {
        let Call::Packet(packet) = &call else {
            self.coverage.outside(OF_LEFT.to_string());
            return Ok(Vec::new());
        };
        let is_full = Listed::of(packet, &self.tally) == Some(Listed::FullSource);
        let asked = if is_full { Listed::FullSource.asked(packet) } else { Said::default() };
        let got = self.ask_library(&call);
        if (got.number == SOURCE_FULL) != is_full {
            let why = format!(
                "the library answers {}, where the source is {}full",
                got.number,
                if is_full { "" } else { "not " }
            );
            return Err(self.differ(call, asked, why));
        }
        let in_domain = !got.is_added_refusal() && !is_too_long(packet);
        let mut woken = if in_domain { self.original.call(&call).packets } else { Vec::new() };
        words::last_refusal();
        woken.retain(|packet| !self.left.has(&packet.id()));
        self.keep_unjudged(call, &got)?;
        let senders = self.senders(&woken)?;
        let (left, others): (Vec<Id>, Vec<Id>) = senders.into_iter().partition(|id| self.left.has(id));
        // Only the original says whether the others woke; it shows where one of them had something to send.
        if !woken.is_empty() {
            others.into_iter().try_for_each(|id| self.wake(Wake::Send, id, of(&woken, &id)))?;
        }
        if got.wake == 1 {
            left.into_iter().try_for_each(|id| self.wake_unjudged(Wake::Send, id))?;
        }
        Ok(woken)
    }

    /// Takes the messages of ids that have left out of the library, in front of a take that is compared.
    pub(super) fn throw_away_left(&mut self) -> Result<(), Difference> {
        while !self.left.is_empty() {
            let mut after = self.node.clone();
            let got = after.call(&Call::Take);
            if !self.is_of_left(&got.taken) {
                break;
            }
            self.node = after;
            self.keep_unjudged(Call::Take, &got)?;
        }
        Ok(())
    }

    /// Takes the oldest message from the original that is not of an id that has left.
    pub(super) fn take_from_original(&self) -> Said {
        loop {
            let said = self.original.call(&Call::Take);
            if !self.is_of_left(&said.taken) {
                return said;
            }
        }
    }

    fn is_of_left(&self, taken: &Option<Taken>) -> bool {
        taken.as_ref().is_some_and(|taken| self.left.has(&taken.id))
    }

    /// Wakes the library's sender of an id that has left, by the timers that are due.
    pub(super) fn timers_of_left(&mut self, id: Id, due: Due) -> Result<(), Difference> {
        if due.tick {
            self.wake_unjudged(Wake::Send, id)?;
        }
        (0..due.deadlines).try_for_each(|_| self.wake_unjudged(Wake::Deadline, id))
    }

    /// Wakes the library's sender of an id that has left.
    pub(super) fn wake_unjudged(&mut self, kind: Wake, id: Id) -> Result<(), Difference> {
        let got = self.ask_to_wake(kind, &id, &Hours::always());
        self.keep_unjudged(Call::Wake(kind, id, self.clock), &got)
    }

    /// Keeps a call of an id that has left in list and tally, with what the library itself answered.
    /// Only its pieces are judged: those of a wake, and how many it says they are.
    pub(super) fn keep_unjudged(&mut self, call: Call, got: &Got) -> Result<(), Difference> {
        let said = got.expected(&call);
        if let Err(why) = judge_count(got) {
            return Err(self.differ(call, said, why));
        }
        self.judge_wake(&call, got)?;
        self.coverage.outside(OF_LEFT.to_string());
        self.unjudged.extend(got.packets.iter().cloned());
        self.note(&call, &said);
        self.entries.push(Entry { call, said });
        Ok(())
    }
}

/// Whether a packet is an init of a length that the original is never asked to take.
fn is_too_long(packet: &Packet) -> bool {
    frame::is_init(packet.flags()) && frame::field(&packet.bytes, 0) > LONGEST
}

#[cfg(test)]
mod tests {
    use super::*;
    use crate::call::{Push, Setup, Woke, ACK, CLOSED_TOPIC, FRAME, GAP, MOST_CELLS};
    use crate::frame::Kind;
    use crate::list::List;
    use crate::live::clock;
    use crate::live::coverage::Coverage;
    use crate::live::run::Step;
    use crate::live::sender::brief;
    use crate::replay::replay;

    const START: u64 = 1_000_000;
    const PEER: [u8; 16] = [9; 16];
    /// An id that has left, and one that has not.
    const LEFT: Id = [1; 8];
    const OTHER: Id = [2; 8];

    /// Runs a test on both sides fresh. All calls that were made must then replay.
    /// Gives the list that is kept of them.
    fn with_run(test: impl FnOnce(&mut Run<'_>)) -> List {
        let setup = Setup { key: [7; 32], recv_cells: MOST_CELLS, send_cells: MOST_CELLS };
        let mut coverage = Coverage::default();
        let mut run = Run::new(setup, START, &mut coverage, None).unwrap_or_else(|d| panic!("{}", d.why));
        call(&mut run, Call::Known([PEER].into()));
        test(&mut run);
        let (setup, address, entries) = (run.setup.clone(), run.node.address(), run.entries.clone());
        let calls = entries.len();
        assert_eq!(replay(&List { setup, address, entries, end: None }), Ok(calls));
        clock::release();
        run.into_list()
    }

    fn step(run: &mut Run<'_>, step: Step) -> Vec<Packet> {
        run.step(step).unwrap_or_else(|difference| panic!("{}", difference.why))
    }

    fn call(run: &mut Run<'_>, call: Call) -> Vec<Packet> {
        step(run, Step::Call(call))
    }

    fn packet(mut bytes: Vec<u8>) -> Call {
        bytes.resize(FRAME, 0);
        Call::Packet(Packet { from: PEER, to: [8; 16], bytes })
    }

    fn push(id: Id) -> Call {
        push_of(id, 2)
    }

    /// A push of so many pieces.
    fn push_of(id: Id, pieces: usize) -> Call {
        let (topic, data) = (Vec::new(), vec![5; 1_300 * pieces]);
        Call::Push(Push { id, reply: false, to: PEER, topic, data, created: 1_000, try_ms: 1 })
    }

    /// Of how many pieces of a message the packets are.
    fn pieces(packets: &[Packet], id: Id) -> usize {
        packets.iter().filter(|p| p.id() == id && frame::kind(p.flags()) == Kind::Chunk).count()
    }

    #[test]
    fn a_list_ends_where_an_id_leaves() {
        let list = with_run(|run| {
            call(run, packet(frame::init(LEFT, 0, 1_301, &[])));
            let calls = run.entries.len();
            let acknowledged = call(run, packet(frame::chunk(LEFT, 0, 1, 1_300, 1, &[3])));
            assert_eq!(acknowledged.len(), 1, "the library's reply goes on the link");
            assert!(run.left.has(&LEFT) && run.tally.arriving[&LEFT].pieces.len() == 1);
            assert_eq!(run.end, Some((calls, Listed::ShortLastPiece)));
            call(run, packet(frame::chunk(LEFT, 0, 0, 0, 1_300, &[4; 1_300])));
            assert_eq!(run.entries.len(), calls + 2);
        });
        assert_eq!(list.entries.len(), 2);
        assert!(list.end.is_some_and(|why| why.ends_with("(C-11, a short last piece)")));
        let list = with_run(|run| drop(call(run, packet(frame::init(LEFT, 0, 1_301, &[])))));
        assert_eq!((list.entries.len(), list.end), (2, None));
    }

    #[test]
    fn an_id_leaves_at_a_wake_with_more_than_eight_pieces_to_send() {
        let acknowledged = || packet(frame::init(LEFT, ACK, 0, &[]));
        let list = with_run(|run| {
            call(run, push_of(LEFT, 9));
            let first = call(run, acknowledged());
            assert_eq!(brief(&first), "0 1 2 3 4 5 6 7", "the library's pieces go on the link");
            assert!(run.left.has(&LEFT));
            assert_eq!(run.end, Some((run.entries.len() - 1, Listed::FullWake)));
            // the original has sent all nine, and sends them all again with the next tick
            assert_eq!(brief(&step(run, Step::Clock(START + 50))), "");
            assert_eq!(brief(&step(run, Step::Clock(START + 100))), "8 0 1 2 3 4 5 6");
            assert_eq!(brief(&step(run, Step::Clock(START + 200))), "7 0 1 2 3 4 5 6");
            assert_eq!(
                brief(&call(run, packet(frame::chunk(LEFT, ACK, 7, 0, 0, &[])))),
                "8",
                "it wakes at once"
            );
            assert_eq!(brief(&step(run, Step::Clock(START + 300))), "0 1 2 3 4 5 6 8");
        });
        assert_eq!(list.entries.len(), 3, "known keys, a push and an acknowledgement");
        assert!(list
            .end
            .is_some_and(|why| why.ends_with("(C-15, a wake with more than eight pieces to send)")));
        let list = with_run(|run| {
            call(run, push_of(LEFT, 8));
            assert_eq!(pieces(&call(run, acknowledged()), LEFT), 8);
            assert_eq!(pieces(&step(run, Step::Clock(START + 100)), LEFT), 8);
            assert!(!run.left.has(&LEFT), "eight are compared");
        });
        assert_eq!((list.entries.len(), list.end), (5, None));
    }

    #[test]
    fn a_wake_of_what_has_left_is_judged_by_the_comparisons_own_count() {
        with_run(|run| {
            call(run, push_of(LEFT, 9));
            call(run, packet(frame::init(LEFT, ACK, 0, &[])));
            // the library alone is woken, and nobody is told
            run.node.call(&Call::Wake(Wake::Send, LEFT, START));
            let why = run.step(Step::Clock(START + 100)).err().map(|difference| difference.why);
            let told = "of 9 pieces that want sending the library sends 0 1 2 3 4 5 6 7, not 8 0 1 2 3 4 5 6";
            assert_eq!(why.as_deref(), Some(told));
            run.entries.clear();
        });
    }

    /// An init of 2,000 bytes, which has two slots.
    fn init() -> Call {
        packet(frame::init(LEFT, 0, 2_000, b"ducts"))
    }

    /// A piece of 250 bytes at an index.
    fn chunk(index: u64) -> Call {
        packet(frame::chunk(LEFT, 0, index, 0, 250, &[index as u8; 250]))
    }

    #[test]
    fn an_id_leaves_at_an_equal_init_and_the_library_keeps_its_pieces() {
        let list = with_run(|run| {
            call(run, init());
            call(run, init());
            assert!(!run.left.has(&LEFT), "there is nothing to lose yet");
            call(run, chunk(0));
            call(run, chunk(2));
            let calls = run.entries.len();
            assert_eq!(call(run, init()).len(), 1, "the library's reply goes on the link");
            assert!(run.left.has(&LEFT) && run.end == Some((calls, Listed::EqualInit)));
            let message = &run.tally.arriving[&LEFT];
            assert_eq!((message.pieces.len(), message.slots()), (2, 3));
            // the original has two slots and no pieces: only the library makes it whole
            call(run, packet(frame::chunk(LEFT, 0, 1, 0, 1_300, &[1; 1_300])));
            call(run, packet(frame::chunk(LEFT, 0, 2, 0, 450, &[2; 450])));
            let sum = blake3::hash(&[vec![0; 250], vec![1; 1_300], vec![2; 450]].concat());
            let done = call(run, packet(frame::done(LEFT, 0, 3, sum.as_bytes())));
            assert_eq!((done.len(), run.tally.whole[&LEFT].cells), (1, 3));
            assert_eq!(read(&call(run, Call::Take)), [LEFT], "it is thrown away");
        });
        assert_eq!(list.entries.len(), 5);
        assert!(list.end.is_some_and(|why| why.ends_with("(C-12, an equal init)")));
    }

    #[test]
    fn it_stays_where_the_init_is_refused() {
        with_run(|run| {
            call(run, init());
            call(run, chunk(0));
            call(run, Call::Rules(vec![1]));
            assert_eq!(call(run, init()), []);
            assert_eq!(run.entries.last().map(|entry| entry.said.number), Some(CLOSED_TOPIC));
            assert!(!run.left.has(&LEFT) && run.tally.arriving[&LEFT].pieces.len() == 1);
        });
    }

    #[test]
    fn it_stays_where_another_init_starts_the_message_again() {
        let Call::Packet(first) = init() else { unreachable!() };
        let change = |change: fn(&mut Packet)| {
            let mut other = first.clone();
            change(&mut other);
            other
        };
        for other in [
            change(|other| other.from[0] ^= 1),
            change(|other| other.to[0] ^= 1),
            change(|other| other.bytes[19] ^= 1),
            change(|other| other.bytes[20] -= 1),
            change(|other| other.bytes[8] ^= frame::REPLY),
        ] {
            with_run(|run| {
                call(run, init());
                call(run, chunk(0));
                call(run, chunk(2));
                assert_eq!(call(run, Call::Packet(other)).len(), 1);
                assert!(!run.left.has(&LEFT) && run.tally.arriving[&LEFT].pieces.is_empty());
                call(run, packet(frame::done(LEFT, 0, 2, &[0; 32])));
                assert_eq!(run.entries.last().map(|entry| entry.said.number), Some(GAP));
            });
        }
    }

    /// Whether the original is found not to have lost what it had: pieces at these indexes of a message of this length.
    fn found_to_keep(length: u64, indexes: &[u64], restarts: bool) -> bool {
        let mut found = false;
        with_run(|run| {
            let init = packet(frame::init(LEFT, 0, length, &[]));
            call(run, init.clone());
            for index in indexes {
                let size = length.min(250);
                call(run, packet(frame::chunk(LEFT, 0, *index, 0, size, &[7; 250][..size as usize])));
            }
            if restarts {
                original_alone(run, init.clone());
            }
            let Call::Packet(init) = init else { unreachable!() };
            found = run.probe(Listed::EqualInit, &init).is_some();
            // it holds what it held before, so that it is not found the next time either
            assert!(found || run.probe(Listed::EqualInit, &init).is_none());
        });
        found
    }

    #[test]
    fn an_original_that_kept_its_pieces_would_be_found() {
        for (length, indexes) in [
            (1, &[0][..]),
            (1_300, &[0]),
            (1_301, &[0]),
            (5_000, &[0, 1, 2, 3]),
            (5_000, &[3]),
            (5_000, &[1, 12]),
            (5_000, &[12]),
            (0, &[0]),
        ] {
            assert!(found_to_keep(length, indexes, false), "{length} bytes, pieces {indexes:?}");
            assert!(!found_to_keep(length, indexes, true), "{length} bytes, pieces {indexes:?}");
        }
        assert!(found_to_keep(5_000, &[], true), "there was nothing to lose");
    }

    /// A call that only the library gets.
    fn library_alone(run: &mut Run<'_>, call: Call) {
        let got = run.node.call(&call);
        run.keep_unjudged(call, &got).unwrap_or_else(|difference| panic!("{}", difference.why));
    }

    /// A call that only the original gets.
    fn original_alone(run: &mut Run<'_>, call: Call) {
        run.original.call(&call);
        words::last_refusal();
    }

    /// Both are pushed, one side alone hears that the init of `LEFT` arrived, then that a piece of it did.
    /// The pieces of `OTHER` are due then, between two ticks.
    /// Gives how many are sent then, and how many at the next tick.
    fn sent_after(alone: fn(&mut Run<'_>, Call)) -> [usize; 2] {
        let mut sent = [0; 2];
        with_run(|run| {
            call(run, push(LEFT));
            call(run, push(OTHER));
            run.left.add(LEFT, Listed::ShortLastPiece);
            alone(run, packet(frame::init(LEFT, ACK, 0, &[])));
            step(run, Step::Clock(START + 50));
            assert_eq!(pieces(&call(run, packet(frame::init(OTHER, ACK, 0, &[]))), OTHER), 2);
            step(run, Step::Clock(START + 100));
            step(run, Step::Clock(START + 150));
            let after = call(run, packet(frame::chunk(LEFT, ACK, 0, 0, 0, &[])));
            sent = [after, step(run, Step::Clock(START + 200))].map(|packets| pieces(&packets, OTHER));
        });
        sent
    }

    #[test]
    fn others_wake_where_only_the_original_says_so() {
        assert_eq!(sent_after(original_alone), [2, 0]);
    }

    #[test]
    fn others_sleep_on_where_only_the_library_says_so() {
        assert_eq!(sent_after(library_alone), [0, 2]);
    }

    #[test]
    fn the_original_may_send_what_it_likes_for_what_has_left() {
        with_run(|run| {
            run.left.add(LEFT, Listed::ShortLastPiece);
            original_alone(run, push(LEFT));
            assert_eq!(step(run, Step::Clock(START + 100)), []);
        });
    }

    /// The library's sender of `LEFT` would send its init, the original's has just sent its pieces.
    #[test]
    fn what_has_left_does_not_show_that_senders_slept_on() {
        with_run(|run| {
            call(run, push(LEFT));
            call(run, push(OTHER));
            run.left.add(LEFT, Listed::ShortLastPiece);
            original_alone(run, packet(frame::init(LEFT, ACK, 0, &[])));
            call(run, packet(frame::init(OTHER, ACK, 0, &[])));
            call(run, packet(frame::chunk(OTHER, ACK, 0, 0, 0, &[])));
            assert_eq!(
                run.entries.iter().filter_map(|entry| entry.said.woke).next_back(),
                Some(Woke::Unseen)
            );
        });
    }

    /// An init and a done of a message without bytes.
    fn whole(id: Id) -> [Call; 2] {
        let sum = blake3::hash(&[]);
        [packet(frame::init(id, 0, 0, &[])), packet(frame::done(id, 0, 0, sum.as_bytes()))]
    }

    /// The ids of the messages that the packets say were read.
    fn read(packets: &[Packet]) -> Vec<Id> {
        packets.iter().filter(|p| p.flags() == frame::READ).map(Packet::id).collect()
    }

    #[test]
    fn a_take_passes_over_what_has_left() {
        for alone in [library_alone, original_alone] {
            with_run(|run| {
                run.left.add(LEFT, Listed::ShortLastPiece);
                for packet in whole(LEFT) {
                    alone(run, packet);
                }
                for packet in whole(OTHER) {
                    call(run, packet);
                }
                let in_library = run.tally.whole.contains_key(&LEFT);
                let thrown_away = if in_library { vec![OTHER, LEFT] } else { vec![OTHER] };
                assert_eq!(read(&call(run, Call::Take)), thrown_away);
                assert!(run.tally.whole.is_empty());
                assert_eq!(call(run, Call::Take), [], "there is no more to take");
            });
        }
    }

    #[test]
    fn an_id_is_out_in_both_stores() {
        with_run(|run| {
            run.left.add(LEFT, Listed::ShortLastPiece);
            assert_eq!(call(run, push(LEFT)), []);
            assert!(run.tally.leaving.is_empty());
            assert_eq!(call(run, Call::Report(LEFT)), []);
            // what the original could not take: the library refuses it for another reason
            for packet in whole(LEFT) {
                library_alone(run, packet);
            }
            run.unjudged.clear();
            assert_eq!(call(run, packet(frame::init(LEFT, 0, u64::MAX, &[]))), []);
            assert_eq!(call(run, packet(frame::init(OTHER, 0, 9, &[]))).len(), 1);
        });
    }

    #[test]
    fn records_of_what_has_left_are_a_reason() {
        with_run(|run| {
            for id in 10..18 {
                run.left.add([id; 8], Listed::ShortLastPiece);
                library_alone(run, packet(frame::init([id; 8], 0, 9, &[])));
            }
            run.unjudged.clear();
            assert_eq!(call(run, packet(frame::init(OTHER, 0, 9, &[]))), [], "no record is free");
            library_alone(run, packet(frame::bare([10; 8], frame::ABORTED)));
            assert_eq!(call(run, packet(frame::init(OTHER, 0, 9, &[]))).len(), 1);
        });
    }
}
