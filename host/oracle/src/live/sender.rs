//! What a send wake puts out for a message, by the comparison's own count of its pieces.
//! It goes by document 02, at most eight a wake, and shares nothing with the library.
//! It holds for ids that are compared, and goes on for those that have left.

use crate::call::{Address, Packet, Push, ACK, WAKE_PIECES};
use crate::frame::{self, Kind};

/// A piece that was sent is due again after so many milliseconds.
const DUE: u64 = 100;
const CUT: usize = 1300;

/// How far a piece is. Those that come first are sent first: Started, then the oldest stamp.
#[derive(Clone, Copy, Debug, PartialEq, Eq, PartialOrd, Ord)]
enum Piece {
    Started,
    Sent(u64),
    Acked,
}

/// How far a message is.
#[derive(Clone, Copy, Debug, PartialEq, Eq)]
enum State {
    Init,
    InProgress,
    /// Received, read or given up: nothing more is sent.
    Ended,
}

/// A message that leaves, with its pieces by index.
#[derive(Clone)]
pub struct Sender {
    from: Address,
    push: Push,
    state: State,
    pieces: Vec<Piece>,
}

/// The pieces that want sending at a wake, in the order of sending.
#[derive(Clone, Debug, PartialEq, Eq)]
pub struct Wanting {
    indexes: Vec<usize>,
    /// How many of them were never sent: those go first.
    pub new: usize,
    /// Whether the others have one stamp.
    pub one_stamp: bool,
}

impl Wanting {
    /// How many they are.
    pub fn count(&self) -> usize {
        self.indexes.len()
    }

    /// Whether there are more than a wake sends.
    pub fn is_too_many(&self) -> bool {
        self.count() > WAKE_PIECES
    }
}

impl Sender {
    /// A message that was pushed at a node with this address.
    pub fn new(push: &Push, from: Address) -> Self {
        let pieces = vec![Piece::Started; push.data.len().div_ceil(CUT)];
        Self { from, push: push.clone(), state: State::Init, pieces }
    }

    /// A packet that was accepted for it: what it acknowledges.
    pub fn acknowledged(&mut self, packet: &Packet) {
        match (frame::kind(packet.flags()), packet.flags() & ACK != 0) {
            (Kind::Init, true) => self.state = State::InProgress,
            (Kind::Chunk, true) => self.pieces[frame::field(&packet.bytes, 0) as usize] = Piece::Acked,
            (Kind::Done, true) | (Kind::Read, false) => self.state = State::Ended,
            _ => {}
        }
    }

    /// A deadline has passed.
    pub fn gave_up(&mut self) {
        self.state = State::Ended;
    }

    /// The pieces that want sending.
    pub fn wanting(&self, clock: u64) -> Wanting {
        let wants = |piece: Piece| match piece {
            Piece::Started => true,
            Piece::Sent(stamp) => clock.checked_sub(stamp).is_some_and(|age| age >= DUE),
            Piece::Acked => false,
        };
        let all = self.pieces.iter().copied().zip(0..);
        let mut order: Vec<(Piece, usize)> =
            all.filter(|(piece, _)| self.state == State::InProgress && wants(*piece)).collect();
        order.sort_unstable();
        let new = order.iter().filter(|(piece, _)| *piece == Piece::Started).count();
        Wanting {
            new,
            one_stamp: order[new..].windows(2).all(|pair| pair[0].0 == pair[1].0),
            indexes: order.iter().map(|(_, index)| *index).collect(),
        }
    }

    /// What a send wake within hours must put out. The pieces among it are stamped.
    pub fn wake(&mut self, clock: u64) -> Vec<Packet> {
        let mut indexes = self.wanting(clock).indexes;
        indexes.truncate(WAKE_PIECES);
        indexes.iter().for_each(|index| self.pieces[*index] = Piece::Sent(clock));
        let Push { id, reply, topic, data, .. } = &self.push;
        let all_acked = self.pieces.iter().all(|piece| *piece == Piece::Acked);
        match self.state {
            State::Init => {
                let flags = if *reply { frame::REPLY } else { 0 };
                vec![self.packet(frame::init(*id, flags, data.len() as u64, topic))]
            }
            State::InProgress if all_acked => {
                let sum = blake3::hash(data);
                vec![self.packet(frame::done(*id, 0, self.pieces.len() as u64, sum.as_bytes()))]
            }
            _ => self.chunks(&indexes),
        }
    }

    /// The pieces that want sending as the original sends them: all, by index.
    pub fn all_by_index(&self, clock: u64) -> Vec<Packet> {
        let mut indexes = self.wanting(clock).indexes;
        indexes.sort_unstable();
        self.chunks(&indexes)
    }

    fn chunks(&self, indexes: &[usize]) -> Vec<Packet> {
        let chunk = |index: &usize| {
            let offset = CUT * index;
            let data = &self.push.data[offset..self.push.data.len().min(offset + CUT)];
            let [index, offset, size] = [*index, offset, data.len()].map(|number| number as u64);
            self.packet(frame::chunk(self.push.id, 0, index, offset, size, data))
        };
        indexes.iter().map(chunk).collect()
    }

    fn packet(&self, bytes: Vec<u8>) -> Packet {
        Packet { from: self.from, to: self.push.to, bytes }
    }
}

/// The indexes of the pieces among packets, with a sign for what is no piece.
pub fn brief(packets: &[Packet]) -> String {
    let word = |packet: &Packet| match packet.is_piece() {
        true => frame::field(&packet.bytes, 0).to_string(),
        false => format!("{:?}", frame::kind(packet.flags())),
    };
    packets.iter().map(word).collect::<Vec<_>>().join(" ")
}

#[cfg(test)]
mod tests {
    use super::*;
    use crate::call::Id;

    const ID: Id = [1; 8];

    /// A message of so many pieces, whose init is acknowledged.
    fn announced(pieces: usize) -> Sender {
        let data = (0..1_300 * pieces).map(|at| (at / 100) as u8).collect();
        let push = Push { id: ID, reply: true, to: [2; 16], topic: vec![], data, created: 0, try_ms: 0 };
        let mut sender = Sender::new(&push, [3; 16]);
        assert_eq!(brief(&sender.wake(0)), "Init");
        sender.acknowledged(&packet(frame::init(ID, ACK, 0, &[])));
        sender
    }

    fn packet(bytes: Vec<u8>) -> Packet {
        Packet { from: [2; 16], to: [3; 16], bytes }
    }

    fn piece(sender: &mut Sender, index: u64) {
        sender.acknowledged(&packet(frame::chunk(ID, ACK, index, 0, 0, &[])));
    }

    #[test]
    fn eight_leave_at_once_in_the_papers_order() {
        let mut sender = announced(10);
        assert_eq!(brief(&sender.wake(1_000)), "0 1 2 3 4 5 6 7");
        assert_eq!(brief(&sender.wake(1_100)), "8 9 0 1 2 3 4 5");
        assert_eq!(brief(&sender.wake(1_150)), "6 7");
        assert_eq!(brief(&sender.wake(1_199)), "");
        assert_eq!(brief(&sender.wake(1_200)), "0 1 2 3 4 5 8 9");
        assert_eq!(brief(&sender.wake(1_600)), "6 7 0 1 2 3 4 5");
        assert_eq!(brief(&sender.all_by_index(1_699)), "8 9");
        assert_eq!(brief(&sender.all_by_index(1_700)), "0 1 2 3 4 5 6 7 8 9");
        assert_eq!(brief(&sender.wake(0)), "", "the clock has gone back");
        piece(&mut sender, 0);
        assert_eq!(brief(&sender.wake(u64::MAX)), "8 9 1 2 3 4 5 6");
        assert_eq!(brief(&sender.wake(u64::MAX)), "7");
    }

    #[test]
    fn packets_are_as_they_travel() {
        let mut sender = announced(2);
        let sent = sender.wake(0);
        assert!(sent.iter().all(|packet| (packet.from, packet.to) == ([3; 16], [2; 16])));
        assert_eq!(sent[1].bytes, frame::chunk(ID, 0, 1, 1_300, 1_300, &sender.push.data[1_300..]));
        piece(&mut sender, 1);
        assert_eq!(sender.wake(50), []);
        piece(&mut sender, 0);
        let sum = blake3::hash(&sender.push.data);
        assert_eq!(
            sender.wake(50),
            [Packet { bytes: frame::done(ID, 0, 2, sum.as_bytes()), ..sent[0].clone() }]
        );
        sender.acknowledged(&packet(frame::done(ID, ACK, 0, &[0; 32])));
        assert_eq!(sender.wake(5_000), []);
        let mut late = announced(1);
        late.gave_up();
        assert_eq!((late.wake(0), late.wanting(0).count()), (vec![], 0));
    }

    #[test]
    fn what_wants_sending_is_told_apart() {
        let mut sender = announced(9);
        let told = |sender: &Sender, clock| {
            let Wanting { new, one_stamp, .. } = sender.wanting(clock);
            (sender.wanting(clock).count(), new, one_stamp)
        };
        assert_eq!(told(&sender, 0), (9, 9, true));
        assert!(sender.wanting(0).is_too_many());
        sender.wake(0);
        assert_eq!(told(&sender, 99), (1, 1, true));
        assert_eq!(told(&sender, 100), (9, 1, true));
        sender.wake(50);
        assert_eq!(told(&sender, 149), (8, 0, true));
        assert_eq!(told(&sender, 150), (9, 0, false));
        piece(&mut sender, 3);
        assert!(!sender.wanting(150).is_too_many());
    }
}
