//! Send wakes by the comparison's own count of pieces: what the library must put out, also for ids that have
//! left, and where an id leaves because the original puts out more.

use super::{Difference, Run};
use crate::call::{Call, Got, Hours, Id, Packet, Said, Wake, WAKE_PIECES};
use crate::live::left::Listed;
use crate::live::sender::{brief, Wanting};

/// What is counted of send wakes by their pieces.
pub const STAYS: &str = "survey whose pieces leave with one wake, and that stays";
pub const EIGHT: &str = "send wake, exactly eight pieces";
pub const FULL: &str = "send wake of an id that has left, more than eight pieces to send";
pub const MIXED: &str = "send wake of an id that has left, new pieces and due ones";
pub const AGED: &str = "send wake of an id that has left, due pieces of several stamps";

impl Run<'_> {
    /// Wakes the library's sender of a message, or what a fault makes of it.
    pub(super) fn ask_to_wake(&mut self, kind: Wake, id: &Id, hours: &Hours) -> Got {
        let is_left = self.left.has(id);
        match (self.fault, self.tally.senders.get(id)) {
            (Some(fault), Some(sender)) if kind == Wake::Send => {
                let wanting = sender.wanting(self.clock);
                fault.wake(&wanting, is_left, || self.node.wake(kind, id, self.clock, hours))
            }
            _ => self.node.wake(kind, id, self.clock, hours),
        }
    }

    /// Whether an id leaves with its send wake at this time: more wants sending than the library sends.
    pub(super) fn leaves_at_wake(&self, id: &Id) -> bool {
        let Some(sender) = self.tally.senders.get(id) else {
            return false;
        };
        let wanting = sender.wanting(self.clock);
        self.fault.map_or(wanting.is_too_many(), |fault| fault.mislead_wake(&wanting))
    }

    /// The id of a send wake leaves the comparison, if the original has put out all that wants sending.
    /// That the library has put out the first eight is judged like any wake of an id that has left.
    pub(super) fn leave_at_wake(
        &mut self,
        id: Id,
        got: &Got,
        packets: Vec<Packet>,
    ) -> Result<(), Difference> {
        let (why, call) = (Listed::FullWake, Call::Wake(Wake::Send, id, self.clock));
        let sender = &self.tally.senders[&id];
        let count = sender.wanting(self.clock).count();
        if count <= WAKE_PIECES || packets != sender.all_by_index(self.clock) {
            let told = format!(
                "left out ({}), though {count} pieces want sending and the original sends {}",
                why.name(),
                brief(&packets)
            );
            return Err(self.differ(call, Said { packets, ..Said::default() }, told));
        }
        self.end.get_or_insert((self.entries.len(), why));
        self.left.add(id, why);
        self.coverage.left(why);
        self.keep_unjudged(call, got)
    }

    /// Judges what the library has put out for a wake by the comparison's own count, which goes on with it.
    pub(super) fn judge_wake(&mut self, call: &Call, got: &Got) -> Result<(), Difference> {
        let Call::Wake(kind, id, clock) = call else {
            return Ok(());
        };
        let Some(sender) = self.tally.senders.get_mut(id) else {
            return Ok(());
        };
        if *kind == Wake::Deadline {
            sender.gave_up();
            return Ok(());
        }
        let (wanting, packets) = (sender.wanting(*clock), sender.wake(*clock));
        if got.number == 0 && got.packets == packets {
            self.saw_wake(&wanting, self.left.has(id));
            return Ok(());
        }
        let why = format!(
            "of {} pieces that want sending the library sends {}, not {}",
            wanting.count(),
            brief(&got.packets),
            brief(&packets)
        );
        Err(self.differ(call.clone(), Said { packets, ..Said::default() }, why))
    }

    /// Notes which pieces wanted sending at a wake.
    fn saw_wake(&mut self, wanting: &Wanting, is_left: bool) {
        let seen = [
            (STAYS, !is_left && wanting.new > 0),
            (EIGHT, !is_left && wanting.count() == WAKE_PIECES),
            (FULL, is_left && wanting.is_too_many()),
            (MIXED, is_left && wanting.new > 0 && wanting.new < WAKE_PIECES.min(wanting.count())),
            (AGED, is_left && wanting.new < WAKE_PIECES && !wanting.one_stamp),
        ];
        seen.into_iter().filter(|(_, is_seen)| *is_seen).for_each(|(what, _)| self.coverage.saw(what));
    }
}
