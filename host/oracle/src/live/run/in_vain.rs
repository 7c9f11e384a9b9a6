//! Wakes outside hours: only the library is woken, and must do nothing.

use super::{Difference, Run};
use crate::call::{Call, Got, Hours, Id, Said, Wake, BAD_CALENDAR};
use crate::live::fault::Fault;
use crate::live::hours::{says, Says};

/// What is counted of send wakes, beside what they send.
pub const BY_HOURS: &str = "send wake within hours that are not all";
pub const OUTSIDE: &str = "send wake outside hours";
pub const KEPT_BACK: &str = "send wake outside hours, with something to send";
pub const MALFORMED: &str = "send wake with a bad calendar";

impl Run<'_> {
    /// The hours of a wake that is compared, and whether the library was woken outside hours before it.
    /// A deadline wake may have any. A send wake is within its hours: with those that are drawn before it and
    /// are not open, the library is woken in vain, and the original not at all.
    pub(super) fn draw_hours(&mut self, kind: Wake, id: Id) -> Result<(Hours, bool), Difference> {
        let mut was_shut = false;
        loop {
            let hours = self.hours.next();
            match says(&hours) {
                _ if kind == Wake::Deadline => return Ok((hours, false)),
                Says::Open => {
                    if hours.calendar != Hours::always().calendar {
                        self.coverage.saw(BY_HOURS);
                    }
                    return Ok((self.told(hours), was_shut));
                }
                Says::Shut => {
                    self.coverage.saw(OUTSIDE);
                    was_shut = true;
                    self.wake_in_vain(id, hours, 0)?;
                }
                Says::Malformed => {
                    self.coverage.saw(MALFORMED);
                    self.wake_in_vain(id, hours, BAD_CALENDAR)?;
                }
            }
        }
    }

    /// Wakes the library's sender of a message with hours that are not open. It must answer with the number alone,
    /// and no byte of its store may change.
    fn wake_in_vain(&mut self, id: Id, hours: Hours, number: u64) -> Result<(), Difference> {
        let before = self.node.send_store().to_vec();
        let told = self.told(hours.clone());
        let mut got = self.node.wake(Wake::Send, &id, self.clock, &told);
        if self.fault == Some(Fault::Stamp) {
            got.packets.clear();
        }
        let is_kept = self.node.send_store() == before;
        if is_kept && got == (Got { number, ..Got::default() }) {
            return Ok(());
        }
        let why = format!(
            "woken in vain, the library answers {} for {number}, sends {} packets and {} its store; at {} by the calendar {:?}",
            got.number,
            got.packets.len(),
            if is_kept { "keeps" } else { "changes" },
            hours.unix_ms,
            hours.calendar
        );
        let asked = Said { number, ..Said::default() };
        Err(self.differ(Call::Wake(Wake::Send, id, self.clock), asked, why))
    }

    /// The hours that the library is told, or what a fault makes of them.
    fn told(&self, hours: Hours) -> Hours {
        self.fault.map_or(hours.clone(), |fault| fault.hours(hours))
    }
}
