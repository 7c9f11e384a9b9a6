//! What the user is told where a survey does not arrive.

use super::{Send, Tablet};
use crate::counts::Counts;
use crate::failure::Failure;
use socketlemon::{Report, State};

impl Tablet<'_> {
    /// Why the survey did not arrive, as far as the tablet can tell.
    pub(super) fn why_not(&self, report: &Report) -> Failure {
        let Send { to, topic, deadline, .. } = self.told;
        let seconds = deadline.as_secs_f64();
        let all = self.pieces();
        let mut words = match report.state {
            _ if !self.was_open => {
                format!("the hours did not open within {seconds} s, so nothing of the survey was sent")
            }
            _ if self.is_stranger => {
                format!("the office did not know the key of {} within {seconds} s", self.own)
            }
            State::Init if self.waiting.words().is_some() => format!(
                "the office had no room for the survey within {seconds} s beside {:.0} s in its line",
                self.waiting.waited().as_secs_f64()
            ),
            State::Init => format!(
                "nobody answered at {to} within {seconds} s: is the office there, is {} its address, and does it take the topic {topic:?} from {}?",
                self.told.office, self.own
            ),
            _ if usize::from(report.acked) == all => format!(
                "the office acknowledged all {all} pieces, but sent no receipt within {seconds} s: does it know the key of {}? \
                 The survey may have arrived all the same",
                self.own
            ),
            _ => format!("the office stopped answering: {} of {all} pieces were acknowledged within {seconds} s", report.acked),
        };
        if self.was_open && self.open.is_none() {
            words.push_str(" (the hours had closed)");
        }
        if let Some(trouble) = self.port.trouble() {
            words.push_str(&format!(" (the last datagram could not be sent: {trouble})"));
        }
        if self.counts != Counts::default() {
            words.push_str(&format!(" ({})", self.counts));
        }
        Failure::new(words)
    }
}
