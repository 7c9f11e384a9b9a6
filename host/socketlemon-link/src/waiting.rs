//! What an office has told a tablet that it does not take yet.

use std::time::{Duration, Instant};

/// How long a word of the office counts: one that has fallen silent is no longer waited for.
const COUNTS: Duration = Duration::from_secs(5);

/// A wait in the office's line.
#[derive(Clone, Debug, Default)]
pub struct Waiting {
    last: Option<(Instant, u16)>,
    waited: Duration,
}

impl Waiting {
    /// Notes that the office has told how many wait before this tablet.
    pub fn told(&mut self, before: u16, now: Instant) {
        if let Some((last, _)) = self.last {
            self.waited += now.saturating_duration_since(last).min(COUNTS);
        }
        self.last = Some((now, before));
    }

    /// Notes that the tablet is no longer in line.
    pub fn over(&mut self) {
        self.last = None;
    }

    /// How long the tablet was in line, as far as the office has told. The deadline does not run in that time.
    pub fn waited(&self) -> Duration {
        self.waited
    }

    /// What the user is told about it.
    pub fn words(&self) -> Option<String> {
        self.last.map(|(_, before)| match before {
            0 => "waiting for the office: next in line".to_owned(),
            before => format!("waiting for the office: {before} before us"),
        })
    }
}

#[cfg(test)]
mod tests {
    use super::*;

    #[test]
    fn only_the_time_in_line_counts() {
        let start = Instant::now();
        let at = |ms| start + Duration::from_millis(ms);
        let mut waiting = Waiting::default();
        assert_eq!(waiting.words(), None);
        waiting.told(3, at(0));
        assert_eq!(waiting.words().as_deref(), Some("waiting for the office: 3 before us"));
        waiting.told(0, at(1_000));
        assert_eq!(waiting.words().as_deref(), Some("waiting for the office: next in line"));
        assert_eq!(waiting.waited(), Duration::from_secs(1));
        waiting.told(0, at(60_000));
        assert_eq!(waiting.waited(), Duration::from_secs(1) + COUNTS, "the office was silent");
        waiting.over();
        waiting.told(1, at(90_000));
        assert_eq!(waiting.waited(), Duration::from_secs(1) + COUNTS, "it was not in line");
    }
}
