//! Which arriving messages have gone silent. A tablet speaks every 100 ms until it gives up, and the packet that tells so can be lost: without this, such
//! messages would hold the store's records for ever.
//!
//! While the office runs it goes by a clock that never jumps. Over a restart it goes by the time of the day: a message that seems to have been heard in the
//! future, because that clock was put back, counts as heard now.

use socketlemon::Id;
use std::collections::BTreeMap;
use std::time::{Duration, Instant};

/// The bytes of a row: an id, and when it was last heard, in milliseconds since 1970.
pub const ROW: usize = 16;

/// When a message was last heard: at an instant of this run, or so long before it.
#[derive(Clone, Copy, Debug)]
struct Heard {
    at: Instant,
    before: Duration,
}

/// When each arriving message was last heard.
#[derive(Clone, Debug, Default)]
pub struct Silence(BTreeMap<Id, Heard>);

impl Silence {
    /// Notes that a message was heard.
    pub fn heard(&mut self, id: Id, now: Instant) {
        self.0.insert(id, Heard { at: now, before: Duration::ZERO });
    }

    /// Forgets all messages but the arriving ones. One that was never heard counts as heard now.
    pub fn keep(&mut self, arriving: &[Id], now: Instant) {
        self.0.retain(|id, _| arriving.contains(id));
        for id in arriving {
            self.0.entry(*id).or_insert(Heard { at: now, before: Duration::ZERO });
        }
    }

    /// For how long a message was silent.
    pub fn of(&self, id: Id, now: Instant) -> Duration {
        self.0.get(&id).map_or(Duration::ZERO, |heard| {
            now.saturating_duration_since(heard.at).saturating_add(heard.before)
        })
    }

    /// The rows of all messages, at a time of the day.
    pub fn to_bytes(&self, now: Instant, unix_ms: u64) -> Vec<u8> {
        let row = |id: &Id| {
            let silent = u64::try_from(self.of(*id, now).as_millis()).unwrap_or(u64::MAX);
            [id.0, unix_ms.saturating_sub(silent).to_be_bytes()].concat()
        };
        self.0.keys().flat_map(row).collect()
    }

    /// The messages of rows that were kept; nothing if they are none.
    pub fn from_bytes(bytes: &[u8], now: Instant, unix_ms: u64) -> Option<Silence> {
        let rows = bytes.chunks_exact(ROW);
        if !rows.remainder().is_empty() {
            return None;
        }
        let read = |row: &[u8]| {
            let (id, last) = row.split_at(ROW / 2);
            let (id, last) = (Id(id.try_into().ok()?), u64::from_be_bytes(last.try_into().ok()?));
            Some((id, Heard { at: now, before: Duration::from_millis(unix_ms.saturating_sub(last)) }))
        };
        rows.map(read).collect::<Option<_>>().map(Silence)
    }
}

#[cfg(test)]
mod tests {
    use super::*;

    const A: Id = Id([1; 8]);
    const B: Id = Id([2; 8]);

    fn seconds(seconds: u64) -> Duration {
        Duration::from_secs(seconds)
    }

    #[test]
    fn silence_counts_from_the_last_word() {
        let start = Instant::now();
        let mut silence = Silence::default();
        silence.heard(A, start);
        silence.keep(&[A, B], start + seconds(299));
        assert_eq!(silence.of(A, start + seconds(299)), seconds(299));
        assert_eq!(silence.of(B, start + seconds(300)), seconds(1), "it was new a second ago");
        silence.heard(B, start + seconds(300));
        silence.keep(&[B], start + seconds(301));
        silence.keep(&[A, B], start + seconds(600));
        assert_eq!(silence.of(A, start + seconds(600)), seconds(0), "it came again, and counts from then on");
        assert_eq!(silence.of(B, start + seconds(600)), seconds(300));
    }

    #[test]
    fn silence_goes_on_over_a_restart() {
        let start = Instant::now();
        let mut silence = Silence::default();
        silence.heard(A, start);
        silence.heard(B, start + seconds(90));
        let bytes = silence.to_bytes(start + seconds(100), 1_000_000);
        assert_eq!(bytes.len(), 2 * ROW);
        let again = |unix_ms| Silence::from_bytes(&bytes, start, unix_ms).expect("rows");
        assert_eq!(
            (again(1_050_000).of(A, start), again(1_050_000).of(B, start)),
            (seconds(150), seconds(60))
        );
        assert_eq!(again(1_050_000).of(A, start + seconds(5)), seconds(155));
        assert_eq!(again(500_000).of(A, start), seconds(0), "the clock was put back");
        assert!(Silence::from_bytes(&bytes[1..], start, 0).is_none());
    }
}
