//! The tablets that wait for cells, first come, first served.

use socketlemon::{Address, Id};
use std::time::{Duration, Instant};

/// How many wait at most, and how many messages of one source. Others are told to wait all the same, and try again.
pub const MOST: usize = 64;
const MOST_OF_SOURCE: usize = 8;

/// How long a place is kept for a tablet that is not heard. One that waits calls every 100 ms.
const SILENCE: Duration = Duration::from_secs(5);

/// A message that an init announces.
#[derive(Clone, Copy, Debug, PartialEq, Eq)]
pub struct Asked {
    /// Who sends it.
    pub source: Address,
    /// Its id.
    pub id: Id,
    /// How many cells it needs, cut as a tablet cuts it.
    pub cells: usize,
}

/// The line, the first at the front.
#[derive(Clone, Debug, Default)]
pub struct Line(Vec<(Asked, Instant)>);

impl Line {
    /// Forgets those that have fallen silent.
    pub fn tidy(&mut self, now: Instant) {
        self.0.retain(|(_, heard)| now.saturating_duration_since(*heard) < SILENCE);
    }

    /// The place of a message, which joins the line where it is new; how many wait before it. Where the line is full it gets no place, and all are before it.
    pub fn place(&mut self, asked: Asked, now: Instant) -> usize {
        let same = |other: &Asked| (other.source, other.id) == (asked.source, asked.id);
        if let Some(place) = self.0.iter().position(|(other, _)| same(other)) {
            self.0[place] = (asked, now);
            return place;
        }
        let of_source = self.0.iter().filter(|(other, _)| other.source == asked.source).count();
        if self.0.len() < MOST && of_source < MOST_OF_SOURCE {
            self.0.push((asked, now));
            return self.0.len() - 1;
        }
        self.0.len()
    }

    /// The first that waits.
    pub fn first(&self) -> Option<Asked> {
        self.0.first().map(|(asked, _)| *asked)
    }

    /// Takes a message out of the line, and says whether it was there.
    pub fn leave(&mut self, source: Address, id: Id) -> bool {
        let before = self.0.len();
        self.0.retain(|(other, _)| (other.source, other.id) != (source, id));
        self.0.len() < before
    }
}

#[cfg(test)]
mod tests {
    use super::*;

    fn asked(source: u8, id: u8) -> Asked {
        Asked { source: Address([source; 16]), id: Id([id; 8]), cells: 25 }
    }

    #[test]
    fn who_comes_first_is_first_and_keeps_the_place() {
        let (mut line, now) = (Line::default(), Instant::now());
        for id in 0..3 {
            assert_eq!(line.place(asked(id, id), now), usize::from(id));
        }
        assert_eq!(line.place(asked(1, 1), now), 1);
        assert_eq!(line.first(), Some(asked(0, 0)));
        assert!(line.leave(Address([0; 16]), Id([0; 8])));
        assert!(!line.leave(Address([0; 16]), Id([0; 8])), "it has left already");
        assert_eq!((line.place(asked(1, 1), now), line.place(asked(0, 0), now)), (0, 2));
    }

    #[test]
    fn who_falls_silent_loses_the_place() {
        let (mut line, start) = (Line::default(), Instant::now());
        line.place(asked(1, 1), start);
        line.place(asked(2, 2), start);
        line.place(asked(2, 2), start + SILENCE / 2);
        line.tidy(start + SILENCE - Duration::from_millis(1));
        assert_eq!(line.first(), Some(asked(1, 1)));
        line.tidy(start + SILENCE);
        assert_eq!(line.first(), Some(asked(2, 2)));
        line.tidy(start + SILENCE * 2);
        assert_eq!(line.first(), None);
    }

    #[test]
    fn neither_the_line_nor_one_source_grows_without_end() {
        let (mut line, now) = (Line::default(), Instant::now());
        for id in 0..20 {
            assert_eq!(line.place(asked(1, id), now), usize::from(id).min(MOST_OF_SOURCE));
        }
        for source in 2..100 {
            line.place(asked(source, source), now);
        }
        assert_eq!(line.0.len(), MOST);
        assert_eq!(line.place(asked(200, 1), now), MOST);
        assert_eq!(line.0.len(), MOST);
    }
}
