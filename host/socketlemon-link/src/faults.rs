//! A bad link: datagrams are lost, repeated and reordered, as a seed says.

use crate::random::Seeded;

/// How bad the link is, each a probability for one datagram.
#[derive(Clone, Copy, Debug, PartialEq)]
pub struct Odds {
    /// It is lost.
    pub lose: f64,
    /// It goes out twice.
    pub repeat: f64,
    /// It goes out after the next one.
    pub reorder: f64,
    /// What the outcomes follow from.
    pub seed: u64,
}

impl Odds {
    /// A link without faults.
    pub const GOOD: Odds = Odds { lose: 0.0, repeat: 0.0, reorder: 0.0, seed: 0 };
}

/// What goes through a bad link. The same items in the same order and the same odds give the same outcome.
#[derive(Debug)]
pub struct Faults<T> {
    odds: Odds,
    random: Seeded,
    held: Option<T>,
}

impl<T: Clone> Faults<T> {
    /// A link with these odds.
    pub fn new(odds: Odds) -> Faults<T> {
        Faults { odds, random: Seeded::new(odds.seed), held: None }
    }

    /// What leaves the link when an item enters.
    pub fn pass(&mut self, item: T) -> Vec<T> {
        // always three draws, so that one outcome does not move the others
        let lost = self.random.chance(self.odds.lose);
        let repeated = self.random.chance(self.odds.repeat);
        let late = self.random.chance(self.odds.reorder);
        if lost {
            return Vec::new();
        }
        let mut out = Vec::new();
        if repeated {
            out.push(item.clone());
        }
        if late && self.held.is_none() {
            self.held = Some(item);
        } else {
            out.push(item);
            out.extend(self.held.take());
        }
        out
    }

    /// The item that waits for a next one, when there is none for a while.
    pub fn release(&mut self) -> Option<T> {
        self.held.take()
    }
}

#[cfg(test)]
mod tests {
    use super::*;

    fn through(odds: Odds, items: u32) -> Vec<u32> {
        let mut faults = Faults::new(odds);
        let mut out: Vec<u32> = (0..items).flat_map(|item| faults.pass(item)).collect();
        out.extend(faults.release());
        assert_eq!(faults.release(), None);
        out
    }

    #[test]
    fn a_good_link_changes_nothing() {
        assert_eq!(through(Odds::GOOD, 1_000), (0..1_000).collect::<Vec<_>>());
    }

    #[test]
    fn the_seed_decides() {
        let odds = |seed| Odds { lose: 0.2, repeat: 0.2, reorder: 0.2, seed };
        for seed in [0, 1, 2, u64::MAX] {
            assert_eq!(through(odds(seed), 1_000), through(odds(seed), 1_000));
        }
        assert_ne!(through(odds(1), 1_000), through(odds(2), 1_000));
        assert_ne!(through(odds(0), 1_000), through(odds(1), 1_000));
    }

    #[test]
    fn each_fault_comes_as_often_as_its_odds_say() {
        let lost = 10_000 - through(Odds { lose: 0.3, seed: 7, ..Odds::GOOD }, 10_000).len();
        assert!((2_700..3_300).contains(&lost), "{lost} of 10,000 lost");
        let repeated = through(Odds { repeat: 0.3, seed: 7, ..Odds::GOOD }, 10_000).len() - 10_000;
        assert!((2_700..3_300).contains(&repeated), "{repeated} of 10,000 repeated");
        let out = through(Odds { reorder: 0.3, seed: 7, ..Odds::GOOD }, 10_000);
        let late = out.windows(2).filter(|pair| pair[0] > pair[1]).count();
        assert!((2_000..3_300).contains(&late), "{late} of 10,000 late");
        let mut sorted = out;
        sorted.sort_unstable();
        assert_eq!(sorted, (0..10_000).collect::<Vec<_>>(), "reordering loses and repeats nothing");
    }

    #[test]
    fn certain_loss_and_certain_repeats() {
        assert_eq!(through(Odds { lose: 1.0, ..Odds::GOOD }, 100), []);
        assert_eq!(through(Odds { repeat: 1.0, ..Odds::GOOD }, 3), [0, 0, 1, 1, 2, 2]);
        assert_eq!(through(Odds { reorder: 1.0, ..Odds::GOOD }, 4), [1, 0, 3, 2]);
    }
}
