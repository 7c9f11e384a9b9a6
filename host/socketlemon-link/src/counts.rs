//! What was dropped or refused, counted by its reason.

use crate::datagram::Dropped;
use socketlemon::Refusal;
use std::collections::BTreeMap;
use std::fmt;

/// Counts by reason.
#[derive(Clone, Debug, Default, PartialEq, Eq)]
pub struct Counts {
    dropped: BTreeMap<Dropped, u64>,
    refused: BTreeMap<u64, u64>,
}

impl Counts {
    /// One more datagram that the library did not see.
    pub fn drop(&mut self, reason: Dropped) {
        *self.dropped.entry(reason).or_default() += 1;
    }

    /// One more packet that the library refused.
    pub fn refuse(&mut self, refusal: Refusal) {
        *self.refused.entry(refusal.number()).or_default() += 1;
    }
}

impl fmt::Display for Counts {
    fn fmt(&self, f: &mut fmt::Formatter<'_>) -> fmt::Result {
        let dropped: Vec<String> = self.dropped.iter().map(|(why, n)| format!("{n} {why}")).collect();
        let refused = self
            .refused
            .iter()
            .filter_map(|(number, n)| Refusal::from_number(*number).map(|refusal| format!("{n} {refusal}")));
        let row = |list: Vec<String>| if list.is_empty() { "none".to_owned() } else { list.join(", ") };
        write!(f, "dropped: {}; refused: {}", row(dropped), row(refused.collect()))
    }
}

#[cfg(test)]
mod tests {
    use super::*;

    #[test]
    fn counts_are_shown_by_reason() {
        let mut counts = Counts::default();
        assert_eq!(counts.to_string(), "dropped: none; refused: none");
        counts.drop(Dropped::TooLong);
        counts.drop(Dropped::TooShort);
        counts.drop(Dropped::TooLong);
        counts.refuse(Refusal::NoKey);
        assert_eq!(counts.to_string(), "dropped: 1 too short, 2 too long; refused: 1 no key");
    }
}
