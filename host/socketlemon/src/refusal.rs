//! The refusals, with the words of the trade.

use std::fmt;

/// Why a call was refused. A refused call changed nothing.
///
/// `Display` gives the trade word; docs/PROTOCOL.md says when each is answered.
#[derive(Clone, Copy, Debug, PartialEq, Eq, Hash)]
pub enum Refusal {
    /// 1: the frame is not 1 to 1,400 bytes, or the key not 32.
    BadFrame,
    /// 2: an output buffer is too short.
    ShortOutput,
    /// 3: the rule book is malformed.
    BadRules,
    /// 4: the topic does not admit the source.
    ClosedTopic,
    /// 5: an init for an id that is whole.
    AlreadyWhole,
    /// 6: a length over 32,500.
    TooLong,
    /// 7: no record is free.
    NoRecord,
    /// 8: no record of the kind that is needed has this id.
    UnknownId,
    /// 9: offset and size go past the length.
    PastEnd,
    /// 10: the index is above top, the highest that is allowed.
    HighIndex,
    /// 11: a piece below 250 bytes whose index is not top and that does not end the message.
    ShortPiece,
    /// 12: too few cells are free.
    NoCell,
    /// 13: the done's count is not the number of slots.
    Count,
    /// 14: a piece is missing.
    Gap,
    /// 15: the sizes do not add up to the length.
    Total,
    /// 16: the BLAKE3 sum differs.
    Sum,
    /// 17: the source's key is not known.
    NoKey,
    /// 18: the record is not in the state that the packet needs.
    WrongState,
    /// 19: an acknowledged index is not below the number of pieces.
    NoSuchPiece,
    /// 20: no flag, or no kind of wake, fits.
    NoWork,
    /// 21: a topic over 255 bytes.
    TopicTooLarge,
    /// 22: the send store holds this id.
    IdInUse,
    /// 23: there is nothing to take.
    NoneWhole,
    /// 24: created and try time reach 2^64.
    Clock,
    /// 25: a store is not sound for its role, or cannot be made so.
    UnsoundStore,
    /// 26: the calendar is malformed. A [`Calendar`](crate::Calendar) never is.
    BadCalendar,
    /// 27: fewer bytes came than the packet needs.
    ShortFrame,
    /// 28: a piece needs a new cell while the source of its record holds 30.
    SourceFull,
    /// 29: a key of the keyed hash is not 32 bytes long, or an output is longer than 65,536.
    BadLengths,
    /// 30: a length of the program `cuts` is not a multiple of 250 from 250 to 3,000. No call answers it.
    NoCuts,
    /// 31: no list of so many sizes is kept and finished, or the message is longer than 32,500 bytes.
    NoPlan,
    /// A number that this crate has no name for. The library has none such; a newer one might.
    Other(u64),
}

/// Each refusal with its trade word; the first is number 1.
const TABLE: [(Refusal, &str); 31] = [
    (Refusal::BadFrame, "bad frame"),
    (Refusal::ShortOutput, "short output"),
    (Refusal::BadRules, "bad rules"),
    (Refusal::ClosedTopic, "closed topic"),
    (Refusal::AlreadyWhole, "already whole"),
    (Refusal::TooLong, "too long"),
    (Refusal::NoRecord, "no record"),
    (Refusal::UnknownId, "unknown id"),
    (Refusal::PastEnd, "past end"),
    (Refusal::HighIndex, "high index"),
    (Refusal::ShortPiece, "short piece"),
    (Refusal::NoCell, "no cell"),
    (Refusal::Count, "count"),
    (Refusal::Gap, "gap"),
    (Refusal::Total, "total"),
    (Refusal::Sum, "sum"),
    (Refusal::NoKey, "no key"),
    (Refusal::WrongState, "wrong state"),
    (Refusal::NoSuchPiece, "no such piece"),
    (Refusal::NoWork, "no work"),
    (Refusal::TopicTooLarge, "topic too large"),
    (Refusal::IdInUse, "id in use"),
    (Refusal::NoneWhole, "none whole"),
    (Refusal::Clock, "clock"),
    (Refusal::UnsoundStore, "unsound store"),
    (Refusal::BadCalendar, "bad calendar"),
    (Refusal::ShortFrame, "short frame"),
    (Refusal::SourceFull, "source full"),
    (Refusal::BadLengths, "bad lengths"),
    (Refusal::NoCuts, "no cuts"),
    (Refusal::NoPlan, "no plan"),
];

impl Refusal {
    /// The refusal of a number, or nothing for 0, which means done.
    pub fn from_number(number: u64) -> Option<Refusal> {
        let row = match number {
            0 => return None,
            n => usize::try_from(n - 1).ok().and_then(|row| TABLE.get(row)),
        };
        Some(row.map_or(Refusal::Other(number), |(refusal, _)| *refusal))
    }

    /// Its number, 1 to 31.
    pub fn number(self) -> u64 {
        match (self, self.row()) {
            (Refusal::Other(number), _) => number,
            (_, row) => row.map_or(0, |row| row as u64 + 1),
        }
    }

    fn row(self) -> Option<usize> {
        TABLE.iter().position(|(refusal, _)| *refusal == self)
    }
}

impl fmt::Display for Refusal {
    fn fmt(&self, f: &mut fmt::Formatter<'_>) -> fmt::Result {
        match self.row() {
            Some(row) => f.write_str(TABLE[row].1),
            None => write!(f, "refusal {}", self.number()),
        }
    }
}

impl std::error::Error for Refusal {}

#[cfg(test)]
mod tests {
    use super::*;

    /// The trade words of docs/PROTOCOL.md, copied from there and not from the code.
    const WORDS: [&str; 31] = [
        "bad frame",
        "short output",
        "bad rules",
        "closed topic",
        "already whole",
        "too long",
        "no record",
        "unknown id",
        "past end",
        "high index",
        "short piece",
        "no cell",
        "count",
        "gap",
        "total",
        "sum",
        "no key",
        "wrong state",
        "no such piece",
        "no work",
        "topic too large",
        "id in use",
        "none whole",
        "clock",
        "unsound store",
        "bad calendar",
        "short frame",
        "source full",
        "bad lengths",
        "no cuts",
        "no plan",
    ];

    #[test]
    fn each_number_has_the_word_of_the_paper() {
        for (n, word) in (1u64..).zip(WORDS) {
            let refusal = Refusal::from_number(n).expect("a refusal");
            assert_eq!(refusal.to_string(), word);
            assert_eq!(refusal.number(), n);
            assert!(!matches!(refusal, Refusal::Other(_)));
        }
    }

    #[test]
    fn zero_is_no_refusal() {
        assert_eq!(Refusal::from_number(0), None);
    }

    #[test]
    fn other_numbers_have_words_too() {
        for n in [32, 255, u64::MAX] {
            let refusal = Refusal::from_number(n).expect("a refusal");
            assert_eq!(refusal, Refusal::Other(n));
            assert_eq!(refusal.number(), n);
            assert_eq!(refusal.to_string(), format!("refusal {n}"));
        }
    }
}
