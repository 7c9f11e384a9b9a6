//! Reports: how far a message is that is being sent.

use crate::record::field;
use crate::{Address, Refusal};

/// The bytes of a report.
pub(crate) const REPORT: usize = 44;

/// Where a message stands that is being sent.
#[derive(Clone, Copy, Debug, PartialEq, Eq, Hash)]
pub enum State {
    /// 0: the init is sent, and not acknowledged yet.
    Init,
    /// 1: pieces are being sent.
    InProgress,
    /// 2: the office has the whole message.
    Received,
    /// 3: the office has taken it.
    Read,
    /// 4: the deadline passed first.
    Aborted,
}

/// How far a message is.
#[derive(Clone, Copy, Debug, PartialEq, Eq)]
pub struct Report {
    /// The address that it goes to.
    pub destination: Address,
    /// Where it stands.
    pub state: State,
    /// Pieces that were not sent yet; this and the next two are 0 unless pieces are being sent.
    pub started: u8,
    /// Pieces that were sent, and not acknowledged yet.
    pub sent: u8,
    /// Pieces that were acknowledged.
    pub acked: u8,
    /// When it was pushed, in whole seconds.
    pub created_s: u64,
    /// When its try time ends, in whole seconds.
    pub end_s: u64,
    /// How many bytes it has.
    pub length: u64,
}

impl Report {
    /// Reads the library's report.
    pub(crate) fn read(bytes: &[u8; REPORT]) -> Result<Report, Refusal> {
        let state = match bytes[16] {
            0 => State::Init,
            1 => State::InProgress,
            2 => State::Received,
            3 => State::Read,
            4 => State::Aborted,
            // a sound store has no other
            _ => return Err(Refusal::UnsoundStore),
        };
        Ok(Report {
            destination: Address(field(bytes, 0)),
            state,
            started: bytes[17],
            sent: bytes[18],
            acked: bytes[19],
            created_s: u64::from_be_bytes(field(bytes, 20)),
            end_s: u64::from_be_bytes(field(bytes, 28)),
            length: u64::from_be_bytes(field(bytes, 36)),
        })
    }
}

#[cfg(test)]
mod tests {
    use super::*;

    #[test]
    fn a_report_is_read_at_its_places() {
        let mut bytes = [0; REPORT];
        bytes[..16].copy_from_slice(&[5; 16]);
        bytes[16..20].copy_from_slice(&[1, 2, 3, 4]);
        bytes[27] = 6;
        bytes[34..36].copy_from_slice(&[1, 0]);
        bytes[43] = 7;
        let report = Report {
            destination: Address([5; 16]),
            state: State::InProgress,
            started: 2,
            sent: 3,
            acked: 4,
            created_s: 6,
            end_s: 256,
            length: 7,
        };
        assert_eq!(Report::read(&bytes), Ok(report));
        bytes[16] = 5;
        assert_eq!(Report::read(&bytes), Err(Refusal::UnsoundStore));
    }
}
