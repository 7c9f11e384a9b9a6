//! Plans: the sizes of a message's pieces, for a sender that has a given number of radio slots.

use crate::{ffi, Refusal, Store};

/// The bytes of a size, and of the sizes of as many pieces as there can be.
const SIZE: usize = 2;
const ROOM: usize = SIZE * Store::MOST_OF_SOURCE;

/// The sizes of so many pieces for a message of `length` bytes.
///
/// Where the topic is open and the source's key known, a fresh receive store of 45 cells keeps pieces of
/// these sizes at the indices from 0 on, each from where the one before it ends, and finishes the message by a
/// done with that number as count. A size is 0 to [`LARGEST_PIECE`](crate::LARGEST_PIECE).
/// Of all such lists it is the one with the greatest first size, of these the one with the greatest second,
/// and so on. Where there is none it is [`Refusal::NoPlan`], and so it is for a message of more than
/// [`MOST_BYTES`](crate::MOST_BYTES).
///
/// ```
/// use socketlemon::{plan, Refusal};
/// assert_eq!(plan(3_000, 4)?, [1_364, 1_364, 272, 0]);
/// assert_eq!(plan(3_000, 2), Err(Refusal::NoPlan)); // 3 at least: a piece for each 1,300 bytes
/// assert_eq!(plan(3_000, 13), Err(Refusal::NoPlan)); // 12 at most: one for each 250; never over 30
/// # Ok::<(), Refusal>(())
/// ```
pub fn plan(length: u64, pieces: u64) -> Result<Vec<u16>, Refusal> {
    let mut out = [0; ROOM];
    let answer = ffi::plan(length, pieces, &mut out);
    if let Some(refusal) = Refusal::from_number(answer.number) {
        return Err(refusal);
    }
    let written = usize::try_from(answer.run).unwrap_or(usize::MAX).min(ROOM);
    Ok(out[..written].chunks_exact(SIZE).map(|size| u16::from_be_bytes([size[0], size[1]])).collect())
}

#[cfg(test)]
mod tests {
    use super::*;
    use crate::ffi::Answer;

    /// What the library answers with a buffer of so many bytes, and the buffer, in which every byte was 0xee.
    fn planned(length: u64, pieces: u64, room: usize) -> (Answer, Vec<u8>) {
        let mut out = vec![0xee; room];
        let answer = ffi::plan(length, pieces, &mut out);
        (answer, out)
    }

    fn refused(number: u64) -> Answer {
        Answer { number, run: 0, wake: 0, pieces: 0 }
    }

    #[test]
    fn a_buffer_has_at_least_60_bytes() {
        for (length, pieces) in [(0, 0), (32_500, 30), (250, 2), (32_501, 30), (u64::MAX, u64::MAX)] {
            for room in [0, 1, 59] {
                let short = (refused(Refusal::ShortOutput.number()), vec![0xee; room]);
                assert_eq!(planned(length, pieces, room), short, "{length} in {pieces}, {room} bytes");
            }
        }
        for room in [60, 61] {
            assert_eq!(planned(250, 2, room), (refused(Refusal::NoPlan.number()), vec![0xee; room]));
            assert_eq!(planned(32_500, 30, room).0, Answer { run: 60, ..refused(0) }, "{room} bytes");
        }
    }

    #[test]
    fn what_stands_behind_the_sizes_stays() {
        let (answer, out) = planned(1_365, 3, 61);
        assert_eq!(answer, Answer { run: 6, ..refused(0) });
        assert_eq!(out[..6], [0x05, 0x54, 0, 1, 0, 0]);
        assert!(out[6..].iter().all(|byte| *byte == 0xee));
    }
}
