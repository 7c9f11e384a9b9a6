//! Keyed sums, for surveys that are kept: BLAKE3's keyed hash and key derivation.

use crate::ffi::{self, Answer};
use crate::{Refusal, SUM_KEY};
use std::fmt;

/// A key of the keyed hash. Whoever has it can make and check sums; whoever has not can do neither.
///
/// `Debug` does not show its bytes.
///
/// ```
/// use socketlemon::{keyed_hash_32, same_sum, SumKey};
///
/// // the shop has one secret, of bytes that nobody can guess, and derives a key from it for each use
/// let secret = [7; 32];
/// let key = SumKey::derive(b"example.com 2026-11-17 archived surveys", &secret);
///
/// let survey = b"kitchen: 150 m3/h";
/// let kept = keyed_hash_32(&key, survey);
///
/// assert!(same_sum(&kept, &keyed_hash_32(&key, survey)));
/// assert!(!same_sum(&kept, &keyed_hash_32(&key, b"kitchen: 950 m3/h")));
/// assert!(!same_sum(&kept, &keyed_hash_32(&SumKey::new(secret), survey)));
/// ```
#[derive(Clone)]
pub struct SumKey([u8; SUM_KEY]);

impl SumKey {
    /// The key with these bytes, which should be random ones.
    pub const fn new(bytes: [u8; SUM_KEY]) -> SumKey {
        SumKey(bytes)
    }

    /// The key that [`derive_key`] gives for a context and key material.
    pub fn derive(context: &[u8], material: &[u8]) -> SumKey {
        let mut key = [0; SUM_KEY];
        derive_key(context, material, &mut key).expect("an output of 32 bytes is not too long");
        SumKey(key)
    }
}

impl fmt::Debug for SumKey {
    fn fmt(&self, f: &mut fmt::Formatter<'_>) -> fmt::Result {
        f.write_str("SumKey(..)")
    }
}

/// Fills an output with the keyed hash of an input of any length.
///
/// A shorter output is the beginning of a longer one.
/// More than [`LONGEST_SUM`](crate::LONGEST_SUM) bytes are [`Refusal::BadLengths`]: nothing is written.
///
/// ```
/// use socketlemon::{keyed_hash, keyed_hash_32, SumKey};
/// let key = SumKey::new([7; 32]);
/// let mut out = [0; 100];
/// keyed_hash(&key, b"kitchen: 150 m3/h", &mut out)?;
/// assert_eq!(out[..32], keyed_hash_32(&key, b"kitchen: 150 m3/h"));
/// # Ok::<(), socketlemon::Refusal>(())
/// ```
pub fn keyed_hash(key: &SumKey, input: &[u8], out: &mut [u8]) -> Result<(), Refusal> {
    done(ffi::keyed_hash(&key.0, input, out))
}

/// The keyed hash of an input of any length, in 32 bytes. Compare it with [`same_sum`].
pub fn keyed_hash_32(key: &SumKey, input: &[u8]) -> [u8; SUM_KEY] {
    let mut sum = [0; SUM_KEY];
    keyed_hash(key, input, &mut sum).expect("an output of 32 bytes is not too long");
    sum
}

/// Fills an output with what key derivation gives for a context and key material, each of any bytes.
///
/// The context says what the key is for; it is written into the program, and no other program has the same.
/// The material is what has to be kept secret. It must be hard to guess: a password is not.
/// A shorter output is the beginning of a longer one.
/// More than [`LONGEST_SUM`](crate::LONGEST_SUM) bytes are [`Refusal::BadLengths`]: nothing is written.
///
/// ```
/// use socketlemon::{derive_key, Refusal, LONGEST_SUM};
/// let mut out = vec![0; LONGEST_SUM + 1];
/// assert_eq!(derive_key(b"a context", b"a secret", &mut out), Err(Refusal::BadLengths));
/// assert_eq!(derive_key(b"a context", b"a secret", &mut out[1..]), Ok(()));
/// ```
pub fn derive_key(context: &[u8], material: &[u8], out: &mut [u8]) -> Result<(), Refusal> {
    done(ffi::derive_key(context, material, out))
}

/// Whether two sums are the same. All bytes are compared, wherever the first difference is,
/// so that the time this takes does not tell how much of a forged sum was right.
pub fn same_sum(one: &[u8; SUM_KEY], other: &[u8; SUM_KEY]) -> bool {
    one.iter().zip(other).fold(0, |differences, (a, b)| differences | (a ^ b)) == 0
}

fn done(answer: Answer) -> Result<(), Refusal> {
    Refusal::from_number(answer.number).map_or(Ok(()), Err)
}

#[cfg(test)]
mod tests {
    use super::*;
    use crate::LONGEST_SUM;

    const REFUSED: Answer = Answer { number: 29, run: 0, wake: 0, pieces: 0 };
    const DONE: Answer = Answer { number: 0, ..REFUSED };

    /// What the library answers to a key of so many bytes; a refusal has not changed the output.
    fn keyed(key_bytes: usize, out_bytes: usize) -> Answer {
        let mut out = vec![0xee; out_bytes];
        let answer = ffi::keyed_hash(&vec![7; key_bytes], b"kitchen", &mut out);
        let unchanged = out.iter().all(|byte| *byte == 0xee);
        assert_eq!(unchanged, answer.number != 0, "{key_bytes} bytes of key, {out_bytes} of output");
        answer
    }

    #[test]
    fn a_key_has_32_bytes() {
        for key_bytes in [0, 1, 31, 33, 64, 65_536] {
            assert_eq!(keyed(key_bytes, 32), REFUSED, "{key_bytes} bytes");
        }
        assert_eq!(keyed(32, 32), DONE);
    }

    #[test]
    fn an_output_has_at_most_65_536_bytes() {
        assert_eq!(keyed(32, LONGEST_SUM), DONE);
        assert_eq!(keyed(32, LONGEST_SUM + 1), REFUSED);
        assert_eq!(keyed(31, LONGEST_SUM + 1), REFUSED);
    }

    #[test]
    fn a_key_is_not_shown() {
        assert_eq!(format!("{:?}", SumKey::new([0x6b; 32])), "SumKey(..)");
        assert_eq!(format!("{:#?}", SumKey::derive(b"", b"")), "SumKey(..)");
    }
}
