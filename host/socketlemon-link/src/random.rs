//! Random bytes: from the system for keys and ids, from a seed for trials.

use crate::failure::Failure;
use std::fs::File;
use std::io::Read;
use std::path::Path;

/// Random bytes from the system.
pub fn bytes<const N: usize>() -> Result<[u8; N], Failure> {
    let source = Path::new("/dev/urandom");
    let mut out = [0; N];
    File::open(source)
        .and_then(|mut file| file.read_exact(&mut out))
        .map_err(|error| Failure::file("read", source, &error))?;
    Ok(out)
}

/// Numbers that look random and follow from a seed: an xorshift generator behind a multiplication.
#[derive(Clone, Debug)]
pub struct Seeded(u64);

impl Seeded {
    /// The numbers of a seed.
    pub fn new(seed: u64) -> Seeded {
        // the state must not be 0, and near seeds should lie far apart
        Seeded(seed.wrapping_mul(0x9e37_79b9_7f4a_7c15) ^ 0x1234_5678_9abc_def1 | 1)
    }

    /// The next number.
    pub fn number(&mut self) -> u64 {
        self.0 ^= self.0 >> 12;
        self.0 ^= self.0 << 25;
        self.0 ^= self.0 >> 27;
        self.0.wrapping_mul(0x2545_f491_4f6c_dd1d)
    }

    /// True with a probability.
    pub fn chance(&mut self, probability: f64) -> bool {
        // the upper 53 bits are a fraction that a f64 holds exactly
        let fraction = (self.number() >> 11) as f64 / (1u64 << 53) as f64;
        fraction < probability
    }
}
