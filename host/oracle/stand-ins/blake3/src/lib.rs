//! The real BLAKE3, with `Hash::from_bytes` in any version.

use std::fmt;

pub use real::Hasher;

/// A sum of 32 bytes.
#[derive(Clone, Copy, PartialEq, Eq)]
pub struct Hash(real::Hash);

impl Hash {
    /// The sum with these bytes.
    pub fn from_bytes(bytes: [u8; 32]) -> Self {
        Self(bytes.into())
    }

    /// Its bytes.
    pub fn as_bytes(&self) -> &[u8; 32] {
        self.0.as_bytes()
    }

    /// Its digits.
    pub fn to_hex(&self) -> impl fmt::Display {
        self.0.to_hex()
    }
}

/// The sum of `data`.
pub fn hash(data: &[u8]) -> Hash {
    Hash(real::hash(data))
}
