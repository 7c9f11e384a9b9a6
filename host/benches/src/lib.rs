//! What the benchmarks share: messages and packets, a node of each kind that they are handed to, and how they are measured.

pub mod library;
#[cfg(original)]
pub mod original;
pub mod scan;
pub mod scene;
pub mod turns;

/// The bytes of each piece that is sent.
pub const PIECE: usize = socketlemon::PIECE;

/// The bytes that BLAKE3 hashes at once: four chunks.
pub const FOUR_CHUNKS: usize = 4096;

/// The longest message, 25 pieces.
pub const LONGEST: usize = socketlemon::MOST_BYTES;

/// The key of the node that is timed.
pub const KEY: [u8; 32] = [1; 32];

/// The key of the node that it talks with.
pub const PEER_KEY: [u8; 32] = [2; 32];

/// The key of another node that sends to it: one source alone may not fill a store.
pub const OTHER_KEY: [u8; 32] = [3; 32];

/// A message in which each piece is different.
pub fn message(length: usize) -> Vec<u8> {
    (0..length).map(|i| (i * 31 + i / 251 + i / PIECE) as u8).collect()
}
