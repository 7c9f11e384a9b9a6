//! The original Rust, compiled unchanged where it is available, with what stands in for the rest of its program. The oracle compares with it, the benchmarks run it.

pub mod call;
#[cfg(original)]
pub mod data;
pub mod frame;
#[cfg(original)]
pub mod metrics;

// The original's own files, unchanged: crypto, message with its parts, subnet.
#[cfg(original)]
include!(concat!(env!("OUT_DIR"), "/original.rs"));
