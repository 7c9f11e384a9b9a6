//! BLAKE3, in turns: the library's and the blake3 crate's, by the implementation that the crate has picked; and the
//! plain, the keyed and the derived sum. The feature `portable` leaves the crate its portable one only.

use std::hint::black_box;

use benches::library::sum;
use benches::turns::{self, Routine};
use blake3::platform::Platform;
use socketlemon::{derive_key, keyed_hash, keyed_hash_32, SumKey, LONGEST_SUM};

/// What derived sums are for, and what a long output is of: a block.
const CONTEXT: &str = "Socketlemon 2026-11-17 sums that are timed";
const SHORT: usize = 64;

/// The derived sum, in 32 bytes as the others.
fn derived(material: &[u8]) -> [u8; 32] {
    let mut out = [0; 32];
    derive_key(CONTEXT.as_bytes(), material, &mut out).expect("32 bytes");
    out
}

fn sums(platform: Platform) {
    for length in [SHORT, benches::PIECE, benches::FOUR_CHUNKS, benches::LONGEST] {
        let bytes = benches::message(length);
        assert_eq!(&sum(&bytes), blake3::hash(&bytes).as_bytes(), "the sums of {length} bytes");
        let routines = vec![
            Routine::repeated("ours", || sum(black_box(&bytes))),
            Routine::repeated("crate", || blake3::hash(black_box(&bytes))),
        ];
        turns::measure(&format!("sums-{platform:?}"), length, routines);
    }
}

/// The plain, the keyed and the derived sum of the longest message.
fn ways(platform: Platform) {
    let (bytes, key) = (benches::message(benches::LONGEST), SumKey::new(benches::KEY));
    assert_eq!(&keyed_hash_32(&key, &bytes), blake3::keyed_hash(&benches::KEY, &bytes).as_bytes());
    assert_eq!(derived(&bytes), blake3::derive_key(CONTEXT, &bytes));
    let routines = vec![
        Routine::repeated("plain", || sum(black_box(&bytes))),
        Routine::repeated("keyed", || keyed_hash_32(black_box(&key), black_box(&bytes))),
        Routine::repeated("derived", || derived(black_box(&bytes))),
    ];
    turns::measure(&format!("ways-{platform:?}"), bytes.len(), routines);
}

/// The crate's keyed hash in an output of any length.
fn crates(input: &[u8], out: &mut [u8]) {
    blake3::Hasher::new_keyed(&benches::KEY).update(input).finalize_xof().fill(out);
}

/// The longest output, of a short input: a keyed hash of either.
fn outputs(platform: Platform) {
    let (input, key) = (benches::message(SHORT), SumKey::new(benches::KEY));
    let (mut out, mut theirs) = (vec![0; LONGEST_SUM], vec![0; LONGEST_SUM]);
    crates(&input, &mut theirs);
    keyed_hash(&key, &input, &mut out).expect("the longest output");
    assert!(out == theirs, "the longest output");
    let routines = vec![
        Routine::repeated("ours", || keyed_hash(&key, black_box(&input), black_box(&mut out))),
        Routine::repeated("crate", || crates(black_box(&input), black_box(&mut theirs))),
    ];
    turns::measure(&format!("outputs-{platform:?}"), LONGEST_SUM, routines);
}

fn main() {
    let platform = Platform::detect();
    sums(platform);
    ways(platform);
    outputs(platform);
}
