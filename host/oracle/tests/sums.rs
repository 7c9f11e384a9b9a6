//! The library's BLAKE3 beside the blake3 crate, on random bytes: plain sums, keyed ones and derived keys.
//! This needs no original, but `tools/build library blake3_export`.

use std::time::{SystemTime, UNIX_EPOCH};

use socketlemon::{derive_key, keyed_hash, Refusal, SumKey};

#[link(name = "blake3_export", kind = "static")]
extern "C" {
    fn socketlemon_blake3(bytes: *const u8, length: usize, out: *mut [u8; 32]);
}

/// The library's sum.
fn ours(bytes: &[u8]) -> [u8; 32] {
    let mut out = [0; 32];
    // SAFETY: a live slice with its length, and a place for 32 bytes.
    unsafe { socketlemon_blake3(bytes.as_ptr(), bytes.len(), &mut out) };
    out
}

/// So many bytes, others for each seed.
fn random(seed: u128, length: usize) -> Vec<u8> {
    let mut bytes = vec![0; length];
    blake3::Hasher::new().update(&seed.to_le_bytes()).finalize_xof().fill(&mut bytes);
    bytes
}

/// Every length up to eight chunks of 1,024 bytes and one byte, which has each way of ending four chunks that are hashed at
/// once; and those around the longest message and around 64 chunks.
fn lengths() -> impl Iterator<Item = usize> {
    (0..=8_193).chain(32_499..=32_501).chain(65_535..=65_537)
}

/// The lengths of inputs and outputs of keyed and derived sums: around blocks of 64 bytes, around chunks of
/// 1,024 and four of them, the longest message, and the longest output; an input may be longer.
const INPUTS: [usize; 16] =
    [0, 1, 63, 64, 65, 1_023, 1_024, 1_025, 3_072, 3_073, 4_096, 4_097, 8_193, 32_500, 65_536, 100_000];
const OUTPUTS: [usize; 8] = [0, 1, 63, 64, 65, 128, 65_535, 65_536];

/// A seed that differs from run to run; what fails names it.
fn seed() -> u128 {
    SystemTime::now().duration_since(UNIX_EPOCH).expect("a clock past 1970").as_nanos()
}

/// What the crate puts into an output of so many bytes.
fn crates(mut hasher: blake3::Hasher, input: &[u8], length: usize) -> Vec<u8> {
    let mut out = vec![0; length];
    hasher.update(input).finalize_xof().fill(&mut out);
    out
}

/// What the library puts there.
fn librarys(fill: impl Fn(&mut [u8]) -> Result<(), Refusal>, length: usize) -> Vec<u8> {
    let mut out = vec![0xee; length];
    fill(&mut out).expect("lengths within the bounds");
    out
}

/// Each input with each length of an output.
fn cases() -> impl Iterator<Item = (usize, usize)> {
    INPUTS.into_iter().flat_map(|input| OUTPUTS.map(|output| (input, output)))
}

#[test]
fn the_sums_are_the_crates() {
    let seed = seed();
    let bytes = random(seed, lengths().max().expect("a length"));
    for length in lengths() {
        let input = &bytes[bytes.len() - length..];
        assert_eq!(&ours(input), blake3::hash(input).as_bytes(), "{length} bytes, seed {seed}");
    }
}

#[test]
fn the_keyed_sums_are_the_crates() {
    let seed = seed();
    for ((length, output), n) in cases().zip(0..) {
        let input = random(seed + 2 * n, length);
        let key: [u8; 32] = random(seed + 2 * n + 1, 32).try_into().expect("32 bytes");
        let ours = librarys(|out| keyed_hash(&SumKey::new(key), &input, out), output);
        let theirs = crates(blake3::Hasher::new_keyed(&key), &input, output);
        assert!(ours == theirs, "{length} bytes into {output}, seed {seed}");
    }
}

#[test]
fn the_derived_keys_are_the_crates() {
    let seed = seed();
    for ((length, output), n) in cases().zip(0..) {
        let material = random(seed + 2 * n, length);
        // the crate takes text only; its lengths are those of inputs too, in another order
        let context = random(seed + 2 * n + 1, INPUTS[n as usize * 5 % INPUTS.len()]);
        let context: String = context.into_iter().map(|byte| char::from(b' ' + byte % 95)).collect();
        let ours = librarys(|out| derive_key(context.as_bytes(), &material, out), output);
        let theirs = crates(blake3::Hasher::new_derive_key(&context), &material, output);
        assert!(ours == theirs, "{length} bytes into {output}, {} of context, seed {seed}", context.len());
    }
}
