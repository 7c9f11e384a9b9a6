//! Keyed sums and derived keys: the published vectors, the bounds of refusal 29, and what all outputs have in
//! common. That a key has 32 bytes is in the type `SumKey`; the tests of its module hand in others.

use socketlemon::{derive_key, keyed_hash, keyed_hash_32, same_sum, Refusal, SumKey, LONGEST_SUM};

/// The published vectors: key and context of all of them, then of each the length of its input, whose bytes
/// count from 0 to 250 over and over, and the beginnings of the plain, the keyed and the derived sum.
const KEY: &[u8; 32] = b"whats the Elvish word for friend";
const CONTEXT: &[u8] = b"BLAKE3 2019-12-27 16:29:52 test vectors context";
const VECTORS: [(usize, [&str; 3]); 7] = [
    (0, ["af1349b9f5f9a1a6a0404dea", "92b2b75604ed3c761f9d6f62", "2cc39783c223154fea8dfb7c"]),
    (1, ["2d3adedff11b61f14c886e35", "6d7878dfff2f485635d39013", "b3e2e340a117a499c6cf2398"]),
    (1_023, ["10108970eeda3eb932baac14", "c951ecdf03288d0fcc96ee34", "74a16c1c3d44368a86e1ca6d"]),
    (1_025, ["d00278ae47eb27b34faecf67", "357dc55de0c7e382c900fd6e", "effaa245f065fbf82ac18683"]),
    (3_073, ["7124b49501012f81cc7f11ca", "68dede9bef00ba89e43f31a6", "72613c9ec9ff7e40f8f5c173"]),
    (4_097, ["9b4052b38f1c5fc8b1f9ff7a", "00df940cd36bb9fa7cbbc355", "aca51029626b55fda7117b42"]),
    (31_744, ["62b6960e1a44bcc1eb1a611a", "efa53b389ab67c593dba624d", "39772aef80e0ebe60596361e"]),
];

/// Of the vector of one byte all that is published: 131 bytes, which do not end with a block of 64.
const LONG_KEYED: &str = "\
    6d7878dfff2f485635d39013278ae14f1454b8c0a3a2d34bc1ab38228a80c95b6568c0490609413006fbd428eb3fd14e\
    7756d90f73a4725fad147f7bf70fd61c4e0cf7074885e92b0e3f125978b4154986d4fb202a3f331a3fb6cf349a3a70e4\
    9990f98fe4289761c8602c4e6ab1138d31d3b62218078b2f3ba9a88e1d08d0dd4cea11";
const LONG_DERIVED: &str = "\
    b3e2e340a117a499c6cf2398a19ee0d29cca2bb7404c73063382693bf66cb06c5827b91bf889b6b97c5477f535361cae\
    fca0b5d8c4746441c57617111933158950670f9aa8a05d791daae10ac683cbef8faf897c84e6114a59d2173c3f417023\
    a35d6983f2c7dfa57e7fc559ad751dbfb9ffab39c2ef8c4aafebc9ae973a64f0c76551";

/// The words that a plain sum starts from where a keyed one has its key.
const START: [u32; 8] =
    [0x6a09_e667, 0xbb67_ae85, 0x3c6e_f372, 0xa54f_f53a, 0x510e_527f, 0x9b05_688c, 0x1f83_d9ab, 0x5be0_cd19];

/// The two ways to fill an output.
#[derive(Clone, Copy, Debug)]
enum Way {
    Keyed,
    Derived,
}

const WAYS: [Way; 2] = [Way::Keyed, Way::Derived];

impl Way {
    /// Fills an output for an input; the key or the context is that of the vectors.
    fn fill(self, input: &[u8], out: &mut [u8]) -> Result<(), Refusal> {
        match self {
            Way::Keyed => keyed_hash(&SumKey::new(*KEY), input, out),
            Way::Derived => derive_key(CONTEXT, input, out),
        }
    }

    /// The output of so many bytes.
    fn sum(self, input: &[u8], length: usize) -> Vec<u8> {
        let mut out = vec![0xee; length];
        self.fill(input, &mut out).expect("a length within the bound");
        out
    }
}

fn hex(bytes: &[u8]) -> String {
    bytes.iter().map(|byte| format!("{byte:02x}")).collect()
}

fn counting(length: usize) -> Vec<u8> {
    (0..=250).cycle().take(length).collect()
}

#[test]
fn the_published_vectors() {
    for (length, [_, keyed, derived]) in VECTORS {
        let input = counting(length);
        assert_eq!(hex(&Way::Keyed.sum(&input, 12)), keyed, "keyed, {length} bytes");
        assert_eq!(hex(&Way::Derived.sum(&input, 12)), derived, "derived, {length} bytes");
    }
    assert_eq!(hex(&Way::Keyed.sum(&counting(1), 131)), LONG_KEYED);
    assert_eq!(hex(&Way::Derived.sum(&counting(1), 131)), LONG_DERIVED);
}

#[test]
fn a_keyed_sum_is_no_plain_one() {
    let start: Vec<u8> = START.iter().flat_map(|word| word.to_le_bytes()).collect();
    let start = SumKey::new(start.try_into().expect("eight words"));
    for (length, [plain, keyed, derived]) in VECTORS {
        assert!(plain != keyed && plain != derived && keyed != derived, "{length} bytes");
        assert_ne!(hex(&keyed_hash_32(&start, &counting(length))[..12]), plain, "{length} bytes");
    }
}

#[test]
fn outputs_up_to_65_536_bytes() {
    for way in WAYS {
        let mut out = vec![0xee; LONGEST_SUM + 1];
        assert_eq!(way.fill(b"kitchen", &mut out), Err(Refusal::BadLengths), "{way:?}");
        assert!(out.iter().all(|byte| *byte == 0xee), "{way:?}: a refusal wrote into the output");
        assert_eq!(way.fill(b"kitchen", &mut out[..LONGEST_SUM]), Ok(()), "{way:?}");
        assert_eq!(out[LONGEST_SUM], 0xee, "{way:?}: a byte behind the output was written");
        let blocks: std::collections::HashSet<&[u8]> = out[..LONGEST_SUM].chunks(64).collect();
        assert_eq!(blocks.len(), LONGEST_SUM / 64, "{way:?}: two blocks of the output are the same");
    }
}

#[test]
fn a_shorter_output_is_the_beginning_of_a_longer_one() {
    let survey = counting(32_500);
    for way in WAYS {
        let longest = way.sum(&survey, LONGEST_SUM);
        for length in (0..=129).chain([1_023, 1_024, 1_025, LONGEST_SUM - 64, LONGEST_SUM - 1]) {
            assert_eq!(way.sum(&survey, length), longest[..length], "{way:?}, {length} bytes");
        }
    }
}

#[test]
fn each_byte_counts() {
    let (survey, key) = (counting(5_000), SumKey::derive(b"context", b"material"));
    let sum = keyed_hash_32(&key, &survey);
    for at in [0, 63, 64, 1_023, 1_024, 4_095, 4_096, 4_999] {
        let mut other = survey.clone();
        other[at] ^= 1;
        assert_ne!(keyed_hash_32(&key, &other), sum, "byte {at} was changed");
    }
    assert_ne!(keyed_hash_32(&key, &survey[..4_999]), sum, "the last byte is missing");
    for (context, material) in
        [(&b"Context"[..], &b"material"[..]), (b"context", b"materiaL"), (b"contextm", b"aterial")]
    {
        assert_ne!(keyed_hash_32(&SumKey::derive(context, material), &survey), sum, "another key");
    }
    assert_eq!(keyed_hash_32(&SumKey::derive(b"context", b"material"), &survey), sum);
}

#[test]
fn a_derived_key_is_the_derived_output() {
    let mut bytes = [0; 32];
    derive_key(CONTEXT, b"material", &mut bytes).expect("32 bytes");
    let derived = SumKey::derive(CONTEXT, b"material");
    assert_eq!(keyed_hash_32(&derived, b"survey"), keyed_hash_32(&SumKey::new(bytes), b"survey"));
}

#[test]
fn sums_that_differ_in_one_bit_are_not_the_same() {
    let sum = keyed_hash_32(&SumKey::new(*KEY), b"survey");
    assert!(same_sum(&sum, &sum.clone()));
    for bit in 0..256 {
        let mut other = sum;
        other[bit / 8] ^= 1 << (bit % 8);
        assert!(!same_sum(&sum, &other) && !same_sum(&other, &sum), "bit {bit}");
    }
}
