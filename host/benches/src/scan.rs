//! A plain scan of as many bytes as two stores have: whether all are zero.

use std::hint::black_box;

use crate::library::Node;
use crate::turns::Routine;

/// The bytes that a scan joins in one step.
const STEP: usize = 64;

/// Whether all bytes are zero, left at the first that is not.
pub fn all_zero(bytes: &[u8]) -> bool {
    bytes.iter().all(|byte| *byte == 0)
}

/// Whether all bytes are zero, by joining them all, 64 in a step: then its time does not depend on where the compiler has put the loop.
pub fn joined_zero(bytes: &[u8]) -> bool {
    let steps = bytes.chunks_exact(STEP);
    let rest = steps.remainder();
    let mut joined = [0; STEP];
    for step in steps {
        for (all, byte) in joined.iter_mut().zip(step) {
            *all |= byte;
        }
    }
    let join = |bytes: &[u8]| bytes.iter().fold(0, |all, byte| all | byte);
    join(&joined) | join(rest) == 0
}

/// A scan of both stores' bytes.
pub fn routine(name: &'static str, zero: fn(&[u8]) -> bool, cells: usize) -> Routine<'static> {
    let zeros = vec![0; Node::new(crate::KEY, crate::PEER_KEY, cells).store_bytes()];
    let both = [zeros.clone(), zeros];
    Routine::fresh(name, move || both.clone(), move |both| both.iter().all(|store| zero(black_box(store))))
}
