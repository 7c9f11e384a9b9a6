//! In place of random numbers: the id that was set for the next message.

use std::cell::Cell;

thread_local! {
    static NEXT: Cell<Option<[u8; 8]>> = const { Cell::new(None) };
}

/// Sets what the next `fill` hands out.
pub fn set_next(id: [u8; 8]) {
    NEXT.with(|next| next.set(Some(id)));
}

/// The source of ids.
pub struct Rng;

/// The source of ids of this thread.
pub fn rng() -> Rng {
    Rng
}

/// The one use that the original makes of random numbers.
pub trait RngExt {
    /// Fills `out` with the id that was set.
    fn fill(&mut self, out: &mut [u8; 8]);
}

impl RngExt for Rng {
    fn fill(&mut self, out: &mut [u8; 8]) {
        *out = NEXT.with(Cell::take).expect("an id was set for this message");
    }
}
