//! The clocks that the original reads. The executable's own `clock_gettime` is what the standard library calls, so the comparison sets the time; each thread
//! has its own, so that sequences run side by side.

use std::cell::Cell;

thread_local! {
    static SET: Cell<bool> = const { Cell::new(false) };
    static MONOTONIC: Cell<u64> = const { Cell::new(0) };
    static WALL: Cell<u64> = const { Cell::new(0) };
}

/// Sets the clock that timers go by, in milliseconds; from here on both clocks stand still until they are set again.
pub fn set(monotonic: u64) {
    MONOTONIC.set(monotonic);
    SET.set(true);
}

/// Sets the clock of the day, in milliseconds.
pub fn set_wall(wall: u64) {
    WALL.set(wall);
}

/// Lets this thread's clocks be the system's again.
pub fn release() {
    SET.set(false);
}

/// Gives the set time, or else the system's.
///
/// # Safety
/// `time` points to a place for a time, as for the C library's function.
#[no_mangle]
pub unsafe extern "C" fn clock_gettime(clock: libc::clockid_t, time: *mut libc::timespec) -> libc::c_int {
    if !SET.get() {
        return libc::syscall(libc::SYS_clock_gettime, clock, time) as libc::c_int;
    }
    let now = if clock == libc::CLOCK_REALTIME { &WALL } else { &MONOTONIC }.get();
    (*time).tv_sec = (now / 1000) as libc::time_t;
    (*time).tv_nsec = (now % 1000 * 1_000_000) as libc::c_long;
    0
}
