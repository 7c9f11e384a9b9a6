//! The exports of the library on slices: the one module with `unsafe`.
//!
//! What the library asks of its caller (include/socketlemon.h) is what Rust's references give: each pointer comes from a live slice with its own length, is
//! never null, and what is written is borrowed mutably, so it overlaps with no other argument. The library keeps no pointer, has no other state and never
//! unwinds, and it is proved to stay within the lengths on any bytes.

/// The four numbers of an answer.
#[repr(C)]
#[derive(Clone, Copy, Debug, PartialEq, Eq)]
pub(crate) struct Answer {
    pub number: u64,
    pub run: u64,
    pub wake: u64,
    pub pieces: u64,
}

extern "C" {
    fn socketlemon_setup(store: *mut u8, store_len: usize, role: u64) -> Answer;
    fn socketlemon_address(key: *const u8, key_len: usize, out: *mut u8, out_len: usize) -> Answer;
    fn socketlemon_packet(
        recv: *mut u8,
        recv_len: usize,
        send: *mut u8,
        send_len: usize,
        frame: *const u8,
        frame_len: usize,
        from: *const u8,
        to: *const u8,
        rules: *const u8,
        rules_len: usize,
        known: u64,
        run: *mut u8,
        run_len: usize,
    ) -> Answer;
    fn socketlemon_push(
        send: *mut u8,
        send_len: usize,
        id: *const u8,
        reply: u64,
        from: *const u8,
        to: *const u8,
        topic: *const u8,
        topic_len: usize,
        data: *const u8,
        data_len: usize,
        created: u64,
        try_ms: u64,
        run: *mut u8,
        run_len: usize,
    ) -> Answer;
    fn socketlemon_wake(
        send: *mut u8,
        send_len: usize,
        kind: u64,
        id: *const u8,
        clock: u64,
        calendar: *const u8,
        calendar_len: usize,
        unix_ms: u64,
        run: *mut u8,
        run_len: usize,
    ) -> Answer;
    fn socketlemon_report(
        send: *const u8,
        send_len: usize,
        id: *const u8,
        out: *mut u8,
        out_len: usize,
    ) -> Answer;
    fn socketlemon_take(
        recv: *mut u8,
        recv_len: usize,
        data: *mut u8,
        data_len: usize,
        run: *mut u8,
        run_len: usize,
    ) -> Answer;
    fn socketlemon_keyed_hash(
        key: *const u8,
        key_len: usize,
        input: *const u8,
        input_len: usize,
        out: *mut u8,
        out_len: usize,
    ) -> Answer;
    fn socketlemon_derive_key(
        context: *const u8,
        context_len: usize,
        material: *const u8,
        material_len: usize,
        out: *mut u8,
        out_len: usize,
    ) -> Answer;
    fn socketlemon_plan(length: u64, pieces: u64, out: *mut u8, out_len: usize) -> Answer;
}

pub(crate) fn setup(store: &mut [u8], role: u64) -> Answer {
    // SAFETY: one live slice with its length.
    unsafe { socketlemon_setup(store.as_mut_ptr(), store.len(), role) }
}

pub(crate) fn address(key: &[u8], out: &mut [u8]) -> Answer {
    // SAFETY: live slices with their lengths; `out` is borrowed mutably.
    unsafe { socketlemon_address(key.as_ptr(), key.len(), out.as_mut_ptr(), out.len()) }
}

#[allow(clippy::too_many_arguments)]
pub(crate) fn packet(
    recv: &mut [u8],
    send: &mut [u8],
    frame: &[u8],
    from: &[u8; 16],
    to: &[u8; 16],
    rules: &[u8],
    known: bool,
    run: &mut [u8],
) -> Answer {
    // SAFETY: live slices with their lengths, the addresses of 16 bytes; `recv`, `send` and `run` are borrowed mutably.
    unsafe {
        socketlemon_packet(
            recv.as_mut_ptr(),
            recv.len(),
            send.as_mut_ptr(),
            send.len(),
            frame.as_ptr(),
            frame.len(),
            from.as_ptr(),
            to.as_ptr(),
            rules.as_ptr(),
            rules.len(),
            u64::from(known),
            run.as_mut_ptr(),
            run.len(),
        )
    }
}

#[allow(clippy::too_many_arguments)]
pub(crate) fn push(
    send: &mut [u8],
    id: &[u8; 8],
    reply: bool,
    from: &[u8; 16],
    to: &[u8; 16],
    topic: &[u8],
    data: &[u8],
    created: u64,
    try_ms: u64,
    run: &mut [u8],
) -> Answer {
    // SAFETY: live slices with their lengths, the id of 8 and the addresses of 16 bytes; `send` and `run` are borrowed mutably.
    unsafe {
        socketlemon_push(
            send.as_mut_ptr(),
            send.len(),
            id.as_ptr(),
            u64::from(reply),
            from.as_ptr(),
            to.as_ptr(),
            topic.as_ptr(),
            topic.len(),
            data.as_ptr(),
            data.len(),
            created,
            try_ms,
            run.as_mut_ptr(),
            run.len(),
        )
    }
}

pub(crate) fn wake(
    send: &mut [u8],
    kind: u64,
    id: &[u8; 8],
    clock: u64,
    calendar: &[u8],
    unix_ms: u64,
    run: &mut [u8],
) -> Answer {
    // SAFETY: live slices with their lengths, the id of 8 bytes; `send` and `run` are borrowed mutably.
    unsafe {
        socketlemon_wake(
            send.as_mut_ptr(),
            send.len(),
            kind,
            id.as_ptr(),
            clock,
            calendar.as_ptr(),
            calendar.len(),
            unix_ms,
            run.as_mut_ptr(),
            run.len(),
        )
    }
}

pub(crate) fn report(send: &[u8], id: &[u8; 8], out: &mut [u8]) -> Answer {
    // SAFETY: live slices with their lengths, the id of 8 bytes; `out` is borrowed mutably, and `send` is only read.
    unsafe { socketlemon_report(send.as_ptr(), send.len(), id.as_ptr(), out.as_mut_ptr(), out.len()) }
}

pub(crate) fn take(recv: &mut [u8], data: &mut [u8], run: &mut [u8]) -> Answer {
    // SAFETY: live slices with their lengths, all borrowed mutably.
    unsafe {
        socketlemon_take(
            recv.as_mut_ptr(),
            recv.len(),
            data.as_mut_ptr(),
            data.len(),
            run.as_mut_ptr(),
            run.len(),
        )
    }
}

pub(crate) fn keyed_hash(key: &[u8], input: &[u8], out: &mut [u8]) -> Answer {
    // SAFETY: live slices with their lengths; `out` is borrowed mutably.
    unsafe {
        socketlemon_keyed_hash(
            key.as_ptr(),
            key.len(),
            input.as_ptr(),
            input.len(),
            out.as_mut_ptr(),
            out.len(),
        )
    }
}

pub(crate) fn derive_key(context: &[u8], material: &[u8], out: &mut [u8]) -> Answer {
    // SAFETY: live slices with their lengths; `out` is borrowed mutably.
    unsafe {
        socketlemon_derive_key(
            context.as_ptr(),
            context.len(),
            material.as_ptr(),
            material.len(),
            out.as_mut_ptr(),
            out.len(),
        )
    }
}

pub(crate) fn plan(length: u64, pieces: u64, out: &mut [u8]) -> Answer {
    // SAFETY: one live slice with its length, borrowed mutably.
    unsafe { socketlemon_plan(length, pieces, out.as_mut_ptr(), out.len()) }
}
