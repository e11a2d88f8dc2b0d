//! The proved library's C interface, each function wrapped with the signature of its counterpart in
//! the second implementation. A slice passes as a pointer and a length.

extern "C" {
    fn replay_fresh(r: u8, l: u8, m: u8, x: u8, out: *mut u8, out_len: usize) -> u8;
    fn replay_act(
        state: *const u8,
        state_len: usize,
        kind: u8,
        a: u8,
        b: u8,
        e: u8,
        out: *mut u8,
        out_len: usize,
    ) -> u32;
    fn replay_weak(state: *const u8, state_len: usize, out: *mut u8, out_len: usize) -> u8;
    fn replay_strong(state: *const u8, state_len: usize, out: *mut u8, out_len: usize) -> u8;
    fn replay_offer(
        state: *const u8,
        state_len: usize,
        kind: u8,
        out: *mut u8,
        out_len: usize,
    ) -> u8;
    fn replay_write_image(state: *const u8, state_len: usize, out: *mut u8, out_len: usize) -> u32;
    fn replay_read_image(bytes: *const u8, bytes_len: usize, out: *mut u8, out_len: usize) -> u8;
    fn replay_rename(
        state: *const u8,
        state_len: usize,
        places: *const u8,
        places_len: usize,
        out: *mut u8,
        out_len: usize,
    ) -> u8;
    fn replay_representative(
        state: *const u8,
        state_len: usize,
        out: *mut u8,
        out_len: usize,
    ) -> u8;
    fn replay_judge(run: *const u8, run_len: usize, out: *mut u8, out_len: usize) -> u8;
}

// In every function below each pointer and length come from one live slice, and the library keeps
// none of them after it answers.

pub fn fresh(r: u8, l: u8, m: u8, x: u8, out: &mut [u8]) -> u8 {
    unsafe { replay_fresh(r, l, m, x, out.as_mut_ptr(), out.len()) }
}

pub fn act(state: &[u8], kind: u8, a: u8, b: u8, e: u8, out: &mut [u8]) -> u32 {
    unsafe {
        replay_act(
            state.as_ptr(),
            state.len(),
            kind,
            a,
            b,
            e,
            out.as_mut_ptr(),
            out.len(),
        )
    }
}

pub fn weak(state: &[u8], out: &mut [u8]) -> u8 {
    unsafe { replay_weak(state.as_ptr(), state.len(), out.as_mut_ptr(), out.len()) }
}

pub fn strong(state: &[u8], out: &mut [u8]) -> u8 {
    unsafe { replay_strong(state.as_ptr(), state.len(), out.as_mut_ptr(), out.len()) }
}

pub fn offer(state: &[u8], kind: u8, out: &mut [u8]) -> u8 {
    unsafe {
        replay_offer(
            state.as_ptr(),
            state.len(),
            kind,
            out.as_mut_ptr(),
            out.len(),
        )
    }
}

pub fn write_image(state: &[u8], out: &mut [u8]) -> u32 {
    unsafe { replay_write_image(state.as_ptr(), state.len(), out.as_mut_ptr(), out.len()) }
}

pub fn read_image(bytes: &[u8], out: &mut [u8]) -> u8 {
    unsafe { replay_read_image(bytes.as_ptr(), bytes.len(), out.as_mut_ptr(), out.len()) }
}

pub fn rename(state: &[u8], places: &[u8], out: &mut [u8]) -> u8 {
    unsafe {
        replay_rename(
            state.as_ptr(),
            state.len(),
            places.as_ptr(),
            places.len(),
            out.as_mut_ptr(),
            out.len(),
        )
    }
}

pub fn representative(state: &[u8], out: &mut [u8]) -> u8 {
    unsafe { replay_representative(state.as_ptr(), state.len(), out.as_mut_ptr(), out.len()) }
}

pub fn judge(run: &[u8], out: &mut [u8]) -> u8 {
    unsafe { replay_judge(run.as_ptr(), run.len(), out.as_mut_ptr(), out.len()) }
}

/// The bytes that a C caller gives by a pointer and a length.
///
/// # Safety
/// `data` points to `length` bytes.
pub unsafe fn given<'a>(data: *const u8, length: usize) -> &'a [u8] {
    if length == 0 {
        return &[];
    }
    std::slice::from_raw_parts(data, length)
}
