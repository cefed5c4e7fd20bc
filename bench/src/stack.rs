//! How much stack a call takes: the stack below is painted, the call is made, and the lowest byte that changed is
//! looked for.

use std::hint::black_box;

const DEEP: usize = 128 * 1024;
const PAINT: u8 = 0xa5;

#[inline(never)]
fn paint() -> usize {
    let mut below = [0u8; DEEP];
    for byte in below.iter_mut() {
        // SAFETY: a byte of a local array
        unsafe { std::ptr::write_volatile(byte, PAINT) };
    }
    black_box(&mut below).as_ptr() as usize
}

#[inline(never)]
fn changed(lowest: usize) -> usize {
    let mut same = 0;
    // SAFETY: bytes of this thread's own stack, which `paint` has touched
    while same < DEEP && unsafe { std::ptr::read_volatile((lowest + same) as *const u8) } == PAINT {
        same += 1;
    }
    DEEP - same
}

/// The bytes of stack that a call changed below its caller.
#[inline(never)]
fn touched<F: FnMut()>(call: &mut F) -> usize {
    let lowest = paint();
    call();
    changed(lowest)
}

/// The same, less what a call of nothing takes.
pub fn deepest<R>(mut call: impl FnMut() -> R) -> usize {
    let mut whole = || {
        black_box(call());
    };
    touched(&mut whole).saturating_sub(touched(&mut || {}))
}
