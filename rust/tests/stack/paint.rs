//! How much stack a call uses: what lies below the caller is painted, and after
//! the call it is looked how deep the paint is gone.

use std::arch::asm;
use std::ptr;

/// A word that no call leaves by chance at the end of what it uses.
const PAINT: u64 = 0xA5C3_5A3C_C35A_3CA5;

/// Bytes below the caller that are not painted: the red zone, and the frame of
/// the painting itself.
const GAP: usize = 512;

#[inline(always)]
fn stack_pointer() -> usize {
    let at: usize;
    // SAFETY: it reads a register.
    unsafe { asm!("mov {}, rsp", out(reg) at, options(nomem, nostack, preserves_flags)) };
    at
}

/// Runs a call and gives its result and the bytes of stack that it used, the
/// frames between here and there included. The thread must have `room` bytes
/// left and some kilobytes more.
///
/// # Panics
///
/// If the call used nearly all of `room`: it may have used more then.
#[inline(never)]
pub fn used<T>(room: usize, call: impl FnOnce() -> T) -> (usize, T) {
    let top = stack_pointer() & !7;
    let words = (top - room..top - GAP).step_by(8);
    for at in words.clone() {
        // SAFETY: it is this thread's stack, and nothing lives below its end.
        unsafe { ptr::write_volatile(ptr::with_exposed_provenance_mut(at), PAINT) };
    }
    let result = call();
    let gone = words.clone().find(|at| {
        // SAFETY: as above; every word was written there.
        unsafe { ptr::read_volatile(ptr::with_exposed_provenance::<u64>(*at)) != PAINT }
    });
    let used = gone.map_or(GAP, |at| top - at);
    assert!(used + 4096 < room, "the call used all of the {room} bytes");
    (used, result)
}

/// What the start of a thread takes of its stack, thread-local values included.
pub const START: usize = 8 << 10;

/// Runs something on a thread with that much stack.
pub fn on_thread<T: Send>(stack: usize, f: impl FnOnce() -> T + Send) -> T {
    std::thread::scope(|scope| {
        let thread = std::thread::Builder::new()
            .stack_size(stack)
            .spawn_scoped(scope, f);
        match thread.expect("a thread").join() {
            Ok(result) => result,
            Err(panic) => std::panic::resume_unwind(panic),
        }
    })
}
