//! A stack of its own for a call, and the change to it.

use super::{FORMAT, MARGIN};
use std::arch::naked_asm;
use std::cell::Cell;
use std::ffi::{c_int, c_void};
use std::ptr;

/// The bytes below a stack that can't be touched: a call that went too deep ends
/// the process there, and writes nothing of anyone else's.
const GUARD: usize = 64 << 10;

/// All that is mapped, in whole pages. Memory is taken only where it is used.
const LENGTH: usize = (GUARD + FORMAT + MARGIN).next_multiple_of(4096);

/// A stack with room for any call.
struct Own {
    lowest: *mut c_void,
}

thread_local! {
    /// The thread's own, while no call runs on it. It goes with the thread.
    static KEPT: Cell<Option<Own>> = const { Cell::new(None) };
}

/// Runs a call on a stack of its own; `None` where none can be had.
pub fn run(mut call: &mut dyn FnMut() -> u8) -> Option<u8> {
    let kept = KEPT.try_with(Cell::take).unwrap_or_default();
    let own = kept.or_else(Own::new)?;
    // SAFETY: the stack is there until the call is done, no other call runs on
    // it, and `start` gets what it has to.
    let answer = unsafe { change(own.top(), start, &mut call) };
    // while a thread ends, none is kept any more
    let _ = KEPT.try_with(|kept| kept.set(Some(own)));
    Some(answer)
}

/// Runs the call, on the new stack. A panic would end the process here; the
/// linked functions know none.
extern "C" fn start(call: &mut &mut dyn FnMut() -> u8) -> u8 {
    call()
}

/// Calls `start` with the stack pointer at `top`, and puts it back. To whoever
/// looks at the frames it is a function as any other: the stack pointer is kept
/// in rbp, from where both kinds of them read it.
///
/// # Safety
///
/// Below `top`, which is a multiple of 16, is a stack for what `start` does.
#[unsafe(naked)]
unsafe extern "C" fn change(
    top: *mut c_void,
    start: extern "C" fn(&mut &mut dyn FnMut() -> u8) -> u8,
    call: &mut &mut dyn FnMut() -> u8,
) -> u8 {
    naked_asm!(
        ".cfi_startproc",
        "push rbp",
        ".cfi_def_cfa_offset 16",
        ".cfi_offset rbp, -16",
        "mov rbp, rsp",
        ".cfi_def_cfa_register rbp",
        "mov rsp, rdi",
        "mov rdi, rdx",
        "call rsi",
        "mov rsp, rbp",
        "pop rbp",
        ".cfi_def_cfa rsp, 8",
        "ret",
        ".cfi_endproc",
    )
}

extern "C" {
    fn mmap(
        wanted: *mut c_void,
        length: usize,
        allowed: c_int,
        kind: c_int,
        file: c_int,
        offset: i64,
    ) -> *mut c_void;
    fn mprotect(lowest: *mut c_void, length: usize, allowed: c_int) -> c_int;
    fn munmap(lowest: *mut c_void, length: usize) -> c_int;
}

const PROT_NONE: c_int = 0;
const PROT_READ_WRITE: c_int = 1 | 2;
/// MAP_PRIVATE, MAP_ANONYMOUS, MAP_NORESERVE, MAP_STACK
const KIND: c_int = 0x02 | 0x20 | 0x4000 | 0x2_0000;
const MAP_FAILED: *mut c_void = ptr::without_provenance_mut(usize::MAX);

impl Own {
    fn new() -> Option<Self> {
        // SAFETY: new memory, at a place of the system's choice.
        let lowest = unsafe { mmap(ptr::null_mut(), LENGTH, PROT_READ_WRITE, KIND, -1, 0) };
        if lowest == MAP_FAILED {
            return None;
        }
        let own = Self { lowest };
        // SAFETY: it is the lowest part of what was mapped.
        let guarded = unsafe { mprotect(lowest, GUARD, PROT_NONE) };
        (guarded == 0).then_some(own)
    }

    /// The end of it, where a stack begins.
    fn top(&self) -> *mut c_void {
        self.lowest.wrapping_byte_add(LENGTH)
    }
}

impl Drop for Own {
    fn drop(&mut self) {
        // SAFETY: it was mapped so, and no call runs on it. Nothing can be done
        // where that fails.
        let _ = unsafe { munmap(self.lowest, LENGTH) };
    }
}
