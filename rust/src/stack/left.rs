//! What is left of a thread's stack.

use std::cell::Cell;
use std::ffi::{c_int, c_void};
use std::mem::MaybeUninit;
use std::ptr;

/// A stack: its lowest address and its length.
#[derive(Clone, Copy)]
struct Stack {
    lowest: usize,
    length: usize,
}

/// One of which nothing is known.
const UNKNOWN: Stack = Stack {
    lowest: 0,
    length: 0,
};

thread_local! {
    /// The thread's stack, as far as it is known.
    static THREAD: Cell<Stack> = const { Cell::new(UNKNOWN) };
    /// Whether it was asked for.
    static ASKED: Cell<bool> = const { Cell::new(false) };
}

/// Is it known that so many bytes are left below here? Nothing is known before
/// `ask`; nor where the system does not say it, or where this is no place of the
/// thread's stack but of one that its code made for itself.
#[inline]
pub fn is_left(bytes: usize) -> bool {
    let local = 0_u8;
    let here = ptr::addr_of!(local) as usize;
    let stack = THREAD.get();
    let left = here.wrapping_sub(stack.lowest);
    left < stack.length && bytes <= left
}

/// Asks for the thread's stack, once. (A limit that is lowered later is not
/// seen.)
pub fn ask() {
    if !ASKED.replace(true) {
        THREAD.set(of_thread().unwrap_or(UNKNOWN));
    }
}

/// `pthread_attr_t`: 56 bytes in the C libraries of Linux on x86-64.
#[repr(C, align(16))]
struct Attributes([u8; 128]);

extern "C" {
    fn pthread_self() -> usize;
    fn pthread_getattr_np(thread: usize, attributes: *mut Attributes) -> c_int;
    fn pthread_attr_getstack(
        attributes: *const Attributes,
        lowest: *mut *mut c_void,
        length: *mut usize,
    ) -> c_int;
    fn pthread_attr_destroy(attributes: *mut Attributes) -> c_int;
}

/// The thread's stack as its C library has it, without its guard. Of a main
/// thread it is what the limit lets it grow to, or all that is free below it
/// where there is no limit; or with some libraries what it has grown to.
fn of_thread() -> Option<Stack> {
    let mut attributes = MaybeUninit::<Attributes>::uninit();
    let mut lowest = ptr::null_mut();
    let mut length = 0;
    // SAFETY: the attributes are read and destroyed only if they were made.
    let found = unsafe {
        if pthread_getattr_np(pthread_self(), attributes.as_mut_ptr()) != 0 {
            return None;
        }
        let found = pthread_attr_getstack(attributes.as_ptr(), &mut lowest, &mut length);
        pthread_attr_destroy(attributes.as_mut_ptr());
        found
    };
    (found == 0).then_some(Stack {
        lowest: lowest as usize,
        length,
    })
}
