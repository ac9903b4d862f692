//! Room on the stack for the operations, whatever thread they are called on.
//!
//! A formatting calls itself for what stands inside each other, and the deepest
//! that is legal (100 references inside each other, each nested to depth 32)
//! needs more than many threads have. So each call looks at what is left of its
//! thread's stack, and where that may be too little it runs on a stack of this
//! module's, which is mapped at the thread's first such call and kept for the
//! next ones. A call that has room costs some instructions more, one that has
//! none some nanoseconds.
//!
//! Why not a thread of its own for such a call: it takes some 30 microseconds,
//! and Rust's threads have 2 MiB, so that most calls on them would pay that; a
//! kept thread takes two switches between threads for each call. Changing the
//! stack pointer takes a few instructions, and the call stays on its thread.

// these two ask the system, and change the stack pointer
#[allow(unsafe_code)]
mod left;
#[allow(unsafe_code)]
mod own;

use crate::refusals::Refusal;

/// What the deepest formatting that is legal can use of the stack, in bytes, of a
/// message or of a sheet, which formats one message after the other.
/// `tests/stack` measures it.
pub const FORMAT: usize = 11 << 18;

/// What an addition can use of the stack, and a formatting that is refused for
/// its list of under 5 bytes, in bytes. `tests/stack` measures it.
pub const ADDITION: usize = 64 << 10;

/// What is to be left beside that: for the calls in between, for the handler of
/// a signal, and for the kernel's gap of 1 MiB (256 pages) below a main thread's
/// stack, which counts as its own.
const MARGIN: usize = (1 << 20) + (64 << 10);

/// Runs an operation that can use `needed` bytes of stack, at most [`FORMAT`]:
/// here, or on a stack of its own. [`Refusal::NO_STACK`] where there is none.
#[inline]
pub(crate) fn with_room(needed: usize, mut operation: impl FnMut() -> u8) -> Result<(), Refusal> {
    match left::is_left(needed + MARGIN) {
        true => Refusal::of(operation()),
        false => with_little(needed, operation),
    }
}

/// The same where little is left, or the thread's stack was not asked for yet.
#[cold]
#[inline(never)]
fn with_little(needed: usize, mut operation: impl FnMut() -> u8) -> Result<(), Refusal> {
    left::ask();
    match left::is_left(needed + MARGIN) {
        true => Refusal::of(operation()),
        false => own::run(&mut operation).map_or(Err(Refusal::NO_STACK), Refusal::of),
    }
}

/// What a deep thread has.
const DEEP: usize = 32 << 20;

/// Runs something on a thread of its own with 32 MiB of stack.
///
/// No function of this crate needs it: they all take care of their stack. It is
/// for what the caller does with trees of [`syntax`](crate::syntax) that are
/// nested far deeper than is legal: the code that Rust makes to clone, compare
/// and drop them calls itself at each level.
///
/// # Panics
///
/// If no thread can be started, or `f` panics.
pub fn on_deep_stack<T: Send>(f: impl FnOnce() -> T + Send) -> T {
    std::thread::scope(|scope| {
        let thread = std::thread::Builder::new()
            .stack_size(DEEP)
            .spawn_scoped(scope, f);
        match thread.expect("a thread can be started").join() {
            Ok(result) => result,
            Err(panic) => std::panic::resume_unwind(panic),
        }
    })
}

#[cfg(test)]
mod tests {
    use super::{left, own, with_room, Refusal, FORMAT};

    #[test]
    fn what_is_left_here() {
        left::ask();
        assert!(left::is_left(1000) && !left::is_left(1 << 50));
        // of a stack that is not the thread's nothing is known
        assert_eq!(own::run(&mut || u8::from(left::is_left(0))), Some(0));
    }

    #[test]
    fn a_call_on_its_own_stack_can_make_another() {
        let outer = &mut || with_room(FORMAT, || 12).expect_err("refusal 12").number();
        assert_eq!(own::run(outer), Some(12));
        assert_eq!(with_room(FORMAT, || 255), Err(Refusal::NO_STACK));
        assert_eq!(with_room(FORMAT, || 0), Ok(()));
    }
}
