//! The deepest store by the crate's own functions, on threads that have too
//! little stack for it.

use super::paint::on_thread;
use super::shapes::{Chain, Level, PLACEABLES};
use std::sync::atomic::{AtomicUsize, Ordering};
use weszlagyo::{FluentBundle, FluentError, FluentResource, ResolverError};
use Level::{Call, Placeable, TermReference};

/// Rust gives a thread 2 MiB unless told otherwise.
const STACKS: [usize; 5] = [64 << 10, 256 << 10, 1 << 20, 2 << 20, 64 << 20];

/// 101 patterns with one reference in each other, nested to depth 32.
fn deepest() -> Chain {
    let levels = [Call, Placeable].into_iter().cycle().take(31);
    Chain::whole(&[levels.chain([TermReference]).collect()])
}

/// Formats the deepest store, and gives the placeables begun.
fn format(bundle: &FluentBundle) -> usize {
    let done = bundle.format("a0", None, None).expect("formatted");
    assert_eq!(done.errors, [ResolverError::TooManyPlaceables.into()]);
    done.figures.begun
}

/// Everything that calls an operation.
fn use_all() {
    let mut bundle = deepest().bundle().expect("legal");
    assert_eq!(format(&bundle), PLACEABLES + 1);
    assert!(bundle.has_message("a0") && !bundle.has_message("none"));
    let message = bundle.get_message("a0").expect("it is there");
    let mut errors = Vec::new();
    bundle.format_pattern(message.value().expect("a value"), None, &mut errors);
    assert_eq!(errors, [ResolverError::TooManyPlaceables.into()]);
    let (a0, mut errors) = (("a0", None, None), Vec::new());
    bundle.format_sheet([a0, a0], &mut errors);
    assert_eq!(errors, vec![ResolverError::TooManyPlaceables.into(); 2]);
    let more = FluentResource::builder().message("a0", "later").build();
    let more = more.expect("well-formed");
    let held = bundle.add_resource(&more).expect_err("a0 is held");
    assert!(matches!(held[..], [FluentError::Overriding { .. }]));
    bundle.add_resource_overriding(more).expect("room");
    bundle.add_builtins().expect("NUMBER is new");
    let kept = FluentBundle::from_store(bundle.store().to_vec()).expect("a store");
    assert_eq!(kept.format("a0", None, None).expect("it").text, "later");
}

#[test]
fn on_any_thread() {
    for stack in STACKS {
        on_thread(stack, use_all);
    }
}

#[test]
fn on_many_threads_at_once() {
    let bundle = deepest().bundle().expect("legal");
    std::thread::scope(|scope| {
        for _ in 0..16 {
            scope.spawn(|| {
                let all = (0..20).map(|_| format(&bundle));
                assert_eq!(all.sum::<usize>(), 20 * (PLACEABLES + 1));
            });
        }
    });
}

/// Formats when its thread ends.
struct Last(FluentBundle);

static LAST_BEGUN: AtomicUsize = AtomicUsize::new(0);

impl Drop for Last {
    fn drop(&mut self) {
        LAST_BEGUN.store(format(&self.0), Ordering::Relaxed);
    }
}

thread_local! {
    static LAST: Last = Last(deepest().bundle().expect("legal"));
}

/// A thread-local value that is older than the kept stack goes after it, and can
/// still format.
#[test]
fn while_a_thread_ends() {
    on_thread(64 << 10, || {
        LAST.with(|last| assert_eq!(format(&last.0), PLACEABLES + 1));
    });
    assert_eq!(LAST_BEGUN.load(Ordering::Relaxed), PLACEABLES + 1);
}
