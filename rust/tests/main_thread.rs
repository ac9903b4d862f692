//! The deepest store on a program's main thread, whose stack the system lets
//! grow up to a limit; what is answered where no memory is left for a stack; and
//! that a stack goes with its thread. The program runs itself under each limit,
//! and is to do nothing else then, so it has a `main` of its own.
#![forbid(unsafe_code)]

use std::process::Command;
use std::thread::Builder;
use weszlagyo::stack::FORMAT;
use weszlagyo::syntax::*;
use weszlagyo::{
    builtins, operations, FluentBundle, FluentError, FluentResource, Refusal, ResolverError, Sheet,
};

/// Says what to do under a limit.
const PART: &str = "WESZLAGYO_TEST_PART";

/// What the shell ends with where the limit can't be set.
const NOT_SET: i32 = 77;

fn main() {
    match std::env::var(PART).as_deref() {
        Ok("deep") => deep(),
        Ok("starved") => on_small_thread(starved),
        Ok("many") => many(),
        _ => {
            for stack in ["64", "256", "1024", "8192", "65536", "unlimited"] {
                under(&format!("-s {stack}"), "deep");
            }
            under("-v 1000000", "starved");
            under("-s 8192", "many");
        }
    }
}

/// Runs something on a thread of 64 KiB.
fn on_small_thread<T: Send + 'static>(f: impl FnOnce() -> T + Send + 'static) -> T {
    let thread = Builder::new().stack_size(64 << 10).spawn(f);
    thread.expect("a thread").join().expect("no panic")
}

/// Runs this program under a limit of the shell's, and says how it ended.
fn under(limit: &str, part: &str) {
    let this = std::env::current_exe().expect("it runs");
    let line = format!("ulimit {limit} 2>/dev/null || exit {NOT_SET}; exec \"$0\"");
    let status = Command::new("sh")
        .args(["-c", &line])
        .arg(this)
        .env(PART, part)
        .status()
        .expect("a shell");
    match status.code() {
        Some(NOT_SET) => println!("ulimit {limit}: not allowed here, so not tried"),
        _ => assert!(status.success(), "ulimit {limit}: {status}"),
    }
}

/// 102 messages with a reference in each other, nested to depth 32.
fn bundle() -> FluentBundle {
    let messages = (0..102).fold(FluentResource::builder(), |builder, n| {
        let inner = message(format!("m{}", n + 1));
        let nested = (1..32).fold(inner, |inner, depth| match depth % 2 {
            1 => call("N", Arguments::new().positional(inner)),
            _ => placeable(inner),
        });
        builder.message(format!("m{n}"), nested)
    });
    let mut bundle = FluentBundle::default();
    bundle
        .add_function("N", builtins::NUMBER)
        .expect("it is new");
    let resource = messages.build().expect("well-formed");
    bundle.add_resource(resource).expect("no id twice");
    bundle
}

fn format(bundle: &FluentBundle) {
    let done = bundle.format("m0", None, None).expect("formatted");
    assert_eq!(done.figures.begun, 101);
    assert_eq!(done.errors, [ResolverError::TooManyPlaceables.into()]);
    let (m0, mut errors) = (("m0", None, None), vec![]);
    let twice = bundle.format_sheet([m0, m0], &mut errors);
    assert_eq!(twice, done.text.repeat(2));
    assert_eq!(errors, vec![ResolverError::TooManyPlaceables.into(); 2]);
}

fn deep() {
    format(&bundle());
}

/// The bytes of this process's address space.
fn address_space() -> usize {
    let sizes = std::fs::read_to_string("/proc/self/statm").expect("Linux has it");
    let pages = sizes.split(' ').next().and_then(|word| word.parse().ok());
    4096 * pages.unwrap_or(0_usize)
}

/// Threads one after the other: their stacks go with them.
fn many() {
    let so_many = |count: usize| {
        for _ in 0..count {
            on_small_thread(deep);
        }
        address_space()
    };
    let (few, many) = (so_many(5), so_many(40));
    let more = many.saturating_sub(few);
    assert!(more < 10 * FORMAT, "{more} bytes more");
}

/// Takes all of the address space, but for pieces that are too small for a
/// stack.
fn take_all() -> Vec<Vec<u8>> {
    let mut taken = Vec::with_capacity(1 << 14);
    let mut length = 16 << 20;
    while length >= 128 << 10 {
        let mut piece = Vec::new();
        match piece.try_reserve_exact(length) {
            Ok(()) => taken.push(piece),
            Err(_) => length /= 2,
        }
    }
    taken
}

/// Without memory for a stack an operation is refused, and changes nothing.
fn starved() {
    let ours = bundle();
    let mut bundle = ours.clone();
    // a thread that has no stack of its own yet
    let theirs = on_small_thread(move || {
        let taken = take_all();
        let formatted = bundle.format("m0", None, None);
        let sheet = operations::format_sheet(
            bundle.store(),
            Sheet::new().image(),
            &mut [],
            &mut [0; 5],
            &mut [],
        );
        let added = bundle.add_function("F", builtins::NUMBER);
        let has = bundle.has_message("m0");
        drop(taken);
        assert_eq!(formatted, Err(Refusal::NO_STACK));
        assert_eq!(sheet, Err(Refusal::NO_STACK));
        assert_eq!(added, Err(FluentError::Refused(Refusal::NO_STACK)));
        assert!(!has);
        format(&bundle);
        bundle
    });
    assert_eq!(theirs.store(), ours.store());
    format(&ours);
}
