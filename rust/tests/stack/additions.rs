//! What the additions use of the stack, and a new bundle.

use super::ffi;
use super::paint::used;
use weszlagyo::syntax::Pattern;
use weszlagyo::{FluentResource, ResourceBuilder};

/// More than an addition uses.
const ROOM: usize = 4 << 20;

/// The most bytes of an image, and of a store.
const MAX_IMAGE: usize = 65_536;
const MAX_STORE: usize = 1_048_576;

/// As many entries as an image holds: each has 16 bytes and its id.
fn full(id: impl Fn(usize) -> String) -> Vec<u8> {
    let mut length = 7;
    let ids = (0..).map(id).take_while(|id| {
        length += 16 + id.len();
        length <= MAX_IMAGE
    });
    let empty = FluentResource::builder();
    let entry = |to: ResourceBuilder, id: String| to.message(id, Pattern::from("x"));
    let resource = ids.fold(empty, entry).build();
    resource.expect("well-formed").image().to_vec()
}

/// The smallest image, and the longest ones with ids that are all the same or
/// all differ.
pub fn images() -> Vec<Vec<u8>> {
    let smallest = FluentResource::builder().build().expect("well-formed");
    vec![
        smallest.image().to_vec(),
        full(|_| "a".to_owned()),
        full(|n| format!("a{n}")),
    ]
}

/// A store with no item, in the longest slice.
fn store() -> Vec<u8> {
    let mut store = vec![0; MAX_STORE];
    let (bytes, answer) = used(ROOM, || ffi::new(&mut store, 0, 1));
    assert_eq!(answer, 0);
    assert!(bytes < 4096, "a new bundle uses {bytes} bytes of stack");
    store
}

/// Adds the image to a store, plainly and overriding, and again, so that every
/// id is held; then a function. The most that one of them used.
pub fn measured(image: &[u8]) -> usize {
    let (mut store, mut list) = (store(), vec![0; 1 << 20]);
    let mut count = 0;
    let used = [
        used(ROOM, || {
            ffi::add_resource(&mut store, image, &mut list, &mut count)
        }),
        used(ROOM, || ffi::add_resource_overriding(&mut store, image)),
        used(ROOM, || {
            ffi::add_resource(&mut store, image, &mut list, &mut count)
        }),
        used(ROOM, || ffi::add_function(&mut store, b"F", 1)),
    ];
    assert!(used.iter().all(|(_, answer)| *answer == 0));
    used.iter().map(|(bytes, _)| *bytes).max().expect("four")
}

/// The same on the stack that there is.
pub fn run(image: &[u8]) {
    let (mut store, mut list) = (vec![0; MAX_STORE], vec![0; 1 << 20]);
    let answers = [
        ffi::new(&mut store, 0, 1),
        ffi::add_resource(&mut store, image, &mut list, &mut 0),
        ffi::add_resource_overriding(&mut store, image),
        ffi::add_resource(&mut store, image, &mut list, &mut 0),
        ffi::add_function(&mut store, b"F", 1),
    ];
    assert_eq!(answers, [0; 5]);
}
