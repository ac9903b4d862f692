//! Arguments in name order (document 02, Card 2): what `FluentArgs` writes always
//! is, and an image that was made elsewhere and is not is refused with 19.
#![forbid(unsafe_code)]

mod image;
mod made;
mod papers;
mod random;
mod refused;

use weszlagyo::operations;
use weszlagyo::syntax::{variable, Pattern};
use weszlagyo::{FluentBundle, FluentResource, Locale, Refusal};

/// Names that are near to one another, in ascending order of their bytes.
const NAMES: [&str; 9] = ["B", "a", "a-", "a0", "aA", "a_", "aa", "ab", "b"];

/// `m = { $a }`, with `.other = Other`.
fn bundle() -> FluentBundle {
    let resource = FluentResource::builder()
        .message("m", Pattern::new().place(variable("a")))
        .attribute("other", "Other")
        .build()
        .expect("well-formed");
    let mut bundle = FluentBundle::new(vec![Locale::En]);
    bundle.add_resource(&resource).expect("no id twice");
    bundle
}

/// The text of `m` with an arguments image.
fn text(bundle: &FluentBundle, image: &[u8]) -> Result<String, Refusal> {
    let (mut text, mut list, mut work) = ([0; 999], [0; 999], [0; 0]);
    let figures = operations::format(
        bundle.store(),
        b"m",
        None,
        image,
        &mut text,
        &mut list,
        &mut work,
    )?;
    Ok(String::from_utf8(text[..figures.text].to_vec()).expect("it is text"))
}
