//! Arguments images that are not in order: by hand, as no type of the crate
//! makes one.

use weszlagyo::bytes::Writer;
use weszlagyo::Refusal;

/// A value: a text, or digits and a scale.
enum Value {
    Text(&'static str),
    Number(u64, u8),
}

use Value::{Number, Text};

fn image(arguments: &[(&str, Value)]) -> Vec<u8> {
    let mut out = Writer::default();
    let start = out.open();
    out.byte(1);
    out.u16(arguments.len());
    for (name, value) in arguments {
        out.str(name);
        match value {
            Text(text) => {
                out.byte(1);
                out.str(text);
            }
            Number(digits, scale) => {
                out.byte(2);
                out.flag(false);
                out.u64(*digits);
                out.byte(*scale);
            }
        }
    }
    out.close(start, 4);
    out.finish(Refusal::MALFORMED_ARGUMENTS).expect("they fit")
}

/// The usual sighting in the order of the form, as the command saved it before
/// names had an order.
pub fn in_form_order() -> Vec<u8> {
    image(&[
        ("species", Text("porpoise")),
        ("count", Number(3, 0)),
        ("calves", Number(1, 0)),
        ("distance", Number(400, 0)),
        ("leg", Number(7, 0)),
        ("observer", Text("Anna Berg")),
    ])
}

/// In order, but for a name that stands there twice.
pub fn twice() -> Vec<u8> {
    image(&[
        ("calves", Number(1, 0)),
        ("count", Number(3, 0)),
        ("count", Number(3, 0)),
        ("observer", Text("Anna Berg")),
    ])
}

/// In order, the count being 2.50.
pub fn long_scale() -> Vec<u8> {
    image(&[
        ("count", Number(250, 2)),
        ("observer", Text("Anna Berg")),
        ("species", Text("porpoise")),
    ])
}

/// In order, zero being 0.0.
pub fn long_zero() -> Vec<u8> {
    image(&[("calves", Number(0, 1)), ("count", Number(3, 0))])
}

/// A name before one that it begins with.
pub fn prefix_behind() -> Vec<u8> {
    image(&[("counts", Number(3, 0)), ("count", Number(3, 0))])
}

/// Not in order, and a scale that no number has besides.
pub fn malformed_too() -> Vec<u8> {
    image(&[("species", Text("porpoise")), ("count", Number(30, 15))])
}
