//! Plain additions to a bundle's slice: resources that are accepted, repeat ids,
//! are malformed or do not fit, and functions that are accepted or refused.

use crate::generator::text;
use crate::model::operations;
use crate::random::Random;
use crate::vectors::formats::hurt;
use crate::{encode, ftl, Maker};
use fluent_syntax::ast::*;

pub enum Addition {
    Resource {
        image: Vec<u8>,
        /// What the image was made from; its bytes may be changed since.
        tree: Resource<String>,
        /// The length of the list that is lent.
        list: usize,
    },
    Function {
        id: String,
        code: u8,
    },
}

/// Sources with ids that bundles have, under their own kind or another one.
const REPEATED: [&str; 6] = [
    "a = other",
    "p = q\n-t = q",
    "t = q\n-a = q",
    "b = { a }\nc = { -t }\nzz = z",
    "-u = { $n }\nNUMBER = q",
    "w = { p -> *[o] x }\n.x = y",
];

/// Sources with ids that they seldom have.
const NEW: [&str; 4] = ["new = { a }", "zz = z\n-zy = y", "F = f", "-n = { $n }"];

/// The next addition to a slice.
pub fn addition(r: &mut Random, maker: &mut Maker, slice: &[u8]) -> Addition {
    if r.one_in(12) {
        // Now the maker's patterns have placeables.
        maker.bundle();
    }
    let tree = match r.below(12) {
        0 | 1 => maker.resource(),
        2..=4 => ftl::resource(word(r, &REPEATED)),
        5 => ftl::resource(word(r, &NEW)),
        6 => return malformed(r, maker.resource()),
        7 => long(r, slice),
        8 => return short_list(r, slice),
        9 | 10 => return function(word(r, &["NUMBER", "F", "G", "H2", "a", "t"]), 1),
        _ => return refused(r),
    };
    let image = encode::resource(&tree);
    let list = list_length(slice, &image) + if r.one_in(3) { r.below(9) } else { 0 };
    Addition::Resource { image, tree, list }
}

fn word(r: &mut Random, words: &[&'static str]) -> &'static str {
    words[r.below(words.len())]
}

fn function(id: &str, code: u8) -> Addition {
    Addition::Function {
        id: id.into(),
        code,
    }
}

/// A function that is no Id, or has another code.
fn refused(r: &mut Random) -> Addition {
    match r.one_in(2) {
        true => function(word(r, &["", "1a", "-t", "a b", "é", "_"]), 1),
        false => function(word(r, &["F", "G", "a"]), *r.pick(&[0, 2, 255])),
    }
}

/// An image with changed bytes.
fn malformed(r: &mut Random, tree: Resource<String>) -> Addition {
    let mut image = encode::resource(&tree);
    hurt(r, &mut image);
    Addition::Resource {
        image,
        tree,
        list: 64,
    }
}

/// A resource that is a little too long for the slice, or just fits.
fn long(r: &mut Random, slice: &[u8]) -> Resource<String> {
    let used = slice
        .get(..4)
        .map_or(0, |b| b.iter().fold(0, |n, b| n << 8 | usize::from(*b)));
    let one = encode::resource(&filled("l", 1)).len();
    let room = slice.len().saturating_sub(used + one);
    filled("l", 1 + room.min(60_000) + r.below(4))
}

fn filled(name: &str, length: usize) -> Resource<String> {
    let elements = vec![text(&"l".repeat(length))];
    Resource {
        body: vec![Entry::Message(Message {
            id: Identifier { name: name.into() },
            value: Some(Pattern { elements }),
            attributes: Vec::new(),
        })],
    }
}

/// A resource that fits, with a list that is too short for its records.
fn short_list(r: &mut Random, slice: &[u8]) -> Addition {
    let tree = ftl::resource(word(r, &REPEATED));
    let image = encode::resource(&tree);
    let list = r.below(list_length(slice, &image));
    Addition::Resource { image, tree, list }
}

/// How long a list this image needs; 64 where it is refused.
fn list_length(slice: &[u8], image: &[u8]) -> usize {
    let mut list = vec![0; 4096];
    match operations::add_resource(&mut slice.to_vec(), image, Some(&mut list)) {
        Ok(_) => usize::from(list[2]) << 8 | usize::from(list[3]),
        Err(_) => 64,
    }
}
