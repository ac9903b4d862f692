//! Isolation marks: U+2068 FIRST STRONG ISOLATE and U+2069 POP DIRECTIONAL
//! ISOLATE, between which a bundle that isolates sets what is filled in, so that
//! a ship's name in another script does not turn the sentence around it. The only
//! element of a pattern is not isolated, nor is a direct string literal, message
//! or term, as in fluent-bundle: give a name of its own some text beside it.
//!
//! It is proved that they nest: where no text element of the bundle's resources,
//! no string literal once its escapes are read, and no string argument contains
//! either of them, the text of every formatting and of every sheet has them
//! paired, texts that are cut short at the 101st placeable among them.
//! [`has_marks`] says whether a text contains one, [`are_paired`] whether a text
//! has them paired; these two are plain Rust, tested and not proved. Look at
//! resources when they are made, and at what is filled in: a name
//! `\u{2069}\u{2068}` leaves its isolate, and the whole is paired all the same.
//! The other directional characters are not looked at by the proof or here;
//! U+2066 and U+2067 open isolates that U+2069 closes, so a name that is to stay
//! in its isolate has none of these either.
//!
//! ```
//! use weszlagyo::isolation::{are_paired, has_marks};
//! use weszlagyo::syntax::{variable, Pattern};
//! use weszlagyo::{FluentArgs, FluentBundle, FluentResource, Locale};
//!
//! let who = Pattern::new().text("Seen from ").place(variable("ship")).text(".");
//! let resource = FluentResource::builder().message("who", who).build()?;
//! let mut bundle = FluentBundle::new(vec![Locale::En]);
//! bundle.add_resource(&resource).expect("no id is there twice");
//!
//! let mut args = FluentArgs::new();
//! for (ship, paired) in [("נחשון", true), ("Aurora\u{2069}", false)] {
//!     assert_eq!(has_marks(ship), !paired);
//!     args.set("ship", ship);
//!     let text = bundle.format("who", None, Some(&args))?.text;
//!     assert_eq!(text, format!("Seen from \u{2068}{ship}\u{2069}."));
//!     assert_eq!(are_paired(&text), paired);
//! }
//! # Ok::<(), weszlagyo::Refusal>(())
//! ```

/// U+2068, which opens an isolate.
pub const OPENING: char = '\u{2068}';

/// U+2069, which closes one.
pub const CLOSING: char = '\u{2069}';

/// Whether a text contains an isolation mark.
pub fn has_marks(text: &str) -> bool {
    text.contains([OPENING, CLOSING])
}

/// Whether the isolation marks of a text are paired: no prefix has more closing
/// than opening marks, and the whole has as many of each.
pub fn are_paired(text: &str) -> bool {
    let mut open = 0_usize;
    for c in text.chars() {
        match c {
            OPENING => open += 1,
            CLOSING if open == 0 => return false,
            CLOSING => open -= 1,
            _ => {}
        }
    }
    open == 0
}

#[cfg(test)]
mod tests {
    use super::{are_paired, has_marks};

    #[test]
    fn paired_on_every_prefix_and_on_the_whole() {
        for text in [
            "",
            "x",
            "\u{2068}\u{2069}",
            "a\u{2068}b\u{2068}c\u{2069}d\u{2069}e",
            "\u{2068}\u{2069}\u{2068}\u{2069}",
            "\u{2066}\u{2067}\u{206A}",
        ] {
            assert!(are_paired(text), "{text:?}");
        }
        for text in [
            "\u{2068}",
            "\u{2069}",
            "\u{2069}\u{2068}",
            "\u{2068}\u{2069}\u{2069}\u{2068}",
            "\u{2068}\u{2068}\u{2069}",
        ] {
            assert!(!are_paired(text), "{text:?}");
        }
    }

    #[test]
    fn marks_are_these_two() {
        assert!(has_marks("x\u{2068}"));
        assert!(has_marks("\u{2069}x"));
        assert!(!has_marks("\u{2066}\u{2067}\u{206A}x"));
    }
}
