//! The sheets of `sheets/*.ftl` as resource images, the usual sighting as an
//! arguments image, and what is printed of it as a sheet image: the file that
//! embeds them, which is both Rattle, for the program `sheet`, and Rust, for the
//! command `weszlagyo`; and the file of the same images for the proofs.

use crate::case::{accepted, Bundle, Given, Item, Row, Sheet, Value};
use crate::encode;
use crate::ftl;
use crate::model::number::literal;
use fluent_syntax::ast::Resource;
use std::fmt::Write as _;
use std::path::Path;

/// The languages, by their locale byte.
pub const LANGUAGES: [&str; 4] = ["en", "da", "ru", "cy"];

/// The fields of the usual sighting.
pub const USUAL: [(&str, &str); 6] = [
    ("species", "porpoise"),
    ("count", "3"),
    ("calves", "1"),
    ("distance", "400"),
    ("leg", "7"),
    ("observer", "Anna Berg"),
];

/// The messages of a printed sheet, in their order.
pub const MESSAGES: [&str; 7] = ["sheet", LINE, "seen", LINE, "away", LINE, "who"];

/// The message between two lines, which has no arguments.
pub const LINE: &str = "line";

/// Fields as arguments in their accepted form: a number where the text is one.
pub fn arguments(fields: &[(&str, &str)]) -> Vec<(String, Value)> {
    let value = |text: &str| match literal(text.as_bytes()) {
        Some((number, _)) => Value::Number(number),
        None => Value::Text(text.into()),
    };
    let fields = fields.iter().map(|(n, v)| (n.to_string(), value(v)));
    accepted(&fields.collect::<Vec<_>>())
}

/// Where the file stands that embeds them, below the root.
pub const EMBEDDED: &str = "crates/sheet/src/embedded.rt";

/// And the one that the proofs have.
pub const PROVED: &str = "crates/languages/specs/Languages.antt";

/// The sheet of a language, read from its file below the root.
pub fn read(root: &Path, language: &str) -> Resource<String> {
    let path = root.join("sheets").join(language).with_extension("ftl");
    let source = std::fs::read_to_string(&path)
        .unwrap_or_else(|e| panic!("{} can't be read: {e}", path.display()));
    ftl::resource(&one_line_each(&source))
}

/// Each entry on a line of its own: a line that is indented, or that closes a
/// brace, goes on with the line before. Comments and empty lines are dropped.
fn one_line_each(source: &str) -> String {
    let mut out = String::new();
    for line in source.lines() {
        if line.trim().is_empty() || line.starts_with('#') {
            continue;
        }
        let goes_on = line.starts_with([' ', '}']);
        out.push(if goes_on { ' ' } else { '\n' });
        out.push_str(line.trim());
    }
    out
}

/// NUMBER, and the sentences of a language.
pub fn bundle(root: &Path, locale: usize) -> Bundle {
    Bundle {
        locale: locale as u8,
        isolating: false,
        items: vec![
            Item::Function("NUMBER".into()),
            Item::Plain(read(root, LANGUAGES[locale])),
        ],
    }
}

/// The sheet that is printed of a sighting.
pub fn sheet(bundle: Bundle, fields: &[(&str, &str)]) -> Sheet {
    let row = |message: &str| Row {
        message: message.into(),
        attribute: None,
        arguments: Given::Values(match message {
            LINE => Vec::new(),
            _ => arguments(fields),
        }),
    };
    Sheet {
        bundle,
        rows: MESSAGES.map(row).to_vec(),
    }
}

/// The text of the file: a constant for each language, the sighting, and its
/// sheet.
pub fn embedded(root: &Path) -> String {
    let mut out = String::from(
        "// The sentences as resource images, one for each language; the usual sighting as an arguments image; and the sheet image of what is printed of it. Made\n\
         // from sheets/*.ftl by `tools/sheets`: change those, and run it. The file is Rattle and Rust: the command in rust/cli has it too.\n",
    );
    for language in LANGUAGES {
        let image = encode::resource(&read(root, language));
        constant(&mut out, &language.to_uppercase(), &image);
    }
    constant(&mut out, "SIGHTING", &encode::arguments(&arguments(&USUAL)));
    let sheet = sheet(bundle(root, 0), &USUAL);
    constant(&mut out, "SHEET", &sheet.image());
    out
}

/// A constant byte array.
fn constant(out: &mut String, name: &str, bytes: &[u8]) {
    let length = bytes.len();
    write!(out, "\npub const {name}: [u8; {length}] =\n    *b\"").expect("a string takes it");
    for byte in bytes {
        match byte {
            b'"' | b'\\' => write!(out, "\\{}", *byte as char),
            b' '..=b'~' => write!(out, "{}", *byte as char),
            _ => write!(out, "\\x{byte:02X}"),
        }
        .expect("a string takes it");
    }
    out.push_str("\";\n");
}

/// The text of the file that the proofs have: the image of each language.
pub fn proved(root: &Path) -> String {
    let mut out = String::from(HEAD);
    for language in LANGUAGES {
        let image = encode::resource(&read(root, language));
        write!(
            out,
            "\nunfoldable pub {language} : Bytes\n{language} = hex \""
        )
        .expect("a string takes it");
        for byte in image {
            write!(out, "{byte:02x}").expect("a string takes it");
        }
        out.push_str("\"\n");
    }
    out
}

/// Its first lines.
const HEAD: &str = "\
-- The sentences of the four languages as resource images, those that the program `sheet` and the command embed. Made from sheets/*.ftl by `tools/sheets`:
-- change those, and run it.
use Rattle.std.specs.Prelude.{[], ◌∷◌, ◌+◌, ◌*◌}
use Prim.Native.Char.{code}
use Prim.Native.String as string
use Prim.Native.String.{String}
use Rattle.scalars.specs.Scalars.{hex_value}
use Rattle.resolution.specs.Effect.{Bytes}

-- bytes by their hexadecimal digits, two each
unfoldable pub hex : String → Bytes
hex string.[] = []
hex (string.◌∷◌ c string.[]) = []
hex (string.◌∷◌ c (string.◌∷◌ d s)) = (16 * hex_value (code c) + hex_value (code d)) ∷ hex s
";
