//! The options of `sheet`. Of equal options the last holds.

use super::fields::{Field, FIELDS};
use super::languages;
use crate::failure::Failure;
use weszlagyo::Locale;

/// What the words ask for.
#[derive(Debug, Default)]
pub struct Options<'a> {
    pub help: bool,
    pub figures: bool,
    pub lines: bool,
    pub isolate: bool,
    pub language: Option<Locale>,
    pub message: Option<&'a [u8]>,
    pub attribute: Option<&'a [u8]>,
    pub store: Option<&'a [u8]>,
    pub arguments: Option<&'a [u8]>,
    pub save_store: Option<&'a [u8]>,
    pub save_arguments: Option<&'a [u8]>,
    /// The bytes of the workspace, where they are given.
    pub workspace: Option<usize>,
    /// A value for each of the fields, in their order, where one is given.
    pub given: [Option<&'a [u8]>; FIELDS.len()],
    /// The fields that are left out.
    pub left_out: [bool; FIELDS.len()],
}

impl<'a> Options<'a> {
    /// Reads the words, up to the first that is wrong.
    pub fn read(words: &'a [Vec<u8>]) -> Result<Self, Failure> {
        let mut options = Self::default();
        let mut words = words.iter().map(Vec::as_slice);
        while let Some(word) = words.next() {
            if let Some(flag) = options.flag(word) {
                *flag = true;
            } else if let Some(option) = Valued::named(word) {
                let value = words.next();
                let taken = value.and_then(|value| options.take(option, value));
                taken.ok_or_else(|| needs(word, option))?;
            } else {
                return Err(Failure::line(&[b"there is no option ", word, HELP]));
            }
        }
        Ok(options)
    }

    /// The option that stands alone.
    fn flag(&mut self, word: &[u8]) -> Option<&mut bool> {
        Some(match word {
            b"--help" => &mut self.help,
            b"--figures" => &mut self.figures,
            b"--lines" => &mut self.lines,
            b"--isolate" => &mut self.isolate,
            _ => return None,
        })
    }

    /// Gives an option its value, if the value names what it has to.
    fn take(&mut self, option: Valued, value: &'a [u8]) -> Option<()> {
        match option {
            Valued::Field(at) => self.given[at] = Some(value),
            Valued::No => self.left_out[Field::named(value)?] = true,
            Valued::Language => {
                let named = |locale: &Locale| locale.to_string().as_bytes() == value;
                self.language = Some(languages::ALL.into_iter().find(named)?);
            }
            Valued::Message => self.message = Some(value),
            Valued::Attribute => self.attribute = Some(value),
            Valued::Store => self.store = Some(value),
            Valued::Arguments => self.arguments = Some(value),
            Valued::SaveStore => self.save_store = Some(value),
            Valued::SaveArguments => self.save_arguments = Some(value),
            Valued::Workspace => self.workspace = Some(bytes(value)?),
        }
        Some(())
    }
}

/// An option that a value follows.
#[derive(Clone, Copy)]
enum Valued {
    Field(usize),
    No,
    Language,
    Message,
    Attribute,
    Store,
    Arguments,
    SaveStore,
    SaveArguments,
    Workspace,
}

impl Valued {
    fn named(word: &[u8]) -> Option<Self> {
        let name = word.strip_prefix(b"--")?;
        Some(match name {
            b"no" => Self::No,
            b"language" => Self::Language,
            b"message" => Self::Message,
            b"attribute" => Self::Attribute,
            b"store" => Self::Store,
            b"arguments" => Self::Arguments,
            b"save-store" => Self::SaveStore,
            b"save-arguments" => Self::SaveArguments,
            b"workspace" => Self::Workspace,
            name => Self::Field(Field::named(name)?),
        })
    }
}

/// The most bytes that are lent as a workspace.
const MAX_WORKSPACE: usize = 16_777_216;

/// A number of bytes, in digits.
fn bytes(value: &[u8]) -> Option<usize> {
    let is_digits = value.iter().all(u8::is_ascii_digit);
    let digits = std::str::from_utf8(value).ok().filter(|_| is_digits)?;
    digits.parse().ok().filter(|n| *n <= MAX_WORKSPACE)
}

const HELP: &[u8] = b"; --help says how to use it";

/// Says what an option needs.
fn needs(word: &[u8], option: Valued) -> Failure {
    let bytes = format!("a number of bytes (0 to {MAX_WORKSPACE})");
    let what = match option {
        Valued::No => "a field (species, count, calves, distance, leg or observer)",
        Valued::Language => "a language (en, da, ru or cy)",
        Valued::Workspace => &bytes,
        _ => "a value",
    };
    Failure::line(&[word, b" needs ", what.as_bytes(), HELP])
}
