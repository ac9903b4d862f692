//! `weszlagyo sheet`: the sheet of a sighting in English, Danish, Russian and
//! Welsh; or from a store and arguments that are given as files.

mod fields;
mod help;
mod languages;
mod options;
mod print;

use crate::failure::{both, Failure};
use crate::{files, output};
use options::Options;
use weszlagyo::Locale;

/// The most bytes of a store, and of an arguments image.
const MAX_STORE: usize = 1_048_576;
const MAX_ARGUMENTS: usize = 65_536;

/// The most bytes of a word, and of all of them with two for each.
const MAX_WORD: usize = 4_096;
const MAX_WORDS: usize = 65_535;

/// Prints what the words ask for.
pub fn run(words: &[Vec<u8>]) -> Result<(), Failure> {
    let length: usize = words.iter().map(|word| word.len() + 2).sum();
    if length > MAX_WORDS || words.iter().any(|word| word.len() > MAX_WORD) {
        return Err(Failure::line(&[b"the words are too long"]));
    }
    let options = Options::read(words)?;
    if options.help {
        return output::write(help::TEXT.as_bytes());
    }
    let arguments = match options.arguments {
        Some(word) => files::read(word, MAX_ARGUMENTS)?,
        None => fields::image(&options)?,
    };
    if let Some(word) = options.save_arguments {
        files::save(word, &arguments)?;
    }
    match options.store {
        Some(word) => {
            let store = files::read(word, MAX_STORE)?;
            let mut out = Vec::new();
            let printed = print::page(&mut out, &options, "-", &store, &arguments);
            write(&out, printed)
        }
        None => both(print_languages(&options, &arguments), save_store(&options)),
    }
}

/// Writes what was put, and says the refusal that ended it.
fn write(out: &[u8], printed: Result<(), Failure>) -> Result<(), Failure> {
    both(output::write(out), printed)
}

/// Prints the pages of the languages that are asked for.
fn print_languages(options: &Options, arguments: &[u8]) -> Result<(), Failure> {
    let mut out = Vec::new();
    let printed = languages(options).try_for_each(|locale| {
        let bundle = languages::bundle(locale, options.isolate)?;
        if !out.is_empty() && !options.lines {
            out.push(b'\n');
        }
        let name = locale.to_string();
        print::page(&mut out, options, &name, bundle.store(), arguments)
    });
    write(&out, printed)
}

/// The languages that are asked for: one, or all.
fn languages(options: &Options) -> impl DoubleEndedIterator<Item = Locale> {
    let one = options.language;
    let wanted = move |locale: &Locale| one.is_none_or(|one| one == *locale);
    languages::ALL.into_iter().filter(wanted)
}

/// Writes the store of the last language that is asked for.
fn save_store(options: &Options) -> Result<(), Failure> {
    match (options.save_store, languages(options).next_back()) {
        (Some(word), Some(locale)) => {
            let bundle = languages::bundle(locale, options.isolate)?;
            files::save(word, bundle.store())
        }
        _ => Ok(()),
    }
}
