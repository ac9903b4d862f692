//! A sheet, or the messages of one, formatted and put as they are printed.

use super::options::Options;
use crate::failure::Failure;
use weszlagyo::isolation::are_paired;
use weszlagyo::operations::{self, read_list, Figures};
use weszlagyo::{FluentBundle, FluentError, Refusal, Sheet};

/// What is lent for the text of a message, its error list and, unless another is
/// asked for, its workspace: what needs more is refused.
const ROOM: usize = 65_536;

/// The messages of a sheet, and the one that stands between two of them.
const MESSAGES: [&str; 4] = ["sheet", "seen", "away", "who"];
const LINE: &str = "line";

/// A store and the arguments of a sighting.
struct Page<'a> {
    options: &'a Options<'a>,
    language: &'a str,
    store: &'a [u8],
    arguments: &'a [u8],
}

/// Said of a text whose isolation marks are not paired. It is proved that nothing
/// else leads to that.
const UNPAIRED: &str =
    "Isolation marks that are not paired: a sentence or a field contains U+2068 or U+2069";

/// Said of an arguments image that is refused with 19. One that is made of fields
/// never is.
const UNORDERED: &str = "names must ascend by their bytes, each once, and no number have a zero \
    at the end of its fraction; --save-arguments writes fields so";

/// What was formatted.
struct Formatted {
    text: Vec<u8>,
    errors: Vec<FluentError>,
    figures: Figures,
}

/// Puts a sheet, or the one message that is asked for.
pub fn page(
    out: &mut Vec<u8>,
    options: &Options,
    language: &str,
    store: &[u8],
    arguments: &[u8],
) -> Result<(), Failure> {
    let page = Page {
        options,
        language,
        store,
        arguments,
    };
    match options.message {
        Some(id) => page.put_message(out, id, options.attribute),
        None if options.lines => MESSAGES
            .iter()
            .try_for_each(|id| page.put_message(out, id.as_bytes(), None)),
        None => page.put_sheet(out),
    }
}

/// The sheet that is printed of a sighting.
fn sheet(arguments: &[u8]) -> Result<Sheet, Refusal> {
    let mut sheet = Sheet::new();
    for id in MESSAGES {
        if !sheet.is_empty() {
            sheet.push(LINE, None, None)?;
        }
        sheet.push_image(id, None, arguments)?;
    }
    Ok(sheet)
}

impl Page<'_> {
    /// Formats a message by itself, and puts it.
    fn put_message(
        &self,
        out: &mut Vec<u8>,
        id: &[u8],
        attribute: Option<&[u8]>,
    ) -> Result<(), Failure> {
        let message = Formatted::new(ROOM, self.workspace(), |text, list, work| {
            operations::format(self.store, id, attribute, self.arguments, text, list, work)
        });
        let message = message.map_err(|refusal| self.failure(refusal))?;
        match self.options.lines {
            true => message.put_line(out, self.language, id),
            false => message.put(out, self.options.figures),
        }
        Ok(())
    }

    /// Formats the sheet in one call, and puts it.
    fn put_sheet(&self, out: &mut Vec<u8>) -> Result<(), Failure> {
        let sheet = sheet(self.arguments)?;
        // what there is room for alone has room among the others
        let room = sheet.len() * ROOM;
        let formatted = Formatted::new(room, self.workspace(), |text, list, work| {
            operations::format_sheet(self.store, sheet.image(), text, list, work)
        });
        let formatted = formatted.map_err(|refusal| self.refused(refusal))?;
        formatted.put(out, self.options.figures);
        Ok(())
    }

    /// A refusal of the sheet; where a message is missing, which it is.
    fn refused(&self, refusal: Refusal) -> Failure {
        match self.missing() {
            Some(id) if matches!(refusal, Refusal::NO_MESSAGE | Refusal::NO_PATTERN) => {
                let words =
                    format!("{refusal}: {id} (a sheet needs sheet, line, seen, away and who)");
                Failure::line(&[words.as_bytes()])
            }
            _ => self.failure(refusal),
        }
    }

    /// How many bytes are lent as the workspace.
    fn workspace(&self) -> usize {
        self.options.workspace.unwrap_or(ROOM)
    }

    /// The failure that a refusal is; of some with what can be done about it.
    fn failure(&self, refusal: Refusal) -> Failure {
        let hint = match refusal {
            Refusal::SHORT_WORKSPACE => self.lent(),
            Refusal::UNORDERED_ARGUMENTS => UNORDERED.to_string(),
            _ => return refusal.into(),
        };
        Failure::line(&[format!("{refusal}: {hint}").as_bytes()])
    }

    /// How long the workspace was, and how another is lent.
    fn lent(&self) -> String {
        match self.options.workspace {
            None => format!("{ROOM} bytes were lent; --workspace lends another"),
            Some(1) => "1 byte was lent".to_string(),
            Some(lent) => format!("{lent} bytes were lent"),
        }
    }

    /// The first message of the sheet that the store has not, or not with a
    /// value.
    fn missing(&self) -> Option<&'static str> {
        let bundle = FluentBundle::from_store(self.store.to_vec()).ok()?;
        let has = |id: &&str| bundle.get_message(id).is_some_and(|m| m.value().is_some());
        let [first, others @ ..] = MESSAGES;
        let mut all = [first, LINE].into_iter().chain(others);
        all.find(|id| !has(id))
    }
}

impl Formatted {
    /// What a formatting leaves in a text and a list of one length, with a
    /// workspace of another.
    fn new(
        room: usize,
        workspace: usize,
        format: impl FnOnce(&mut [u8], &mut [u8], &mut [u8]) -> Result<Figures, Refusal>,
    ) -> Result<Self, Refusal> {
        let (mut text, mut list, mut work) = (vec![0; room], vec![0; room], vec![0; workspace]);
        let figures = format(&mut text, &mut list, &mut work)?;
        text.truncate(figures.text);
        Ok(Self {
            text,
            errors: read_list(&list),
            figures,
        })
    }

    /// What there is to say of the text: its errors, in order, and whether its
    /// isolation marks are not paired.
    fn remarks(&self) -> impl Iterator<Item = String> + '_ {
        let paired = std::str::from_utf8(&self.text).is_ok_and(are_paired);
        let unpaired = (!paired).then(|| UNPAIRED.to_string());
        self.errors.iter().map(words).chain(unpaired)
    }

    /// The text, each remark on a line of its own, and the figures if they are
    /// asked for.
    fn put(&self, out: &mut Vec<u8>, figures: bool) {
        out.extend(&self.text);
        for remark in self.remarks() {
            out.extend(b"\n    ! ");
            out.extend(remark.as_bytes());
        }
        if figures {
            let f = self.figures;
            let line = format!(
                "\n    begun {}, unfound {}, errors {}, bytes {}, workspace {}",
                f.begun, f.unfound, f.errors, f.text, f.work
            );
            out.extend(line.as_bytes());
        }
        out.push(b'\n');
    }

    /// One line of a message, its parts set apart by tabs; a space for each
    /// control byte of the text.
    fn put_line(&self, out: &mut Vec<u8>, language: &str, id: &[u8]) {
        let f = self.figures;
        out.extend(language.as_bytes());
        out.push(b'\t');
        out.extend(id);
        let counts = format!("\t{}\t{}\t{}\t", f.begun, f.unfound, f.errors);
        out.extend(counts.as_bytes());
        out.extend(self.text.iter().map(|b| (*b).max(b' ')));
        for error in &self.errors {
            out.push(b'\t');
            out.extend(words(error).as_bytes());
        }
        out.push(b'\n');
    }
}

/// An error in the words of the Rust's own `ResolverError`.
fn words(error: &FluentError) -> String {
    match error {
        FluentError::ResolverError(error) => error.to_string(),
        other => other.to_string(),
    }
}

#[cfg(test)]
mod tests {
    use super::super::languages::{USUAL, USUAL_SHEET};
    use super::sheet;

    #[test]
    fn the_usual_sheet_is_that_of_the_rattle_program() {
        let sheet = sheet(USUAL).expect("it fits");
        assert_eq!(sheet.image(), USUAL_SHEET);
    }
}
