//! Sheets: messages that are formatted one behind the other in one call.

use crate::args::{FluentArgs, MAX_ARGUMENTS, NO_ARGUMENTS};
use crate::buffers::{Buffers, FIRST_LENGTH};
use crate::bundle::FluentBundle;
use crate::bytes::Writer;
use crate::errors::FluentError;
use crate::operations::{self, Figures, Refusal};
use crate::resource::STORE_HEADER;
use std::borrow::Cow;

/// The most bytes a sheet image can have.
const MAX_SHEET: usize = 1_048_576;

/// A sheet image's bytes before its messages, and where the u16 of them is that
/// counts them.
const SHEET_HEADER: usize = 7;
const COUNT_AT: usize = 5;

/// A message of a sheet: its id, the attribute that is meant in the place of its
/// value, and its arguments.
type Part<'a> = (&'a str, Option<&'a str>, Option<&'a FluentArgs<'a>>);

/// Messages with their arguments as a sheet image, for
/// [`FluentBundle::format_sheet_in`](crate::FluentBundle::format_sheet_in).
///
/// It has at most 65,535 messages and 1,048,576 bytes, and can be used for any
/// number of bundles.
///
/// ```
/// use weszlagyo::{FluentArgs, Refusal, Sheet};
///
/// let mut args = FluentArgs::new();
/// args.set("count", 3);
/// let mut sheet = Sheet::new();
/// sheet.push("title", None, None)?;
/// sheet.push("seen", Some("short"), Some(&args))?;
/// assert_eq!(sheet.len(), 2);
/// assert_eq!(sheet.push("not an id", None, None), Err(Refusal::NO_ID));
/// assert_eq!(sheet.len(), 2);
/// # Ok::<(), Refusal>(())
/// ```
#[derive(Clone, Debug, PartialEq, Eq)]
pub struct Sheet {
    image: Vec<u8>,
    count: u16,
}

impl Default for Sheet {
    fn default() -> Self {
        Self::new()
    }
}

impl Sheet {
    /// A sheet with no message.
    pub fn new() -> Self {
        let mut sheet = Self {
            image: vec![0; SHEET_HEADER],
            count: 0,
        };
        sheet.write_header();
        sheet
    }

    /// A sheet of these messages.
    fn of<'a>(messages: impl IntoIterator<Item = Part<'a>>) -> Result<Self, Refusal> {
        let mut sheet = Self::new();
        for (id, attribute, args) in messages {
            sheet.push(id, attribute, args)?;
        }
        Ok(sheet)
    }

    /// A message's value, or one of its attributes, behind the others.
    ///
    /// Refusals, which change nothing: [`Refusal::NO_ID`];
    /// [`Refusal::MALFORMED_ARGUMENTS`] where the arguments pass 65,536 bytes;
    /// [`Refusal::MALFORMED_SHEET`] where the sheet would pass its limits. What
    /// else can be wrong with the arguments, a name that is no id, is said when
    /// the sheet is formatted.
    pub fn push(
        &mut self,
        id: &str,
        attribute: Option<&str>,
        args: Option<&FluentArgs<'_>>,
    ) -> Result<(), Refusal> {
        let arguments = match args {
            None => Cow::Borrowed(NO_ARGUMENTS.as_slice()),
            Some(args) => Cow::Owned(args.image()?),
        };
        self.push_image(id, attribute, &arguments)
    }

    /// The same with an arguments image that was made elsewhere. It is refused
    /// with [`Refusal::MALFORMED_ARGUMENTS`] where its first four bytes are not
    /// its length. What is wrong inside is said when the sheet is formatted:
    /// [`Refusal::MALFORMED_ARGUMENTS`], and [`Refusal::UNORDERED_ARGUMENTS`] where
    /// the names are not in strictly ascending order of their bytes, or a number
    /// has a longer scale than it needs.
    pub fn push_image(
        &mut self,
        id: &str,
        attribute: Option<&str>,
        arguments: &[u8],
    ) -> Result<(), Refusal> {
        check_id(id)?;
        attribute.map_or(Ok(()), check_id)?;
        check_length(arguments)?;
        let mut message = Writer::default();
        message.str(id);
        message.flag(attribute.is_some());
        if let Some(attribute) = attribute {
            message.str(attribute);
        }
        message.raw(arguments);
        self.append(&message.finish(Refusal::MALFORMED_SHEET)?)
    }

    /// Puts a message's bytes behind the others.
    fn append(&mut self, message: &[u8]) -> Result<(), Refusal> {
        let fits = self.image.len() + message.len() <= MAX_SHEET;
        let count = self.count.checked_add(1).filter(|_| fits);
        self.count = count.ok_or(Refusal::MALFORMED_SHEET)?;
        self.image.extend_from_slice(message);
        self.write_header();
        Ok(())
    }

    /// The length, version 1 and the count.
    fn write_header(&mut self) {
        let length = u32::try_from(self.image.len()).expect("at most 1,048,576");
        self.image[..4].copy_from_slice(&length.to_be_bytes());
        self.image[4] = 1;
        self.image[COUNT_AT..SHEET_HEADER].copy_from_slice(&self.count.to_be_bytes());
    }

    /// How many messages it has.
    pub fn len(&self) -> usize {
        self.count.into()
    }

    /// Whether it has none.
    pub fn is_empty(&self) -> bool {
        self.count == 0
    }

    /// The sheet image of document 02.
    pub fn image(&self) -> &[u8] {
        &self.image
    }
}

impl FluentBundle {
    /// Formats messages one behind the other, in one call: each by its id, the
    /// attribute that is meant in the place of its value, and its arguments. The
    /// text is the joining of the texts that the messages give alone, and the
    /// errors are theirs, in their order. The store is checked once.
    ///
    /// A refusal is in the errors, as [`format_pattern`](Self::format_pattern)
    /// has it: of the first message that meets one, and there is no text then.
    ///
    /// ```
    /// use weszlagyo::syntax::{variable, Pattern};
    /// use weszlagyo::{FluentArgs, FluentBundle, FluentResource};
    ///
    /// let resource = FluentResource::builder()
    ///     .message("title", "Sighting sheet\n")
    ///     .message("seen", Pattern::new().place(variable("count")).text(" whales\n"))
    ///     .build()?;
    /// let mut bundle = FluentBundle::default();
    /// bundle.set_use_isolating(false);
    /// bundle.add_resource(&resource).expect("no id is there twice");
    ///
    /// let three = FluentArgs::from_iter([("count", 3)]);
    /// let five = FluentArgs::from_iter([("count", 5)]);
    /// let messages = [
    ///     ("title", None, None),
    ///     ("seen", None, Some(&three)),
    ///     ("seen", None, Some(&five)),
    /// ];
    /// let mut errors = vec![];
    /// let text = bundle.format_sheet(messages, &mut errors);
    /// assert_eq!(text, "Sighting sheet\n3 whales\n5 whales\n");
    /// assert!(errors.is_empty());
    /// # Ok::<(), weszlagyo::Refusal>(())
    /// ```
    pub fn format_sheet<'a>(
        &self,
        messages: impl IntoIterator<Item = Part<'a>>,
        errors: &mut Vec<FluentError>,
    ) -> Cow<'_, str> {
        let formatted = Sheet::of(messages).and_then(|sheet| {
            // about as long as the arguments that will stand in it
            let first = sheet.image().len().max(FIRST_LENGTH);
            let mut buffers = Buffers::with_lengths(first, FIRST_LENGTH, FIRST_LENGTH);
            let figures = self.format_sheet_in(&mut buffers, &sheet)?;
            Ok((buffers, figures))
        });
        match formatted {
            Ok((buffers, figures)) => {
                errors.extend(buffers.errors(figures));
                Cow::Owned(buffers.into_text(figures))
            }
            Err(refusal) => {
                errors.push(refusal.into());
                Cow::Borrowed("")
            }
        }
    }

    /// Formats a sheet into buffers of the caller's, as
    /// [`format_in`](Self::format_in) does a message. The figures are the sums
    /// over the messages, and of the workspace the largest of theirs.
    ///
    /// ```
    /// use weszlagyo::{Buffers, FluentBundle, FluentResource, Refusal, Sheet};
    ///
    /// let resource = FluentResource::builder().message("hello", "Hello. ").build()?;
    /// let mut bundle = FluentBundle::default();
    /// bundle.add_resource(&resource).expect("no id is there twice");
    ///
    /// let mut sheet = Sheet::new();
    /// sheet.push("hello", None, None)?;
    /// sheet.push("hello", None, None)?;
    /// let mut buffers = Buffers::default();
    /// let figures = bundle.format_sheet_in(&mut buffers, &sheet)?;
    /// assert_eq!(buffers.text(figures), "Hello. Hello. ");
    ///
    /// sheet.push("goodbye", None, None)?;
    /// let refused = bundle.format_sheet_in(&mut buffers, &sheet);
    /// assert_eq!(refused, Err(Refusal::NO_MESSAGE));
    /// # Ok::<(), Refusal>(())
    /// ```
    pub fn format_sheet_in(
        &self,
        buffers: &mut Buffers,
        sheet: &Sheet,
    ) -> Result<Figures, Refusal> {
        buffers.lend(|text, list, work| {
            operations::format_sheet(self.store(), sheet.image(), text, list, work)
        })
    }
}

/// Whether a name is an id, by the proved check of one: of a function without a
/// code that is to be added to an empty bundle the id is judged first.
fn check_id(name: &str) -> Result<(), Refusal> {
    let mut store = [0; STORE_HEADER];
    operations::new(&mut store, 0, 0)?;
    match operations::add_function(&mut store, name.as_bytes(), 0) {
        Err(Refusal::NO_CODE) => Ok(()),
        other => other,
    }
}

/// Whether an arguments image has a length that it can have, and says so.
fn check_length(arguments: &[u8]) -> Result<(), Refusal> {
    let said = u32::try_from(arguments.len()).map(u32::to_be_bytes);
    let is_said = said.is_ok_and(|said| arguments.starts_with(&said));
    let lengths = NO_ARGUMENTS.len()..=MAX_ARGUMENTS;
    match is_said && lengths.contains(&arguments.len()) {
        true => Ok(()),
        false => Err(Refusal::MALFORMED_ARGUMENTS),
    }
}
