//! The bundle: a store, and the buffers that its operations are lent.

use crate::args::{FluentArgs, NO_ARGUMENTS};
use crate::buffers::{lengthen, Buffers, FIRST_LENGTH};
use crate::builtins;
use crate::errors::{read_list, EntryKind, FluentError};
use crate::locale::Locale;
use crate::operations::{self, Figures, Function, Refusal};
use crate::resource::{FluentResource, STORE_HEADER};
use std::borrow::{Borrow, Cow};

/// The most bytes a store can have.
const MAX_STORE: usize = 1_048_576;

/// Where the isolating Flag stands in a store.
const ISOLATING_AT: usize = 6;

/// Messages, terms and functions of one locale, in one store.
#[derive(Clone, Debug)]
pub struct FluentBundle {
    /// The lent slice; what is used of it stands at the front.
    store: Vec<u8>,
    locale: Locale,
}

impl Default for FluentBundle {
    fn default() -> Self {
        Self::new(Vec::new())
    }
}

impl FluentBundle {
    /// A bundle with nothing in it, for the first of the locales, or English
    /// if there is none. It isolates placeables.
    pub fn new(locales: Vec<Locale>) -> Self {
        let locale = locales.first().copied().unwrap_or_default();
        let mut store = vec![0; FIRST_LENGTH];
        operations::new(&mut store, locale.number(), 1).expect("256 bytes, a locale and a flag");
        Self { store, locale }
    }

    /// A bundle from the bytes of its store, which are checked:
    /// [`Refusal::MALFORMED_STORE`] if they are none.
    pub fn from_store(store: Vec<u8>) -> Result<Self, Refusal> {
        // a formatting refuses a malformed store before all else
        let mut bundle = Self {
            store,
            locale: Locale::En,
        };
        match bundle.probe("", None) {
            refusal @ (Refusal::MALFORMED_STORE | Refusal::NO_STACK) => Err(refusal),
            _ => {
                let number = bundle.store[ISOLATING_AT - 1];
                bundle.locale = Locale::from_number(number).ok_or(Refusal::MALFORMED_STORE)?;
                Ok(bundle)
            }
        }
    }

    /// The bytes of the store that are used.
    pub fn store(&self) -> &[u8] {
        let (length, _) = self.store.split_at(4);
        let used = length.iter().fold(0, |n, b| n << 8 | usize::from(*b));
        &self.store[..used]
    }

    /// The locale.
    pub fn locale(&self) -> Locale {
        self.locale
    }

    /// Whether placeables are set between U+2068 and U+2069. These then nest in
    /// every text, unless a text that goes in contains one: see [`isolation`].
    ///
    /// [`isolation`]: crate::isolation
    pub fn set_use_isolating(&mut self, value: bool) {
        // the Flag as a new bundle has it
        let mut header = [0; STORE_HEADER];
        operations::new(&mut header, self.locale.number(), u8::from(value))
            .expect("9 bytes, a locale and a flag");
        self.store[ISOLATING_AT] = header[ISOLATING_AT];
    }

    /// Runs an addition, with a longer slice whenever it finds the store full.
    fn add<T>(
        &mut self,
        mut addition: impl FnMut(&mut [u8]) -> Result<T, Refusal>,
    ) -> Result<T, Refusal> {
        loop {
            match addition(&mut self.store) {
                Err(Refusal::FULL_STORE) if self.store.len() < MAX_STORE => {
                    self.store.resize((self.store.len() * 2).min(MAX_STORE), 0);
                }
                other => return other,
            }
        }
    }

    /// Adds a resource. An entry whose id is held already is passed over, and
    /// gives an [`FluentError::Overriding`]; the others are added.
    pub fn add_resource<R>(&mut self, resource: R) -> Result<(), Vec<FluentError>>
    where
        R: Borrow<FluentResource>,
    {
        let image = resource.borrow().image();
        let mut list = vec![0; FIRST_LENGTH];
        let added = self.add(|slice| loop {
            match operations::add_resource(slice, image, &mut list) {
                Err(Refusal::SHORT_LIST) => lengthen(&mut list),
                other => return other,
            }
        });
        match added {
            Ok(0) => Ok(()),
            Ok(_) => Err(read_list(&list)),
            Err(refusal) => Err(vec![refusal.into()]),
        }
    }

    /// Adds a resource whose entries take their ids from those that have them.
    /// (fluent-bundle has no limit here, and answers nothing.)
    pub fn add_resource_overriding<R>(&mut self, resource: R) -> Result<(), Refusal>
    where
        R: Borrow<FluentResource>,
    {
        let image = resource.borrow().image();
        self.add(|slice| operations::add_resource_overriding(slice, image))
    }

    /// Adds a function under an id.
    pub fn add_function(&mut self, id: &str, function: Function) -> Result<(), FluentError> {
        let code = function.code();
        let added = self.add(|slice| operations::add_function(slice, id.as_bytes(), code));
        added.map_err(|refusal| match refusal {
            Refusal::HELD_ID => FluentError::Overriding {
                kind: EntryKind::Function,
                id: id.to_owned(),
            },
            refusal => refusal.into(),
        })
    }

    /// Adds `NUMBER`.
    pub fn add_builtins(&mut self) -> Result<(), FluentError> {
        self.add_function("NUMBER", builtins::NUMBER)
    }

    /// What a formatting that is lent nothing is refused for: it ends at the
    /// list, [`Refusal::SHORT_LIST`], where there is something to format.
    fn probe(&self, id: &str, attribute: Option<&str>) -> Refusal {
        let attribute = attribute.map(str::as_bytes);
        let answer = operations::format(
            &self.store,
            id.as_bytes(),
            attribute,
            &NO_ARGUMENTS,
            &mut [],
            &mut [],
            &mut [],
        );
        answer.expect_err("a list of no bytes is too short")
    }

    /// Whether there is a message of that id.
    pub fn has_message(&self, id: &str) -> bool {
        // with or without a value
        matches!(
            self.probe(id, None),
            Refusal::SHORT_LIST | Refusal::NO_PATTERN
        )
    }

    /// The message of an id.
    pub fn get_message<'l>(&'l self, id: &'l str) -> Option<FluentMessage<'l>> {
        self.has_message(id)
            .then_some(FluentMessage { bundle: self, id })
    }

    /// Formats a pattern of a message. What could not be resolved is in the
    /// errors, and so is a refusal, with which there is no text: arguments that
    /// are malformed, or more than 19 minimumFractionDigits.
    pub fn format_pattern<'b>(
        &'b self,
        pattern: impl Borrow<FluentPattern<'b>>,
        args: Option<&FluentArgs<'_>>,
        errors: &mut Vec<FluentError>,
    ) -> Cow<'b, str> {
        let pattern = pattern.borrow();
        match self.format(pattern.id, pattern.attribute, args) {
            Ok(formatted) => {
                errors.extend(formatted.errors);
                Cow::Owned(formatted.text)
            }
            Err(refusal) => {
                errors.push(refusal.into());
                Cow::Borrowed("")
            }
        }
    }

    /// Formats a message's value, or one of its attributes.
    pub fn format(
        &self,
        id: &str,
        attribute: Option<&str>,
        args: Option<&FluentArgs<'_>>,
    ) -> Result<Formatted, Refusal> {
        let mut buffers = Buffers::default();
        let figures = self.format_in(&mut buffers, id, attribute, args)?;
        Ok(Formatted {
            errors: buffers.errors(figures),
            text: buffers.into_text(figures),
            figures,
        })
    }

    /// Formats into buffers of the caller's, which can be used again: for many
    /// formattings in a row. Where one is too short it is lengthened, or, if they
    /// are [fixed](Buffers::fixed), the formatting is refused.
    pub fn format_in(
        &self,
        buffers: &mut Buffers,
        id: &str,
        attribute: Option<&str>,
        args: Option<&FluentArgs<'_>>,
    ) -> Result<Figures, Refusal> {
        let image = match args {
            None => Cow::Borrowed(NO_ARGUMENTS.as_slice()),
            Some(args) => Cow::Owned(args.image()?),
        };
        let attribute = attribute.map(str::as_bytes);
        buffers.lend(|text, list, work| {
            operations::format(
                &self.store,
                id.as_bytes(),
                attribute,
                &image,
                text,
                list,
                work,
            )
        })
    }
}

/// A message, formatted.
#[derive(Clone, Debug, PartialEq, Eq)]
pub struct Formatted {
    /// The text.
    pub text: String,
    /// What could not be resolved.
    pub errors: Vec<FluentError>,
    /// The formatting's counts.
    pub figures: Figures,
}

/// A message of a bundle.
#[derive(Clone, Copy, Debug)]
pub struct FluentMessage<'m> {
    bundle: &'m FluentBundle,
    id: &'m str,
}

impl<'m> FluentMessage<'m> {
    /// Its value, if it has one.
    pub fn value(&self) -> Option<FluentPattern<'m>> {
        self.pattern(None)
    }

    /// Its attribute of that name, the first if there are several.
    pub fn get_attribute(&self, key: &'m str) -> Option<FluentAttribute<'m>> {
        let value = self.pattern(Some(key))?;
        Some(FluentAttribute { id: key, value })
    }

    fn pattern(&self, attribute: Option<&'m str>) -> Option<FluentPattern<'m>> {
        match self.bundle.probe(self.id, attribute) {
            Refusal::SHORT_LIST => Some(FluentPattern {
                id: self.id,
                attribute,
            }),
            _ => None,
        }
    }
}

/// An attribute of a message.
#[derive(Clone, Copy, Debug)]
pub struct FluentAttribute<'m> {
    id: &'m str,
    value: FluentPattern<'m>,
}

impl<'m> FluentAttribute<'m> {
    /// Its name.
    pub fn id(&self) -> &'m str {
        self.id
    }

    /// Its pattern.
    pub fn value(&self) -> FluentPattern<'m> {
        self.value
    }
}

/// A message's value or attribute, by name; [`FluentBundle::format_pattern`]
/// formats it.
#[derive(Clone, Copy, Debug, PartialEq, Eq)]
pub struct FluentPattern<'m> {
    id: &'m str,
    attribute: Option<&'m str>,
}
