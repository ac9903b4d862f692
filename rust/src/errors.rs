//! Errors, and the reading of the lists in which the operations leave them.

use crate::operations::Refusal;
use std::error::Error;
use std::fmt;

/// What an id stands for.
#[derive(Clone, Copy, Debug, Eq, PartialEq)]
pub enum EntryKind {
    /// A message.
    Message,
    /// A term.
    Term,
    /// A function.
    Function,
}

impl fmt::Display for EntryKind {
    fn fmt(&self, f: &mut fmt::Formatter<'_>) -> fmt::Result {
        f.write_str(match self {
            Self::Message => "message",
            Self::Term => "term",
            Self::Function => "function",
        })
    }
}

/// What went wrong in an addition or a formatting.
#[derive(Clone, Debug, Eq, PartialEq)]
pub enum FluentError {
    /// The id has an entry already, which stays.
    Overriding {
        /// What the id was to stand for.
        kind: EntryKind,
        /// The id.
        id: String,
    },
    /// A part of a message could not be resolved; the text has a stand-in.
    ResolverError(ResolverError),
    /// The operation was refused, and nothing was done. (fluent-bundle has no
    /// such limits.)
    Refused(Refusal),
}

impl fmt::Display for FluentError {
    fn fmt(&self, f: &mut fmt::Formatter<'_>) -> fmt::Result {
        match self {
            Self::Overriding { kind, id } => {
                write!(f, "Attempt to override an existing {kind}: \"{id}\".")
            }
            Self::ResolverError(error) => write!(f, "Resolver error: {error}"),
            Self::Refused(refusal) => refusal.fmt(f),
        }
    }
}

impl Error for FluentError {}

impl From<ResolverError> for FluentError {
    fn from(error: ResolverError) -> Self {
        Self::ResolverError(error)
    }
}

impl From<Refusal> for FluentError {
    fn from(refusal: Refusal) -> Self {
        Self::Refused(refusal)
    }
}

/// A reference that leads nowhere.
#[derive(Clone, Debug, Eq, PartialEq)]
pub enum ReferenceKind {
    /// `F()`
    Function {
        /// The id.
        id: String,
    },
    /// `a` or `a.b`
    Message {
        /// The id.
        id: String,
        /// The attribute, if one was asked for.
        attribute: Option<String>,
    },
    /// `-a` or `-a.b`
    Term {
        /// The id.
        id: String,
        /// The attribute, if one was asked for.
        attribute: Option<String>,
    },
    /// `$a`
    Variable {
        /// The name.
        id: String,
    },
}

/// What could not be resolved.
#[derive(Clone, Debug, Eq, PartialEq)]
pub enum ResolverError {
    /// A reference leads nowhere.
    Reference(ReferenceKind),
    /// The message has no value.
    NoValue(String),
    /// No variant matches, and none is the default.
    MissingDefault,
    /// A message refers to itself.
    Cyclic,
    /// A 101st placeable was met.
    TooManyPlaceables,
}

impl fmt::Display for ResolverError {
    fn fmt(&self, f: &mut fmt::Formatter<'_>) -> fmt::Result {
        use ReferenceKind::{Function, Message, Term, Variable};
        match self {
            Self::Reference(Function { id }) => write!(f, "Unknown function: {id}()"),
            Self::Reference(Message {
                id,
                attribute: None,
            }) => write!(f, "Unknown message: {id}"),
            Self::Reference(Message {
                id,
                attribute: Some(attribute),
            }) => write!(f, "Unknown attribute: {id}.{attribute}"),
            Self::Reference(Term {
                id,
                attribute: None,
            }) => write!(f, "Unknown term: -{id}"),
            Self::Reference(Term {
                id,
                attribute: Some(attribute),
            }) => write!(f, "Unknown attribute: -{id}.{attribute}"),
            Self::Reference(Variable { id }) => write!(f, "Unknown variable: ${id}"),
            Self::NoValue(id) => write!(f, "No value: {id}"),
            Self::MissingDefault => f.write_str("No default"),
            Self::Cyclic => f.write_str("Cyclical dependency detected"),
            Self::TooManyPlaceables => f.write_str("Too many placeables"),
        }
    }
}

impl Error for ResolverError {}

/// The errors of a list that an operation left: u32 whole length, version,
/// records. What is no such list has no errors.
pub fn read_list(list: &[u8]) -> Vec<FluentError> {
    let mut reader = Reader(list);
    let mut errors = Vec::new();
    let length = reader.take(4).map(number);
    if let Some(length) = length {
        let mut records = Reader(list.get(5..length).unwrap_or_default());
        while let Some(error) = records.str().and_then(|record| Reader(record).error()) {
            errors.push(error);
        }
    }
    errors
}

fn number(bytes: &[u8]) -> usize {
    bytes.iter().fold(0, |n, b| n << 8 | usize::from(*b))
}

struct Reader<'a>(&'a [u8]);

impl<'a> Reader<'a> {
    fn take(&mut self, count: usize) -> Option<&'a [u8]> {
        let (taken, rest) = self.0.split_at_checked(count)?;
        self.0 = rest;
        Some(taken)
    }

    fn byte(&mut self) -> Option<u8> {
        self.take(1).map(|byte| byte[0])
    }

    /// u16 length and bytes.
    fn str(&mut self) -> Option<&'a [u8]> {
        let length = number(self.take(2)?);
        self.take(length)
    }

    fn id(&mut self) -> Option<String> {
        Some(String::from_utf8_lossy(self.str()?).into_owned())
    }

    fn error(&mut self) -> Option<FluentError> {
        Some(match self.byte()? {
            1 => FluentError::Overriding {
                kind: match self.byte()? {
                    1 => EntryKind::Message,
                    _ => EntryKind::Term,
                },
                id: self.id()?,
            },
            2 => {
                let (kind, id) = (self.byte()?, self.id()?);
                let attribute = match self.byte()? {
                    0 => None,
                    _ => Some(self.id()?),
                };
                ResolverError::Reference(match kind {
                    1 => ReferenceKind::Message { id, attribute },
                    2 => ReferenceKind::Term { id, attribute },
                    3 => ReferenceKind::Function { id },
                    _ => ReferenceKind::Variable { id },
                })
                .into()
            }
            3 => ResolverError::NoValue(self.id()?).into(),
            4 => ResolverError::MissingDefault.into(),
            5 => ResolverError::Cyclic.into(),
            6 => ResolverError::TooManyPlaceables.into(),
            _ => return None,
        })
    }
}
