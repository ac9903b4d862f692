//! Arguments of a formatting.

use crate::bytes::Writer;
use crate::operations::Refusal;
use crate::value::FluentValue;
use std::borrow::Cow;

/// The most bytes an arguments image can have.
pub(crate) const MAX_ARGUMENTS: usize = 65_536;

/// No arguments, as an image.
pub(crate) const NO_ARGUMENTS: [u8; 7] = [0, 0, 0, 7, 1, 0, 0];

/// The arguments of a formatting: a value for each name, in name order.
///
/// A name is an id, as in Fluent; of another one the formatting says
/// [`Refusal::MALFORMED_ARGUMENTS`].
///
/// It does not matter in which order names are given: equal arguments have equal
/// images.
///
/// ```
/// use weszlagyo::{FluentArgs, FluentValue};
///
/// let mut sighting = FluentArgs::new();
/// sighting.set("species", "minke");
/// sighting.set("distance", FluentValue::try_number("2.50"));
/// let mut again = FluentArgs::new();
/// again.set("distance", FluentValue::try_number("2.5"));
/// again.set("species", "minke");
/// assert_eq!(sighting, again);
/// assert_eq!(sighting.image()?, again.image()?);
/// # Ok::<(), weszlagyo::Refusal>(())
/// ```
#[derive(Clone, Debug, Default, PartialEq)]
pub struct FluentArgs<'args>(Vec<(Cow<'args, str>, FluentValue<'args>)>);

impl<'args> FluentArgs<'args> {
    /// No arguments.
    pub fn new() -> Self {
        Self::default()
    }

    /// No arguments, with room for some.
    pub fn with_capacity(capacity: usize) -> Self {
        Self(Vec::with_capacity(capacity))
    }

    fn find(&self, key: &str) -> Result<usize, usize> {
        self.0.binary_search_by(|(name, _)| name.as_ref().cmp(key))
    }

    /// The value of a name.
    pub fn get<K>(&self, key: K) -> Option<&FluentValue<'args>>
    where
        K: Into<Cow<'args, str>>,
    {
        let at = self.find(&key.into()).ok()?;
        Some(&self.0[at].1)
    }

    /// Gives a name its value, in the place of the one it had.
    pub fn set<K, V>(&mut self, key: K, value: V)
    where
        K: Into<Cow<'args, str>>,
        V: Into<FluentValue<'args>>,
    {
        let (key, value) = (key.into(), value.into());
        match self.find(&key) {
            Ok(at) => self.0[at].1 = value,
            Err(at) => self.0.insert(at, (key, value)),
        }
    }

    /// Names and values, in name order.
    pub fn iter(&self) -> impl Iterator<Item = (&str, &FluentValue<'args>)> {
        self.0.iter().map(|(name, value)| (name.as_ref(), value))
    }

    /// The arguments image of documents 01 and 02: names in ascending order of
    /// their bytes, each once, and numbers with the least scale. So no formatting
    /// says [`Refusal::UNORDERED_ARGUMENTS`] of it.
    pub fn image(&self) -> Result<Vec<u8>, Refusal> {
        let mut out = Writer::default();
        let start = out.open();
        out.byte(1);
        out.u16(self.0.len());
        // `set` keeps them in the order of `str`, which is that of the bytes
        for (name, value) in &self.0 {
            out.str(name.as_bytes());
            match value {
                FluentValue::String(text) => {
                    out.byte(1);
                    out.str(text.as_bytes());
                }
                FluentValue::Number(number) => {
                    out.byte(2);
                    out.flag(number.is_negative());
                    out.u64(number.digits());
                    out.byte(number.scale());
                }
                FluentValue::None => out.byte(3),
            }
        }
        out.close(start, 4);
        out.finish(Refusal::MALFORMED_ARGUMENTS)
    }
}

impl<'args, K, V> FromIterator<(K, V)> for FluentArgs<'args>
where
    K: Into<Cow<'args, str>>,
    V: Into<FluentValue<'args>>,
{
    fn from_iter<I>(iter: I) -> Self
    where
        I: IntoIterator<Item = (K, V)>,
    {
        let mut args = Self::new();
        for (key, value) in iter {
            args.set(key, value);
        }
        args
    }
}

impl<'args> IntoIterator for FluentArgs<'args> {
    type Item = (Cow<'args, str>, FluentValue<'args>);
    type IntoIter = std::vec::IntoIter<Self::Item>;

    fn into_iter(self) -> Self::IntoIter {
        self.0.into_iter()
    }
}
