//! Resources, and the building of them.

use crate::bytes::Writer;
use crate::operations::{self, Refusal};
use crate::syntax::Pattern;

/// Messages and terms as a resource image, at most 65,536 bytes. It is
/// well-formed: the proved check said so.
#[derive(Clone, Debug, PartialEq, Eq)]
pub struct FluentResource {
    image: Vec<u8>,
}

/// A store's bytes before its items.
pub(crate) const STORE_HEADER: usize = 9;

impl FluentResource {
    /// Begins a resource with no entry.
    pub fn builder() -> ResourceBuilder {
        ResourceBuilder::default()
    }

    /// A resource from its image, which is checked: [`Refusal::MALFORMED_RESOURCE`]
    /// if it is none.
    pub fn from_image(image: Vec<u8>) -> Result<Self, Refusal> {
        // an empty bundle with just room for it
        let mut store = vec![0; STORE_HEADER + 1 + image.len()];
        operations::new(&mut store, 0, 0)?;
        operations::add_resource_overriding(&mut store, &image)?;
        Ok(Self { image })
    }

    /// The image.
    pub fn image(&self) -> &[u8] {
        &self.image
    }
}

/// A resource that is being built: entries, each with attributes after it.
#[derive(Clone, Debug, Default, PartialEq, Eq)]
pub struct ResourceBuilder {
    entries: Vec<Entry>,
}

#[derive(Clone, Debug, PartialEq, Eq)]
struct Entry {
    kind: u8,
    id: String,
    value: Option<Pattern>,
    attributes: Vec<(String, Pattern)>,
}

impl ResourceBuilder {
    fn push(mut self, kind: u8, id: String, value: Option<Pattern>) -> Self {
        self.entries.push(Entry {
            kind,
            id,
            value,
            attributes: Vec::new(),
        });
        self
    }

    /// A message with a value.
    pub fn message(self, id: impl Into<String>, value: impl Into<Pattern>) -> Self {
        self.push(1, id.into(), Some(value.into()))
    }

    /// A message with no value, for the attributes that follow.
    pub fn message_without_value(self, id: impl Into<String>) -> Self {
        self.push(1, id.into(), None)
    }

    /// A term; its id is given without the `-`.
    pub fn term(self, id: impl Into<String>, value: impl Into<Pattern>) -> Self {
        self.push(2, id.into(), Some(value.into()))
    }

    /// An attribute of the entry that was added last.
    ///
    /// # Panics
    ///
    /// If there is no entry yet.
    pub fn attribute(mut self, name: impl Into<String>, value: impl Into<Pattern>) -> Self {
        let entry = self
            .entries
            .last_mut()
            .expect("an attribute needs an entry");
        entry.attributes.push((name.into(), value.into()));
        self
    }

    /// The resource; [`Refusal::MALFORMED_RESOURCE`] if something in it is not
    /// allowed or it is too long.
    pub fn build(&self) -> Result<FluentResource, Refusal> {
        FluentResource::from_image(self.image()?)
    }

    /// The image, which only `build` checks.
    fn image(&self) -> Result<Vec<u8>, Refusal> {
        let mut out = Writer::default();
        let start = out.open();
        out.byte(1);
        out.u16(self.entries.len());
        for entry in &self.entries {
            out.byte(entry.kind);
            out.str(&entry.id);
            out.flag(entry.value.is_some());
            if let Some(value) = &entry.value {
                value.write(&mut out);
            }
            out.u16(entry.attributes.len());
            for (name, value) in &entry.attributes {
                out.str(name);
                value.write(&mut out);
            }
        }
        out.close(start, 4);
        out.finish(Refusal::MALFORMED_RESOURCE)
    }
}
