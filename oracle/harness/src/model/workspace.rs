//! The workspace by its places, apart from the counting in `effects.rs`: a byte
//! array with the texts being made at its front and the finished ones at its
//! back. Document 01: "A text still being made stands at the front, above the
//! one it interrupts; once made, it moves to the back, below those still alive
//! there. Use is the bytes of both."
//!
//! No byte is counted as it comes or goes: use is read off the places, the bytes
//! before the front's end and from the back's start on.

use super::effects::Effect;
use super::resolve::Resolution;
use super::sheet::Prepared;
use std::ops::Range;

/// Why the effects did not come to their end.
#[derive(Clone, Copy, Debug, PartialEq, Eq)]
pub enum Stopped {
    /// The next write would run into the back part: refusal 16.
    Full,
    /// Refusal 17.
    Merge,
    /// The effects are no formatting's.
    Wrong(&'static str),
}

/// A text and where it stands.
struct Text {
    place: Range<usize>,
    /// What was written, to be held against the bytes at its place.
    written: Vec<u8>,
}

pub struct Workspace {
    bytes: Vec<u8>,
    /// The texts being made, from the front, one above the other.
    making: Vec<Text>,
    /// The finished ones alive, from the back, one below the other.
    made: Vec<Text>,
    /// The highest use of the message.
    highest: usize,
}

impl Workspace {
    /// An empty one; bytes where no text stands are zero.
    pub fn new(length: usize) -> Self {
        Self {
            bytes: vec![0; length],
            making: Vec::new(),
            made: Vec::new(),
            highest: 0,
        }
    }

    /// Runs a message, and gives its figure: the highest use.
    pub fn message(&mut self, effects: &[Effect]) -> Result<usize, Stopped> {
        self.highest = 0;
        for effect in effects {
            match effect {
                Effect::Open => self.open(),
                Effect::Put(bytes) => self.put(bytes)?,
                Effect::Keep => self.keep()?,
                Effect::Read(before, text) => self.read(*before, text)?,
                Effect::Free(count) => self.free(*count)?,
                Effect::Merge(digits) if *digits > 19 => return Err(Stopped::Merge),
                Effect::Merge(_) | Effect::Report(_) => {}
                Effect::Begin | Effect::Expand | Effect::Unfound => {}
            }
        }
        self.end()?;
        Ok(self.highest)
    }

    /// Where the front part ends.
    fn front(&self) -> usize {
        self.making.last().map_or(0, |text| text.place.end)
    }

    /// Where the back part begins.
    fn back(&self) -> usize {
        self.made
            .last()
            .map_or(self.bytes.len(), |text| text.place.start)
    }

    /// The bytes of both parts.
    fn used(&self) -> usize {
        self.front() + (self.bytes.len() - self.back())
    }

    /// A text begins above the one that it interrupts.
    fn open(&mut self) {
        let front = self.front();
        self.making.push(Text {
            place: front..front,
            written: Vec::new(),
        });
    }

    /// Writes behind the text on top; without one it goes to the text buffer.
    fn put(&mut self, bytes: &[u8]) -> Result<(), Stopped> {
        let (front, back) = (self.front(), self.back());
        let Some(top) = self.making.last_mut() else {
            return Ok(());
        };
        if bytes.len() > back - front {
            return Err(Stopped::Full);
        }
        let end = front + bytes.len();
        self.bytes[front..end].copy_from_slice(bytes);
        top.place.end = end;
        top.written.extend_from_slice(bytes);
        self.highest = self.highest.max(self.used());
        Ok(())
    }

    /// The text on top is made, and moves to the back, below those there.
    fn keep(&mut self) -> Result<(), Stopped> {
        let top = self.making.pop();
        let mut text = top.ok_or(Stopped::Wrong("no text is being made"))?;
        let bytes = self.take(&text)?;
        let back = self.back();
        text.place = back - bytes.len()..back;
        self.bytes[text.place.clone()].copy_from_slice(&bytes);
        self.made.push(text);
        Ok(())
    }

    /// The bytes at a text's place, which is zero then.
    fn take(&mut self, text: &Text) -> Result<Vec<u8>, Stopped> {
        let place = &mut self.bytes[text.place.clone()];
        let bytes = place.to_vec();
        place.fill(0);
        match bytes == text.written {
            true => Ok(bytes),
            false => Err(Stopped::Wrong("a text has changed")),
        }
    }

    /// A finished text is read where it stands.
    fn read(&mut self, before: usize, bytes: &[u8]) -> Result<(), Stopped> {
        let text = self.made.get(before);
        let text = text.ok_or(Stopped::Wrong("a text is read that is not there"))?;
        match self.bytes[text.place.clone()] == *bytes {
            true => Ok(()),
            false => Err(Stopped::Wrong("another text is read")),
        }
    }

    /// The lowest finished texts are freed.
    fn free(&mut self, count: usize) -> Result<(), Stopped> {
        for _ in 0..count {
            let lowest = self.made.pop();
            let text = lowest.ok_or(Stopped::Wrong("nothing is there to be freed"))?;
            self.take(&text)?;
        }
        Ok(())
    }

    /// Nothing may be left.
    fn end(&self) -> Result<(), Stopped> {
        let empty = self.making.is_empty() && self.made.is_empty();
        match empty && self.bytes.iter().all(|byte| *byte == 0) {
            true => Ok(()),
            false => Err(Stopped::Wrong("something is left at the end")),
        }
    }
}

/// A length that is enough for whatever these effects write.
pub fn enough(effects: &[Effect]) -> usize {
    let lengths = effects.iter().map(|effect| match effect {
        Effect::Put(bytes) => bytes.len(),
        _ => 0,
    });
    lengths.sum()
}

/// The figure of a formatting, with a workspace of this length.
pub fn formatting(resolution: &Resolution, length: usize) -> Result<usize, Stopped> {
    Workspace::new(length).message(&resolution.effects)
}

/// The figure of a sheet, the largest of its messages', with a workspace of this
/// length. Where a message has no effects, for it is refused, none is given.
pub fn sheet(prepared: &Prepared, length: usize) -> Option<Result<usize, Stopped>> {
    let mut workspace = Workspace::new(length);
    let mut figures = Vec::new();
    for message in prepared.as_ref().ok()? {
        match workspace.message(&message.as_ref().ok()?.effects) {
            Ok(figure) => figures.push(figure),
            Err(stopped) => return Some(Err(stopped)),
        }
    }
    Some(Ok(figures.into_iter().max().unwrap_or(0)))
}

/// Whether a workspace of the figure is just enough: it gives that figure, and
/// one byte less is too short.
pub fn is_exact(figure: usize, with: impl Fn(usize) -> Result<usize, Stopped>) -> bool {
    let less = figure.checked_sub(1);
    with(figure) == Ok(figure) && less.is_none_or(|less| with(less) == Err(Stopped::Full))
}

/// A length that is enough for every message of a sheet.
pub fn enough_for_sheet(prepared: &Prepared) -> usize {
    let messages = prepared.as_ref().map_or(&[][..], |messages| messages);
    let lengths = messages.iter().flatten().map(|m| enough(&m.effects));
    lengths.max().unwrap_or(0)
}
