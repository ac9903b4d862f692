//! Writing document 01's integers, strings and counts, for images that no type
//! of this crate makes. What stands in an image, and in which order, is the
//! caller's part: in an arguments image names ascend, see
//! [`operations::format`](crate::operations::format).

use crate::operations::Refusal;

/// Bytes that are being written; a length or count that its field can't hold
/// is remembered, and so is what can't be written at all.
#[derive(Clone, Debug, Default)]
pub struct Writer {
    bytes: Vec<u8>,
    refused: bool,
}

impl Writer {
    /// A byte.
    pub fn byte(&mut self, n: u8) {
        self.bytes.push(n);
    }

    /// A Flag.
    pub fn flag(&mut self, on: bool) {
        self.byte(u8::from(on));
    }

    /// Bytes as they are.
    pub fn raw(&mut self, bytes: &[u8]) {
        self.bytes.extend_from_slice(bytes);
    }

    /// A number of 64 bits.
    pub fn u64(&mut self, n: u64) {
        self.raw(&n.to_be_bytes());
    }

    /// A count or a length of 16 bits.
    pub fn u16(&mut self, n: usize) {
        let fits = u16::try_from(n);
        self.refused |= fits.is_err();
        self.raw(&fits.unwrap_or_default().to_be_bytes());
    }

    /// A Str: a length of 16 bits, and the bytes.
    pub fn str(&mut self, text: impl AsRef<[u8]>) {
        let bytes = text.as_ref();
        self.u16(bytes.len());
        self.raw(bytes);
    }

    /// A u32 for a length that is not known yet, to be `close`d.
    pub fn open(&mut self) -> usize {
        let at = self.bytes.len();
        self.raw(&[0; 4]);
        at
    }

    /// The length of what stands after the u32 at `at`, and of `counted` bytes
    /// of it.
    pub fn close(&mut self, at: usize, counted: usize) {
        let length = u32::try_from(self.bytes.len() - at - 4 + counted);
        self.refused |= length.is_err();
        self.bytes[at..at + 4].copy_from_slice(&length.unwrap_or_default().to_be_bytes());
    }

    /// In the place of something that can't be written.
    pub(crate) fn refuse(&mut self) {
        self.refused = true;
    }

    /// The bytes, or the refusal if something did not fit its field.
    pub fn finish(self, refusal: Refusal) -> Result<Vec<u8>, Refusal> {
        match self.refused {
            true => Err(refusal),
            false => Ok(self.bytes),
        }
    }
}
