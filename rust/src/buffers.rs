//! The buffers of a formatting.

use crate::errors::{read_list, FluentError};
use crate::operations::{Figures, Refusal};
use std::borrow::Cow;

/// What a list is lent at first, and a text, and a workspace.
pub(crate) const FIRST_LENGTH: usize = 256;

/// The most bytes a list can have, as its length is a u32.
const MAX_LIST: usize = u32::MAX as usize;

/// Makes a buffer twice as long.
pub(crate) fn lengthen(buffer: &mut Vec<u8>) {
    buffer.resize((buffer.len() * 2).max(FIRST_LENGTH), 0);
}

/// The buffers of a formatting: for its text, for the list of its errors, and
/// its workspace, where the texts of selectors and arguments stand while they
/// are needed.
///
/// Those of [`with_lengths`](Self::with_lengths) are lengthened where they are
/// too short. Those of [`fixed`](Self::fixed) never are: for a device whose
/// memory is shared out beforehand.
///
/// # Choosing a workspace
///
/// Format once, with buffers that may grow, and keep
/// [`Figures::work`](crate::operations::Figures::work): it is exactly what the
/// formatting needs, whatever the buffers were. It is proved that, with a text
/// and a list at least as long, a workspace of that length, or a longer one,
/// gives the same text, errors and figures, and that any shorter one is refused
/// with [`Refusal::SHORT_WORKSPACE`]. Where `unfound` was 0, no plain additions to
/// the bundle change the figure: then it can be kept for as long as nothing
/// overriding is added; else any addition may change it. Another message,
/// attribute or other arguments may need more: take the largest of all that the
/// device prints, or the figure of a sheet of them, which is that.
///
/// ```
/// use weszlagyo::syntax::{message, select, variable, Pattern};
/// use weszlagyo::{Buffers, FluentArgs, FluentBundle, FluentResource, Refusal};
///
/// let seen = select(message("kind"))
///     .variant("minke", "a minke whale")
///     .default("other", "a whale");
/// let resource = FluentResource::builder()
///     .message("kind", variable("species"))
///     .message("seen", Pattern::new().place(seen))
///     .build()?;
/// let mut bundle = FluentBundle::default();
/// bundle.add_resource(&resource).expect("no id is there twice");
/// let args = FluentArgs::from_iter([("species", "minke")]);
///
/// let mut long = Buffers::default();
/// let figures = bundle.format_in(&mut long, "seen", None, Some(&args))?;
/// assert_eq!(figures.work, "minke".len());
///
/// // a list of 5 bytes has room for no error, only for its header
/// let mut device = Buffers::fixed(64, 5, figures.work);
/// let again = bundle.format_in(&mut device, "seen", None, Some(&args))?;
/// assert_eq!((again, device.text(again)), (figures, "a minke whale".into()));
///
/// let mut short = Buffers::fixed(64, 5, figures.work - 1);
/// let refused = bundle.format_in(&mut short, "seen", None, Some(&args));
/// assert_eq!(refused, Err(Refusal::SHORT_WORKSPACE));
/// # Ok::<(), Refusal>(())
/// ```
#[derive(Clone, Debug)]
pub struct Buffers {
    text: Vec<u8>,
    list: Vec<u8>,
    work: Vec<u8>,
    /// Whether they keep their lengths.
    is_fixed: bool,
}

impl Default for Buffers {
    fn default() -> Self {
        Self::with_lengths(FIRST_LENGTH, FIRST_LENGTH, FIRST_LENGTH)
    }
}

impl Buffers {
    /// Buffers of these lengths: for the text, the list of errors and the
    /// workspace. A formatting that finds one too short is tried again with one
    /// that is twice as long.
    pub fn with_lengths(text: usize, list: usize, work: usize) -> Self {
        Self {
            text: vec![0; text],
            list: vec![0; list],
            work: vec![0; work],
            is_fixed: false,
        }
    }

    /// Buffers that keep these lengths. A formatting that finds one too short is
    /// refused with [`Refusal::SHORT_TEXT`], [`Refusal::SHORT_LIST`] or
    /// [`Refusal::SHORT_WORKSPACE`]; they can be used again afterwards.
    ///
    /// A list needs 5 bytes; with just those no error has room. A workspace may have
    /// none.
    pub fn fixed(text: usize, list: usize, work: usize) -> Self {
        Self {
            is_fixed: true,
            ..Self::with_lengths(text, list, work)
        }
    }

    /// Whether they keep their lengths.
    pub fn is_fixed(&self) -> bool {
        self.is_fixed
    }

    /// Their lengths: of the text, the list of errors and the workspace.
    pub fn lengths(&self) -> (usize, usize, usize) {
        (self.text.len(), self.list.len(), self.work.len())
    }

    /// Runs a formatting on them; with a longer one whenever it finds one too
    /// short, unless they are fixed.
    pub(crate) fn lend(
        &mut self,
        mut formatting: impl FnMut(&mut [u8], &mut [u8], &mut [u8]) -> Result<Figures, Refusal>,
    ) -> Result<Figures, Refusal> {
        loop {
            match formatting(&mut self.text, &mut self.list, &mut self.work) {
                answer if self.is_fixed => return answer,
                Err(Refusal::SHORT_TEXT) => lengthen(&mut self.text),
                Err(Refusal::SHORT_LIST) if self.list.len() < MAX_LIST => lengthen(&mut self.list),
                Err(Refusal::SHORT_WORKSPACE) => lengthen(&mut self.work),
                other => return other,
            }
        }
    }

    /// The text of the last formatting, which gave these figures.
    pub(crate) fn into_text(mut self, figures: Figures) -> String {
        self.text.truncate(figures.text);
        String::from_utf8(self.text)
            .unwrap_or_else(|e| String::from_utf8_lossy(e.as_bytes()).into_owned())
    }

    /// The text of the last formatting, which gave these figures.
    pub fn text(&self, figures: Figures) -> Cow<'_, str> {
        String::from_utf8_lossy(self.text.get(..figures.text).unwrap_or_default())
    }

    /// The errors of the last formatting, which gave these figures.
    pub fn errors(&self, figures: Figures) -> Vec<FluentError> {
        match figures.errors {
            0 => Vec::new(),
            _ => read_list(&self.list),
        }
    }
}
