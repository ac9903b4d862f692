//! Document 02's sheet in one call: messages one after the other, each as if it
//! were alone, against what those before it left of the text and the list.

use super::effects::{run, Finished, Lengths};
use super::operations::message_of;
use super::reader;
use super::resolve::Resolution;

/// A list has no more bytes than its first four can state.
const LIST_LIMIT: usize = 4_294_967_295;

/// What a finished sheet carries.
#[derive(Clone, Copy, Debug, Default, PartialEq)]
pub struct Figures {
    pub text: usize,
    pub errors: usize,
    pub begun: usize,
    pub unfound: u64,
    /// The largest of the messages' highest uses of the workspace.
    pub highest: usize,
}

/// A refusal, and what it leaves of the three buffers.
#[derive(Clone, Copy, Debug, PartialEq)]
pub enum Refused {
    /// Before any message: every byte as it was.
    Unchanged(u8),
    /// Met by a message: every byte zero.
    Cleared(u8),
}

impl Refused {
    pub fn number(self) -> u8 {
        match self {
            Self::Unchanged(number) | Self::Cleared(number) => number,
        }
    }
}

/// A finished sheet: the texts and the records of its messages, joined.
#[derive(Clone, Debug, PartialEq)]
pub struct Joined {
    pub text: Vec<u8>,
    /// The whole list, under its one header.
    pub list: Vec<u8>,
    pub figures: Figures,
}

/// What each message does, up to the first that is refused before its run; or
/// the refusal of store or sheet, 4 before 18.
pub type Prepared = Result<Vec<Result<Resolution, u8>>, u8>;

/// Reads the store and the sheet, and resolves the messages.
pub fn prepare(store: &[u8], sheet: &[u8]) -> Prepared {
    let store = reader::store(store).ok_or(4)?;
    let rows = reader::sheet(sheet).ok_or(18)?;
    let mut messages = Vec::new();
    for row in rows {
        let attribute = row.attribute.as_deref();
        let message = message_of(&store, &row.message, attribute, &row.arguments);
        let refused = message.is_err();
        messages.push(message);
        if refused {
            break;
        }
    }
    Ok(messages)
}

/// The sheet with these lengths.
pub fn join(prepared: &Prepared, lengths: Lengths) -> Result<Joined, Refused> {
    let messages = prepared.as_ref().map_err(|n| Refused::Unchanged(*n))?;
    if lengths.list < 5 {
        return Err(Refused::Unchanged(7));
    }
    let mut sheet = Joined {
        text: Vec::new(),
        list: vec![0, 0, 0, 5, 1],
        figures: Figures::default(),
    };
    for message in messages {
        // 11, 12, 13 and 19 come in the message's turn, after all runs before it
        let resolution = message.as_ref().map_err(|n| Refused::Cleared(*n))?;
        let left = left(lengths, sheet.text.len(), sheet.list.len());
        sheet.add(run(&resolution.effects, left).map_err(Refused::Cleared)?);
    }
    let length = u32::try_from(sheet.list.len()).expect("within the limit");
    sheet.list[..4].copy_from_slice(&length.to_be_bytes());
    sheet.figures.text = sheet.text.len();
    Ok(sheet)
}

/// What is left for the next message behind a text and a list of so many bytes:
/// its list has a header of its own, so that of the sheet counts once more.
pub fn left(lengths: Lengths, text: usize, list: usize) -> Lengths {
    Lengths {
        text: lengths.text - text,
        list: lengths.list.min(LIST_LIMIT) - list + 5,
        workspace: lengths.workspace,
    }
}

impl Joined {
    /// Puts a message's text and records behind those that are there.
    fn add(&mut self, message: Finished) {
        self.text.extend_from_slice(&message.text);
        self.list.extend_from_slice(&message.list[5..]);
        self.figures.errors += message.errors;
        self.figures.begun += usize::from(message.begun);
        self.figures.unfound += u64::from(message.unfound);
        self.figures.highest = self.figures.highest.max(message.highest);
    }
}

/// The whole operation on three lent buffers.
pub fn format_sheet(
    prepared: &Prepared,
    text: &mut [u8],
    list: &mut [u8],
    workspace: &mut [u8],
) -> Result<Figures, u8> {
    let lengths = Lengths {
        text: text.len(),
        list: list.len(),
        workspace: workspace.len(),
    };
    match join(prepared, lengths) {
        Ok(sheet) => {
            text[..sheet.text.len()].copy_from_slice(&sheet.text);
            list[..sheet.list.len()].copy_from_slice(&sheet.list);
            workspace.fill(0);
            Ok(sheet.figures)
        }
        Err(Refused::Cleared(number)) => {
            text.fill(0);
            list.fill(0);
            workspace.fill(0);
            Err(number)
        }
        Err(Refused::Unchanged(number)) => Err(number),
    }
}
