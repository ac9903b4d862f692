//! A formatting or a sheet: the crate's operation, and the model's.

use crate::{formats, sheets};
use harness::case::Case;
use harness::encode;
use harness::model::effects::Lengths;
use harness::model::operations as model;
use harness::model::premises::{self, Marked};
use harness::model::resolve::Resolution;
use harness::model::sheet::{self, Prepared};
use harness::model::workspace::{self, Stopped};
use weszlagyo::operations::{self, Figures};

/// What is asked of a store.
#[derive(Clone, Debug)]
pub enum Asked {
    Message {
        id: Vec<u8>,
        attribute: Option<Vec<u8>>,
        arguments: Vec<u8>,
    },
    Sheet(Vec<u8>),
}

/// What the model makes of it, before it knows any length.
pub enum Model {
    Message(Result<Resolution, u8>),
    Sheet(Prepared),
}

impl Asked {
    pub fn message(case: &Case) -> Self {
        Self::Message {
            id: case.message.clone().into_bytes(),
            attribute: case.attribute.clone().map(String::into_bytes),
            arguments: encode::arguments(&case.arguments),
        }
    }

    /// The same with another arguments image.
    pub fn message_with(case: &Case, arguments: Vec<u8>) -> Self {
        let mut asked = Self::message(case);
        *asked.bytes() = arguments;
        asked
    }

    /// The arguments image or the sheet image.
    pub fn bytes(&mut self) -> &mut Vec<u8> {
        match self {
            Self::Message { arguments, .. } => arguments,
            Self::Sheet(image) => image,
        }
    }

    /// How many bytes that image has.
    pub fn length(&self) -> usize {
        match self {
            Self::Message { arguments, .. } => arguments.len(),
            Self::Sheet(image) => image.len(),
        }
    }

    pub fn prepare(&self, store: &[u8]) -> Model {
        match self {
            Self::Message {
                id,
                attribute,
                arguments,
            } => Model::Message(model::prepare(store, id, attribute.as_deref(), arguments)),
            Self::Sheet(image) => Model::Sheet(sheet::prepare(store, image)),
        }
    }

    /// What has a mark in the store and in what is asked of it; none where one of
    /// them is malformed.
    pub fn marked(&self, store: &[u8]) -> Option<Marked> {
        match self {
            Self::Message { arguments, .. } => premises::formatting(store, arguments),
            Self::Sheet(image) => premises::whole_sheet(store, image),
        }
    }

    /// The crate's operation on a text, a list and a workspace.
    pub fn call(&self, store: &[u8], [text, list, work]: [&mut [u8]; 3]) -> Result<Figures, u8> {
        let answer = match self {
            Self::Message {
                id,
                attribute,
                arguments,
            } => {
                let attribute = attribute.as_deref();
                operations::format(store, id, attribute, arguments, text, list, work)
            }
            Self::Sheet(image) => operations::format_sheet(store, image, text, list, work),
        };
        answer.map_err(|refusal| refusal.number())
    }
}

impl Model {
    /// The model's operation on a text, a list and a workspace.
    pub fn call(&self, [text, list, work]: [&mut [u8]; 3]) -> Result<Figures, u8> {
        match self {
            Self::Message(prepared) => {
                let answer = model::format_in(prepared, text, list, work);
                answer.map(|done| formats::figures(&done))
            }
            Self::Sheet(prepared) => {
                sheet::format_sheet(prepared, text, list, work).map(sheets::figures)
            }
        }
    }

    /// The figures with ample buffers, and the lengths that are needed.
    pub fn need(&self) -> Option<(Figures, Lengths)> {
        let (figures, list) = match self {
            Self::Message(prepared) => {
                let done = model::format(prepared, Lengths::AMPLE).ok()?;
                (formats::figures(&done), done.list.len())
            }
            Self::Sheet(prepared) => {
                let done = sheet::join(prepared, Lengths::AMPLE).ok()?;
                (sheets::figures(done.figures), done.list.len())
            }
        };
        let need = Lengths {
            text: figures.text,
            list,
            workspace: figures.work,
        };
        Some((figures, need))
    }

    /// All messages that it resolved.
    pub fn messages(&self) -> Vec<&Resolution> {
        match self {
            Self::Message(resolution) => resolution.iter().collect(),
            Self::Sheet(messages) => messages.iter().flatten().flatten().collect(),
        }
    }

    /// Whether the second model, which places the bytes, has this figure.
    pub fn is_placed(&self, figure: usize) -> bool {
        let none = Err(Stopped::Wrong("it has no effects"));
        workspace::is_exact(figure, |length| match self {
            Self::Message(Ok(resolution)) => workspace::formatting(resolution, length),
            Self::Message(Err(_)) => none,
            Self::Sheet(prepared) => workspace::sheet(prepared, length).unwrap_or(none),
        })
    }
}
