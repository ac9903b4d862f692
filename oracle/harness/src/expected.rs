//! What a case must give: the model's answer, with text and errors from the
//! Rust wherever it can be asked.

mod sheet;

use crate::case::{accepted, Case, Value};
use crate::encode;
use crate::model::effects::{Effect, Finished, Lengths};
use crate::model::operations;
use crate::model::reader;
use crate::model::resolve::Resolution;
use crate::rust::{self, Answer, RustBundle};

pub use sheet::{expected_sheet, ExpectedSheet};

pub struct Expected {
    pub store: Vec<u8>,
    pub arguments: Vec<u8>,
    /// The effects, or the refusal before any.
    pub prepared: Result<Resolution, u8>,
    /// With ample buffers.
    pub answer: Result<Finished, u8>,
    /// Text and errors are the Rust's own; otherwise document 01 decides.
    pub from_rust: bool,
}

impl Expected {
    /// The answer with these lengths.
    pub fn with(&self, lengths: Lengths) -> Result<Finished, u8> {
        operations::format(&self.prepared, lengths)
    }

    /// The lengths that just fit, if it finishes.
    pub fn need(&self) -> Option<Lengths> {
        let done = self.answer.as_ref().ok()?;
        Some(Lengths {
            text: done.text.len(),
            list: done.list.len(),
            workspace: done.highest,
        })
    }
}

/// The expected answer, or what differs between model and Rust.
pub fn expected(case: &Case) -> Result<Expected, String> {
    let store = encode::store(&case.bundle);
    let both = Both {
        model: reader::store(&store).ok_or("the store is refused")?,
        rust: rust::bundle(&case.bundle),
    };
    let said = both.message(&case.message, &case.attribute, &case.arguments)?;
    Ok(Expected {
        store,
        arguments: encode::arguments(&case.arguments),
        prepared: said.prepared,
        answer: said.answer,
        from_rust: said.from_rust,
    })
}

/// A bundle as the model and as the Rust has it.
struct Both {
    model: reader::Store,
    rust: RustBundle,
}

/// What one message gives.
struct Said {
    prepared: Result<Resolution, u8>,
    answer: Result<Finished, u8>,
    from_rust: bool,
}

impl Both {
    /// Formats a message with ample buffers, or says what differs. The arguments are
    /// brought to their accepted form before either side sees them.
    fn message(
        &self,
        id: &str,
        attribute: &Option<String>,
        given: &[(String, Value)],
    ) -> Result<Said, String> {
        let given = &accepted(given);
        let arguments = encode::listed(given);
        let name = attribute.as_ref().map(|a| a.as_bytes());
        let prepared = operations::message_of(&self.model, id.as_bytes(), name, &arguments);
        let mut answer = operations::format(&prepared, Lengths::AMPLE);
        let mut from_rust = false;
        let asked = || rust::format_in(&self.rust, id, attribute, given);
        match &prepared {
            Err(11) => same("no message", asked(), Answer::NoMessage)?,
            Err(12) => same("no pattern", asked(), Answer::NoPattern)?,
            Err(refusal) => return Err(format!("refused with {refusal}")),
            // The Rust has no limit there and would write all those zeros.
            Ok(resolution) if answer.is_err() => {
                let last = resolution.effects.last();
                same(
                    "17",
                    (answer.as_ref().err(), is_merge(last)),
                    (Some(&17), true),
                )?;
            }
            Ok(resolution) => {
                let finished = answer.as_mut().expect("it finished");
                from_rust = agree(resolution, finished, asked())?;
            }
        }
        Ok(Said {
            prepared,
            answer,
            from_rust,
        })
    }
}

/// Holds the model's answer to the Rust's, and says whether the Rust has one.
fn agree(resolution: &Resolution, model: &mut Finished, rust: Answer) -> Result<bool, String> {
    same("expanded", model.expanded, model.begun.min(100))?;
    match rust {
        Answer::Panic => same("a panic", resolution.unnamed, true).map(|()| false),
        Answer::Text {
            text,
            list,
            errors,
            missed,
        } => {
            same("no panic", resolution.unnamed, false)?;
            same("text", show(&model.text), text.clone())?;
            same("list", &model.list, &list)?;
            same("errors", model.errors, errors)?;
            same("unfound", model.unfound, missed)?;
            model.text = text.into_bytes();
            model.list = list;
            Ok(true)
        }
        other => Err(format!("the Rust has {other:?}")),
    }
}

fn is_merge(effect: Option<&Effect>) -> bool {
    matches!(effect, Some(Effect::Merge(_)))
}

fn show(text: &[u8]) -> String {
    String::from_utf8_lossy(text).into_owned()
}

fn same<T: PartialEq + std::fmt::Debug>(what: &str, model: T, rust: T) -> Result<(), String> {
    match model == rust {
        true => Ok(()),
        false => Err(format!("{what}: {model:?} is not {rust:?}")),
    }
}
