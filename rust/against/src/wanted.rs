//! A formatting or a sheet, with what the oracle says of it.

use crate::asked::Asked;
use crate::call::Call;
use harness::case::{Case, Sheet};

/// A call, and the oracle's text and list of it, or its refusal.
pub(crate) struct Wanted {
    pub call: Call,
    pub said: Result<(Vec<u8>, Vec<u8>), u8>,
    /// They are the Rust's own.
    pub original: bool,
}

impl Wanted {
    pub fn message(case: &Case) -> Result<Self, String> {
        let e = harness::expected(case)?;
        Ok(Self {
            call: Call::new(e.store, Asked::message(case)),
            said: e.answer.map(|done| (done.text, done.list)),
            original: e.from_rust,
        })
    }

    pub fn sheet(sheet: &Sheet) -> Result<Self, String> {
        let e = harness::expected_sheet(sheet)?;
        let answer = e.answer.map_err(|refused| refused.number());
        Ok(Self {
            call: Call::new(e.store, Asked::Sheet(e.sheet)),
            said: answer.map(|done| (done.text, done.list)),
            original: e.from_rust,
        })
    }
}
