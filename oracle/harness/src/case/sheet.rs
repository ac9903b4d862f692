//! A sheet as the generator makes it.

use super::{Bundle, Value};
use crate::encode;
use crate::model::reader;

#[derive(Clone, Debug)]
pub struct Sheet {
    pub bundle: Bundle,
    pub rows: Vec<Row>,
}

/// A message of a sheet.
#[derive(Clone, Debug)]
pub struct Row {
    pub message: String,
    pub attribute: Option<String>,
    pub arguments: Given,
}

/// The arguments of a message: values, which stand in the sheet in their accepted
/// form, or the bytes that stand there.
#[derive(Clone, Debug)]
pub enum Given {
    Values(Vec<(String, Value)>),
    Bytes(Vec<u8>),
}

impl Row {
    /// The row as it stands in a sheet image.
    pub fn bytes(&self) -> reader::Row {
        reader::Row {
            message: self.message.clone().into_bytes(),
            attribute: self.attribute.clone().map(String::into_bytes),
            arguments: match &self.arguments {
                Given::Values(values) => encode::arguments(values),
                Given::Bytes(bytes) => bytes.clone(),
            },
        }
    }
}

impl Sheet {
    /// The sheet image.
    pub fn image(&self) -> Vec<u8> {
        let rows: Vec<_> = self.rows.iter().map(Row::bytes).collect();
        encode::sheet(&rows)
    }
}
