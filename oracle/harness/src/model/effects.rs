//! What a formatting does, in order, and the running of it against three
//! buffer lengths.

use super::errors;

#[derive(Clone, Debug, PartialEq)]
pub enum Effect {
    /// Text is written: to the text, or to the workspace text on top.
    Put(Vec<u8>),
    /// A record is listed.
    Report(Vec<u8>),
    /// A placeable is begun.
    Begin,
    /// Resolving a placeable's expression starts.
    Expand,
    /// A lookup met an id with no entry of any kind.
    Unfound,
    /// A workspace text is begun.
    Open,
    /// The workspace text on top is finished and kept.
    Keep,
    /// As many of the kept texts are freed, the latest first.
    Free(usize),
    /// A kept text is read, to be written, merged or compared with keys: how
    /// many were kept before it, and its bytes.
    Read(usize, Vec<u8>),
    /// minimumFractionDigits is merged.
    Merge(u64),
}

#[derive(Clone, Copy, Debug, PartialEq)]
pub struct Lengths {
    pub text: usize,
    pub list: usize,
    pub workspace: usize,
}

impl Lengths {
    /// Longer than any case needs.
    pub const AMPLE: Self = Self {
        text: usize::MAX / 2,
        list: usize::MAX / 2,
        workspace: usize::MAX / 2,
    };
}

#[derive(Clone, Debug, PartialEq)]
pub struct Finished {
    pub text: Vec<u8>,
    /// The whole list, with its header.
    pub list: Vec<u8>,
    pub errors: usize,
    pub begun: u8,
    pub expanded: u8,
    pub unfound: u32,
    /// The highest use of the workspace.
    pub highest: usize,
}

/// Runs the effects until the end or the first refusal.
pub fn run(effects: &[Effect], lengths: Lengths) -> Result<Finished, u8> {
    let mut text = Vec::new();
    let mut records = Vec::new();
    let mut listed = 5;
    let (mut begun, mut expanded, mut unfound) = (0, 0, 0);
    let mut open: Vec<usize> = Vec::new();
    let mut kept: Vec<usize> = Vec::new();
    let (mut used, mut highest) = (0, 0);
    for effect in effects {
        match effect {
            Effect::Put(bytes) => match open.last_mut() {
                None => {
                    if !bytes.is_empty() && text.len() + bytes.len() > lengths.text {
                        return Err(15);
                    }
                    text.extend_from_slice(bytes);
                }
                Some(top) => {
                    if !bytes.is_empty() && used + bytes.len() > lengths.workspace {
                        return Err(16);
                    }
                    *top += bytes.len();
                    used += bytes.len();
                    highest = highest.max(used);
                }
            },
            Effect::Report(record) => {
                listed += record.len();
                if listed > lengths.list {
                    return Err(7);
                }
                records.push(record.clone());
            }
            Effect::Begin => begun += 1,
            Effect::Expand => expanded += 1,
            Effect::Unfound => unfound += 1,
            Effect::Open => open.push(0),
            Effect::Keep => kept.push(open.pop().expect("an open text")),
            Effect::Free(count) => {
                for _ in 0..*count {
                    used -= kept.pop().expect("a kept text");
                }
            }
            Effect::Read(..) => {}
            Effect::Merge(digits) => {
                if *digits > 19 {
                    return Err(17);
                }
            }
        }
    }
    assert!(open.is_empty() && kept.is_empty() && used == 0);
    Ok(Finished {
        text,
        list: errors::list(&records),
        errors: records.len(),
        begun,
        expanded,
        unfound,
        highest,
    })
}
