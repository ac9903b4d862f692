//! A formatting that is asked for, of a message or a sheet, and what it leaves
//! in buffers of any lengths.

use weszlagyo::operations::{self, Figures};
use weszlagyo::{FluentArgs, Refusal, Sheet};

/// More than any text or list here needs.
const LONG: usize = 4_096;

/// A workspace that is longer than any here.
const MUCH: usize = 65_536;

/// What is formatted.
pub enum Asked<'a> {
    Message {
        id: &'a str,
        attribute: Option<&'a str>,
        arguments: Vec<u8>,
    },
    Sheet(Sheet),
}

/// The lengths of text, list and workspace.
#[derive(Clone, Copy, Debug)]
pub struct Lengths {
    text: usize,
    list: usize,
    work: usize,
}

impl Lengths {
    pub fn new(text: usize, list: usize, work: usize) -> Self {
        Self { text, list, work }
    }
}

/// What a call left: its answer, and every byte that it was lent.
#[derive(Clone, Debug, PartialEq, Eq)]
pub struct Left {
    pub answer: Result<Figures, Refusal>,
    pub text: Vec<u8>,
    pub list: Vec<u8>,
    pub work: Vec<u8>,
}

impl<'a> Asked<'a> {
    pub fn message(id: &'a str, attribute: Option<&'a str>, given: &FluentArgs) -> Self {
        Self::Message {
            id,
            attribute,
            arguments: given.image().expect("they fit"),
        }
    }

    /// Runs it on buffers that are full of one byte.
    pub fn call(&self, store: &[u8], lengths: Lengths, fill: u8) -> Left {
        let mut text = vec![fill; lengths.text];
        let mut list = vec![fill; lengths.list];
        let mut work = vec![fill; lengths.work];
        let answer = match self {
            Self::Message {
                id,
                attribute,
                arguments,
            } => operations::format(
                store,
                id.as_bytes(),
                attribute.map(str::as_bytes),
                arguments,
                &mut text,
                &mut list,
                &mut work,
            ),
            Self::Sheet(sheet) => {
                operations::format_sheet(store, sheet.image(), &mut text, &mut list, &mut work)
            }
        };
        Left {
            answer,
            text,
            list,
            work,
        }
    }

    /// With all buffers long.
    pub fn finished(&self, store: &[u8]) -> Left {
        let left = self.call(store, Lengths::new(LONG, LONG, MUCH), 0xAA);
        assert!(left.answer.is_ok(), "{:?}", left.answer);
        left
    }
}

impl Left {
    /// The figures, and the bytes of text and list that were written.
    pub fn written(&self) -> (Figures, &[u8], &[u8]) {
        let figures = self.answer.expect("finished");
        let (length, _) = self.list.split_first_chunk().expect("a header");
        let length = u32::from_be_bytes(*length) as usize;
        (figures, &self.text[..figures.text], &self.list[..length])
    }

    /// Whether it finished with what another wrote, and left the bytes behind
    /// that, and the workspace zero.
    fn is_like(&self, other: &Self, fill: u8) -> bool {
        let (figures, text, list) = other.written();
        let is_filled = |bytes: &[u8]| bytes.iter().all(|b| *b == fill);
        self.answer == Ok(figures)
            && self.text.strip_prefix(text).is_some_and(is_filled)
            && self.list.strip_prefix(list).is_some_and(is_filled)
            && self.work.iter().all(|b| *b == 0)
    }

    /// Whether it was refused with 16, and all is zero.
    fn is_short(&self) -> bool {
        let mut all = [&self.text, &self.list, &self.work].into_iter().flatten();
        self.answer == Err(Refusal::SHORT_WORKSPACE) && all.all(|b| *b == 0)
    }
}

/// Holds a formatting to its figure: it is that with long buffers, a workspace of
/// just that length and longer ones finish alike, and every shorter one is
/// refused; with a text and a list that just fit, and with longer ones of any
/// contents.
pub fn hold(store: &[u8], asked: &Asked, figure: usize) -> Figures {
    hold_from(store, asked, figure, 0)
}

/// The same, of the shorter ones only with that of one byte less.
pub fn hold_edge(store: &[u8], asked: &Asked, figure: usize) -> Figures {
    hold_from(store, asked, figure, figure.saturating_sub(1))
}

/// The same, of the shorter ones only from that length on.
fn hold_from(store: &[u8], asked: &Asked, figure: usize, shortest: usize) -> Figures {
    let first = asked.finished(store);
    let (figures, text, list) = first.written();
    assert_eq!(figures.work, figure);
    let (text, list) = (text.len(), list.len());
    for (text, list) in [
        (text, list),
        (text + 9, list),
        (text, list + 33),
        (LONG, LONG),
    ] {
        for work in [figure, figure + 1, figure + 7, MUCH] {
            for fill in [0, 0xAA, 0xFF] {
                let left = asked.call(store, Lengths::new(text, list, work), fill);
                assert!(left.is_like(&first, fill), "{text} {list} {work}: {left:?}");
            }
        }
    }
    for (text, list) in [(text, list), (LONG, LONG)] {
        for work in shortest..figure {
            let left = asked.call(store, Lengths::new(text, list, work), 0xAA);
            assert!(left.is_short(), "{text} {list} {work}: {left:?}");
        }
    }
    figures
}
