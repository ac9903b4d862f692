//! Document 02's Card 12: "every finished text has them paired: no prefix has
//! more closing than opening marks, and the whole has as many of each." The marks
//! of a text are counted twice, by its Unicode scalars and by its bytes.

use super::effects::Effect;

pub const OPENING: char = '\u{2068}';
pub const CLOSING: char = '\u{2069}';

/// What is counted in a text.
#[derive(Clone, Copy, Debug, Default, PartialEq, Eq)]
pub struct Marks {
    pub opening: usize,
    pub closing: usize,
    /// The most opening marks that a prefix has more than closing ones.
    pub deepest: usize,
    /// How many bytes the shortest prefix has in which there are more closing
    /// than opening marks.
    pub unopened: Option<usize>,
}

impl Marks {
    /// As the card says it of a text.
    pub fn paired(&self) -> bool {
        self.unopened.is_none() && self.opening == self.closing
    }

    pub fn all(&self) -> usize {
        self.opening + self.closing
    }

    /// Opening marks without a closing one at the text's end.
    pub fn open(&self) -> usize {
        self.opening.saturating_sub(self.closing)
    }

    /// A mark ends after so many bytes.
    fn meet(&mut self, mark: char, end: usize) {
        match mark {
            OPENING => self.opening += 1,
            CLOSING => self.closing += 1,
            other => panic!("{other:?} is no mark"),
        }
        self.deepest = self.deepest.max(self.open());
        if self.closing > self.opening && self.unopened.is_none() {
            self.unopened = Some(end);
        }
    }
}

/// Counted by the scalars of the text.
pub fn by_scalars(text: &str) -> Marks {
    let mut marks = Marks::default();
    for (at, scalar) in text.char_indices() {
        if is_mark(scalar) {
            marks.meet(scalar, at + scalar.len_utf8());
        }
    }
    marks
}

pub fn is_mark(scalar: char) -> bool {
    scalar == OPENING || scalar == CLOSING
}

/// Counted by the places where the bytes E2 81 A8 and E2 81 A9 stand, in every
/// prefix of the bytes, also in one that ends inside a scalar.
pub fn by_bytes(text: &[u8]) -> Marks {
    let mut marks = Marks::default();
    for end in 0..=text.len() {
        match text[..end] {
            [.., 0xE2, 0x81, 0xA8] => marks.meet(OPENING, end),
            [.., 0xE2, 0x81, 0xA9] => marks.meet(CLOSING, end),
            _ => {}
        }
    }
    marks
}

/// The marks of a text, by both counts; or why there are none.
pub fn marks(text: &[u8]) -> Result<Marks, String> {
    let scalars = match std::str::from_utf8(text) {
        Ok(text) => by_scalars(text),
        Err(error) => return Err(format!("the text is no UTF-8: {error}")),
    };
    let bytes = by_bytes(text);
    match scalars == bytes {
        true => Ok(scalars),
        false => Err(format!("by scalars {scalars:?}, by bytes {bytes:?}")),
    }
}

/// The marks of a text that has to be paired.
pub fn paired(text: &[u8]) -> Result<Marks, String> {
    let marks = marks(text)?;
    match marks.paired() {
        true => Ok(marks),
        false => {
            let text = String::from_utf8_lossy(text);
            Err(format!("unpaired: {marks:?} in {text:?}"))
        }
    }
}

/// Of a formatting that is cut short: how many isolates are open in what the text
/// has when the 101st placeable is begun. `None` where no 101st is begun.
pub fn open_at_the_limit(effects: &[Effect]) -> Option<usize> {
    let begun = effects.iter().enumerate();
    let mut begun = begun.filter(|(_, effect)| **effect == Effect::Begin);
    let (end, _) = begun.nth(100)?;
    let mut text = Vec::new();
    let mut making = 0;
    for effect in &effects[..end] {
        match effect {
            Effect::Open => making += 1,
            Effect::Keep => making -= 1,
            Effect::Put(bytes) if making == 0 => text.extend_from_slice(bytes),
            _ => {}
        }
    }
    Some(by_bytes(&text).open())
}
