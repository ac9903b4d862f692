//! What a formatting uses of the stack, of a message and of a sheet.

use super::ffi::{self, Numbers};
use super::paint::used;
use super::shapes::{begun, Chain, Nest, PLACEABLES};
use super::words::{neighbours, Block};
use weszlagyo::syntax::*;
use weszlagyo::{FluentArgs, Sheet};

/// More than three blocks use.
const SMALL: usize = 2 << 20;

/// How often a sheet has a chain's message.
const MESSAGES: usize = 3;

/// A chain's bundle and the buffers for its formatting.
struct Lent {
    store: Vec<u8>,
    arguments: Vec<u8>,
    sheet: Sheet,
    text: Vec<u8>,
    list: Vec<u8>,
    work: Vec<u8>,
    numbers: Numbers,
}

impl Lent {
    fn new(chain: &Chain) -> Self {
        let bundle = chain.bundle().expect("nested to depth 32: legal");
        let mut arguments = FluentArgs::new();
        arguments.set("n", 1);
        arguments.set("s", "text");
        let mut sheet = Sheet::new();
        for _ in 0..MESSAGES {
            sheet.push("a0", None, Some(&arguments)).expect("it fits");
        }
        Self {
            store: bundle.store().to_vec(),
            arguments: arguments.image().expect("they fit"),
            sheet,
            text: vec![0; 4096],
            list: vec![0; 65_536],
            work: vec![0; 65_536],
            numbers: Numbers::default(),
        }
    }

    /// Formats its first message on the stack that there is.
    fn format(&mut self) -> u8 {
        ffi::format(
            &self.store,
            b"a0",
            None,
            &self.arguments,
            &mut self.text,
            &mut self.list,
            &mut self.work,
            &mut self.numbers,
        )
    }

    /// Formats a sheet that has it so many times.
    fn format_sheet(&mut self) -> u8 {
        ffi::format_sheet(
            &self.store,
            self.sheet.image(),
            &mut self.text,
            &mut self.list,
            &mut self.work,
            &mut self.numbers,
        )
    }
}

/// Formats a chain on the stack that there is, to its end.
pub fn run(chain: &Chain) {
    let mut lent = Lent::new(chain);
    assert_eq!(lent.format(), 0);
    assert_eq!(lent.numbers.begun, chain.begun(), "as deep as meant");
}

/// The stack that formatting a chain uses, under `room`.
pub fn measured(chain: &Chain, room: usize) -> usize {
    let mut lent = Lent::new(chain);
    let (used, answer) = used(room, || lent.format());
    assert_eq!(answer, 0);
    assert_eq!(lent.numbers.begun, chain.begun(), "as deep as meant");
    used
}

/// Formats a sheet of a chain on the stack that there is, to its end.
pub fn run_sheet(chain: &Chain) {
    let mut lent = Lent::new(chain);
    assert_eq!(lent.format_sheet(), 0);
    assert_eq!(lent.numbers.begun, MESSAGES * chain.begun());
}

/// The stack that formatting a sheet of a chain uses, under `room`.
pub fn measured_sheet(chain: &Chain, room: usize) -> usize {
    let mut lent = Lent::new(chain);
    let (used, answer) = used(room, || lent.format_sheet());
    assert_eq!(answer, 0);
    assert_eq!(lent.numbers.begun, MESSAGES * chain.begun());
    used
}

/// What a formatting uses that is refused for its list, of a message or of a
/// sheet.
pub fn refused(chain: &Chain) -> usize {
    let mut lent = Lent::new(chain);
    lent.list.truncate(4);
    let (one, answer) = used(SMALL, || lent.format());
    assert_eq!(answer, 7);
    let (sheet, answer) = used(SMALL, || lent.format_sheet());
    assert_eq!(answer, 7);
    one.max(sheet)
}

/// A block, and what 100 placeables of it use, reckoned from two and three of
/// it: each block after the first uses the same.
#[derive(Clone)]
pub struct Reckoned {
    pub block: Block,
    pub bytes: usize,
}

impl Reckoned {
    pub fn new(block: Block) -> Self {
        let so_many = |count: usize| {
            let patterns = count * block.0.len();
            measured(&Chain::new(&block.0, patterns), SMALL)
        };
        let each = so_many(3) - so_many(2);
        let placeables: usize = block.0.iter().map(begun).sum();
        let bytes = each * PLACEABLES / placeables;
        Self { block, bytes }
    }

    /// What a level of it uses, on the average.
    pub fn of_a_level(&self) -> usize {
        let placeables: usize = self.block.0.iter().map(begun).sum();
        self.bytes * placeables / (PLACEABLES * self.block.levels())
    }
}

/// The deepest pattern that is reached from this one by changing a level as
/// long as that makes it deeper.
pub fn deepest_near(nest: &Nest) -> Reckoned {
    let reckoned = |nest: Nest| Reckoned::new(Block(vec![nest]));
    let mut deepest = reckoned(nest.clone());
    let deeper = |than: &Reckoned| {
        let others = neighbours(&than.block.0[0]).into_iter().map(reckoned);
        let most = others.max_by_key(|other| other.bytes)?;
        Some(most).filter(|most| most.bytes > than.bytes)
    };
    while let Some(next) = deeper(&deepest) {
        deepest = next;
    }
    deepest
}

/// Whatever can stand at the deepest place of all.
pub fn bottoms() -> Vec<Inline> {
    let digits = || Arguments::new().named("minimumFractionDigits", Literal::Number("9".into()));
    vec![
        Inline::String("\\u00e9\\\\".into()),
        number("-123456789.012345"),
        variable("n"),
        variable("s"),
        variable("missing"),
        message("missing"),
        message("a0"),
        message_attribute("a0", "missing"),
        term("missing"),
        term("x"),
        term_attribute("x", "missing"),
        term_with("x", digits()),
        call("missing", digits()),
        call("N", digits()),
    ]
}
