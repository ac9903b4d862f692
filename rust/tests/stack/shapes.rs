//! The deepest stores: levels that stand inside each other, in patterns that
//! refer to each other.

use weszlagyo::syntax::*;
use weszlagyo::{builtins, FluentBundle, FluentResource, Locale, Refusal, ResourceBuilder};

/// The nesting limit.
pub const DEPTH: usize = 32;

/// How many placeables a formatting begins, before it is cut short.
pub const PLACEABLES: usize = 100;

/// A level: how an expression stands inside another, or a reference, which is
/// the deepest of its pattern.
#[derive(Clone, Copy, Debug, PartialEq, Eq)]
pub enum Level {
    /// A call's argument, `N(_)`.
    Call,
    /// A term's argument, beside a named one: `-x(_, n: 1)`.
    Term,
    /// A select's selector, `_ -> *[o] x`.
    Selector,
    /// What an inline placeable holds, `{ _ }`.
    Placeable,
    /// A placeable in the pattern of a select's variant, `1 -> *[o] { _ }`.
    Variant,
    /// A reference to the next message.
    Message,
    /// A reference to the next term.
    TermReference,
    /// A reference to the next term, with a named argument.
    TermCall,
}

use Level::{Call, Message, Placeable, Selector, Term, TermCall, TermReference, Variant};

impl Level {
    /// The letter that stands for it.
    fn letter(self) -> char {
        match self {
            Call => 'C',
            Term => 'T',
            Selector => 'S',
            Placeable => 'P',
            Variant => 'V',
            Message => 'm',
            TermReference => 't',
            TermCall => 'u',
        }
    }

    /// Does it lead to another pattern?
    pub fn refers(self) -> bool {
        matches!(self, Message | TermReference | TermCall)
    }

    /// Can the other one stand right inside it? A call, a term and a selector
    /// hold no select.
    fn holds(self, other: Self) -> bool {
        match self {
            Call | Term | Selector => !matches!(other, Selector | Variant),
            Placeable | Variant => true,
            Message | TermReference | TermCall => false,
        }
    }
}

/// A pattern of one placeable: levels inside each other, the outermost first.
pub type Nest = Vec<Level>;

/// The letters of levels.
pub fn letters(levels: &[Level]) -> String {
    levels.iter().map(|level| level.letter()).collect()
}

/// Whether levels can stand inside each other in this order.
pub fn is_legal(levels: &[Level]) -> bool {
    levels.windows(2).all(|pair| pair[0].holds(pair[1]))
}

/// The placeables that a pattern begins: its own, and those of its variants.
pub fn begun(nest: &Nest) -> usize {
    1 + nest.iter().filter(|level| **level == Variant).count()
}

fn inline(expression: Expression) -> Inline {
    match expression {
        Expression::Inline(inline) => inline,
        Expression::Select(_) => panic!("a select stands where none can"),
    }
}

/// A named argument.
fn named() -> Arguments {
    Arguments::new().named("n", Literal::Number("1".into()))
}

/// A level around an expression.
fn around(inner: Expression, level: &Level) -> Expression {
    match level {
        Call => call("N", Arguments::new().positional(inline(inner))).into(),
        Term => term_with("x", named().positional(inline(inner))).into(),
        Selector => select(inline(inner)).default("o", "x").into(),
        Placeable => placeable(inner).into(),
        Variant => select(number("1"))
            .default("o", Pattern::from(inner))
            .into(),
        Message | TermReference | TermCall => panic!("a reference holds nothing"),
    }
}

fn id(n: usize) -> String {
    format!("a{n}")
}

/// The reference to the entry of that number.
fn reference(level: Level, n: usize) -> Inline {
    match level {
        TermReference => term(id(n)),
        TermCall => term_with(id(n), named()),
        _ => message(id(n)),
    }
}

/// An entry, as the reference to it wants it.
fn entry(
    to: ResourceBuilder,
    referred: Level,
    n: usize,
    value: impl Into<Pattern>,
) -> ResourceBuilder {
    match referred {
        TermReference | TermCall => to.term(id(n), value),
        _ => to.message(id(n), value),
    }
}

/// Patterns that refer to each other: the message `a0` to the next, and so on,
/// and the last one to a text.
pub struct Chain {
    nests: Vec<Nest>,
    /// What the last one has at its deepest place, if that is no reference.
    bottom: Option<Inline>,
}

impl Chain {
    /// So many patterns, from the block again and again.
    pub fn new(block: &[Nest], count: usize) -> Self {
        Self {
            nests: block.iter().cycle().take(count).cloned().collect(),
            bottom: None,
        }
    }

    /// As many patterns as begin a 101st placeable.
    pub fn whole(block: &[Nest]) -> Self {
        let patterns = block.iter().cycle().scan(0, |count, nest| {
            *count += begun(nest);
            Some(*count)
        });
        let under = patterns.take_while(|count| *count <= PLACEABLES).count();
        Self::new(block, under + 1)
    }

    /// 100 patterns of one placeable each, and another one, which is passed over
    /// as its placeable is the 101st.
    pub fn passing(nest: &Nest, last: &Nest) -> Self {
        let mut chain = Self::new(std::slice::from_ref(nest), PLACEABLES);
        chain.nests.push(last.clone());
        chain
    }

    /// 100 patterns of one placeable each, of which the last one has something
    /// else at its deepest place.
    pub fn ending(nest: &Nest, bottom: Inline) -> Self {
        Self {
            bottom: Some(bottom),
            ..Self::new(std::slice::from_ref(nest), PLACEABLES)
        }
    }

    /// The placeables that it begins: 101 where it has more than 100.
    pub fn begun(&self) -> usize {
        let all: usize = self.nests.iter().map(begun).sum();
        all.min(PLACEABLES + 1)
    }

    fn builder(&self) -> ResourceBuilder {
        let empty = FluentResource::builder().term("x", "x");
        let mut referred = Message;
        let built = self
            .nests
            .iter()
            .enumerate()
            .fold(empty, |built, (n, nest)| {
                let (last, outer) = nest.split_last().expect("a level");
                let is_last = n + 1 == self.nests.len();
                let bottom = self.bottom.clone().filter(|_| is_last);
                let inner = bottom.unwrap_or_else(|| reference(*last, n + 1));
                let value = outer.iter().rev().fold(inner.into(), around);
                let built = entry(built, referred, n, value);
                referred = *last;
                built
            });
        entry(built, referred, self.nests.len(), "x")
    }

    /// The resource that has it.
    pub fn resource(&self) -> Result<FluentResource, Refusal> {
        self.builder().build()
    }

    /// A bundle that has it.
    pub fn bundle(&self) -> Result<FluentBundle, Refusal> {
        let resource = self.resource()?;
        let mut bundle = FluentBundle::new(vec![Locale::En]);
        bundle.add_function("N", builtins::NUMBER).expect("new");
        bundle.add_resource(resource).expect("no id twice");
        Ok(bundle)
    }
}
