//! Patterns and expressions, from which resources are built.
//!
//! The shapes are those of Fluent's syntax. Nothing here is checked: what
//! document 01 forbids (an id that is none, an empty text, a number of 16
//! digits, nesting beyond depth 32, a name twice in a call) is refused when the
//! resource is built.

mod write;

/// Text and placeables, in order; at least one.
#[derive(Clone, Debug, Default, PartialEq, Eq)]
pub struct Pattern {
    /// The elements.
    pub elements: Vec<Element>,
}

/// An element of a pattern.
#[derive(Clone, Debug, PartialEq, Eq)]
pub enum Element {
    /// Text; not empty.
    Text(String),
    /// `{ expression }`
    Placeable(Expression),
}

/// What stands in a placeable.
#[derive(Clone, Debug, PartialEq, Eq)]
pub enum Expression {
    /// An inline expression.
    Inline(Inline),
    /// A choice among variants.
    Select(Select),
}

/// `{ selector -> [key] pattern *[key] pattern }`
#[derive(Clone, Debug, PartialEq, Eq)]
pub struct Select {
    /// What the keys are compared with.
    pub selector: Inline,
    /// The variants; at least one.
    pub variants: Vec<Variant>,
}

/// A variant of a select.
#[derive(Clone, Debug, PartialEq, Eq)]
pub struct Variant {
    /// Its key.
    pub key: Key,
    /// Whether it is taken where no key matches.
    pub default: bool,
    /// Its pattern.
    pub value: Pattern,
}

/// A variant's key.
#[derive(Clone, Debug, PartialEq, Eq)]
pub enum Key {
    /// A word: equal text, or a plural category.
    Id(String),
    /// A number literal: an equal number.
    Number(String),
}

/// An inline expression.
#[derive(Clone, Debug, PartialEq, Eq)]
pub enum Inline {
    /// `"text"`, with its escapes as written.
    String(String),
    /// `1.0`, as written.
    Number(String),
    /// `F(arguments)`
    Function {
        /// The id.
        id: String,
        /// What it is called with.
        arguments: Arguments,
    },
    /// `a` or `a.b`
    Message {
        /// The id.
        id: String,
        /// The attribute.
        attribute: Option<String>,
    },
    /// `-a`, `-a.b`, `-a(arguments)`
    Term {
        /// The id.
        id: String,
        /// The attribute.
        attribute: Option<String>,
        /// What it is called with.
        arguments: Option<Arguments>,
    },
    /// `$a`
    Variable(String),
    /// `{ expression }`
    Placeable(Box<Expression>),
}

/// The arguments of a call.
#[derive(Clone, Debug, Default, PartialEq, Eq)]
pub struct Arguments {
    /// The ones without a name.
    pub positional: Vec<Inline>,
    /// Names and literals; no name twice.
    pub named: Vec<(String, Literal)>,
}

/// A named argument's value.
#[derive(Clone, Debug, PartialEq, Eq)]
pub enum Literal {
    /// `"text"`, with its escapes as written.
    String(String),
    /// `1.0`, as written.
    Number(String),
}

/// A pattern of one text.
pub fn text(text: impl Into<String>) -> Pattern {
    Pattern::new().text(text)
}

/// `"text"`: the text is escaped, so that it is read as it stands.
pub fn string(text: &str) -> Inline {
    Inline::String(text.replace('\\', "\\\\").replace('"', "\\\""))
}

/// A number literal, as `1.0`.
pub fn number(literal: impl Into<String>) -> Inline {
    Inline::Number(literal.into())
}

/// `$name`
pub fn variable(name: impl Into<String>) -> Inline {
    Inline::Variable(name.into())
}

/// `id`
pub fn message(id: impl Into<String>) -> Inline {
    Inline::Message {
        id: id.into(),
        attribute: None,
    }
}

/// `id.attribute`
pub fn message_attribute(id: impl Into<String>, attribute: impl Into<String>) -> Inline {
    Inline::Message {
        id: id.into(),
        attribute: Some(attribute.into()),
    }
}

/// `-id`
pub fn term(id: impl Into<String>) -> Inline {
    Inline::Term {
        id: id.into(),
        attribute: None,
        arguments: None,
    }
}

/// `-id(arguments)`
pub fn term_with(id: impl Into<String>, arguments: Arguments) -> Inline {
    Inline::Term {
        id: id.into(),
        attribute: None,
        arguments: Some(arguments),
    }
}

/// `-id.attribute`
pub fn term_attribute(id: impl Into<String>, attribute: impl Into<String>) -> Inline {
    Inline::Term {
        id: id.into(),
        attribute: Some(attribute.into()),
        arguments: None,
    }
}

/// `id(arguments)`, as `NUMBER($n, type: "ordinal")`.
pub fn call(id: impl Into<String>, arguments: Arguments) -> Inline {
    Inline::Function {
        id: id.into(),
        arguments,
    }
}

/// `{ expression }` as an inline expression.
pub fn placeable(expression: impl Into<Expression>) -> Inline {
    Inline::Placeable(Box::new(expression.into()))
}

/// A select on this, with no variant yet.
pub fn select(selector: Inline) -> Select {
    Select {
        selector,
        variants: Vec::new(),
    }
}

impl Arguments {
    /// No arguments.
    pub fn new() -> Self {
        Self::default()
    }

    /// One more without a name.
    pub fn positional(mut self, argument: Inline) -> Self {
        self.positional.push(argument);
        self
    }

    /// One more with a name.
    pub fn named(mut self, name: impl Into<String>, value: Literal) -> Self {
        self.named.push((name.into(), value));
        self
    }
}

impl Select {
    /// One more variant. A key that starts with a digit or `-` is a number.
    pub fn variant(self, key: impl Into<Key>, value: impl Into<Pattern>) -> Self {
        self.push(key.into(), false, value.into())
    }

    /// The variant that is taken where no key matches.
    pub fn default(self, key: impl Into<Key>, value: impl Into<Pattern>) -> Self {
        self.push(key.into(), true, value.into())
    }

    fn push(mut self, key: Key, default: bool, value: Pattern) -> Self {
        self.variants.push(Variant {
            key,
            default,
            value,
        });
        self
    }
}

impl From<&str> for Key {
    fn from(key: &str) -> Self {
        match key.starts_with(|c: char| c.is_ascii_digit() || c == '-') {
            true => Self::Number(key.into()),
            false => Self::Id(key.into()),
        }
    }
}

impl Pattern {
    /// No elements yet.
    pub fn new() -> Self {
        Self::default()
    }

    /// Text at the end.
    pub fn text(mut self, text: impl Into<String>) -> Self {
        self.elements.push(Element::Text(text.into()));
        self
    }

    /// A placeable at the end.
    pub fn place(mut self, expression: impl Into<Expression>) -> Self {
        self.elements.push(Element::Placeable(expression.into()));
        self
    }
}

impl From<&str> for Pattern {
    fn from(words: &str) -> Self {
        text(words)
    }
}

impl From<String> for Pattern {
    fn from(words: String) -> Self {
        text(words)
    }
}

impl From<Expression> for Pattern {
    fn from(expression: Expression) -> Self {
        Self::new().place(expression)
    }
}

impl From<Inline> for Pattern {
    fn from(inline: Inline) -> Self {
        Self::new().place(inline)
    }
}

impl From<Select> for Pattern {
    fn from(select: Select) -> Self {
        Self::new().place(select)
    }
}

impl From<Inline> for Expression {
    fn from(inline: Inline) -> Self {
        Self::Inline(inline)
    }
}

impl From<Select> for Expression {
    fn from(select: Select) -> Self {
        Self::Select(select)
    }
}
