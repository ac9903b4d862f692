//! The shapes of the tree, as the published Rust uses them.

#[derive(Clone, Debug, Eq, PartialEq)]
pub struct Resource<S> {
    pub body: Vec<Entry<S>>,
}

/// The published tree also has comments and junk; one of them stays here so
/// that the Rust's "all others" arms have something to meet.
#[derive(Clone, Debug, Eq, PartialEq)]
pub enum Entry<S> {
    Message(Message<S>),
    Term(Term<S>),
    Junk { content: S },
}

#[derive(Clone, Debug, Eq, PartialEq)]
pub struct Message<S> {
    pub id: Identifier<S>,
    pub value: Option<Pattern<S>>,
    pub attributes: Vec<Attribute<S>>,
}

#[derive(Clone, Debug, Eq, PartialEq)]
pub struct Term<S> {
    pub id: Identifier<S>,
    pub value: Pattern<S>,
    pub attributes: Vec<Attribute<S>>,
}

#[derive(Clone, Debug, Eq, PartialEq)]
pub struct Attribute<S> {
    pub id: Identifier<S>,
    pub value: Pattern<S>,
}

#[derive(Clone, Debug, Eq, PartialEq)]
pub struct Identifier<S> {
    pub name: S,
}

#[derive(Clone, Debug, Eq, PartialEq)]
pub struct Pattern<S> {
    pub elements: Vec<PatternElement<S>>,
}

#[derive(Clone, Debug, Eq, PartialEq)]
pub enum PatternElement<S> {
    TextElement { value: S },
    Placeable { expression: Expression<S> },
}

#[derive(Clone, Debug, Eq, PartialEq)]
pub enum Expression<S> {
    Select {
        selector: InlineExpression<S>,
        variants: Vec<Variant<S>>,
    },
    Inline(InlineExpression<S>),
}

#[derive(Clone, Debug, Eq, PartialEq)]
pub enum InlineExpression<S> {
    StringLiteral {
        value: S,
    },
    NumberLiteral {
        value: S,
    },
    FunctionReference {
        id: Identifier<S>,
        arguments: CallArguments<S>,
    },
    MessageReference {
        id: Identifier<S>,
        attribute: Option<Identifier<S>>,
    },
    TermReference {
        id: Identifier<S>,
        attribute: Option<Identifier<S>>,
        arguments: Option<CallArguments<S>>,
    },
    VariableReference {
        id: Identifier<S>,
    },
    Placeable {
        expression: Box<Expression<S>>,
    },
}

#[derive(Clone, Debug, Eq, PartialEq)]
pub struct CallArguments<S> {
    pub positional: Vec<InlineExpression<S>>,
    pub named: Vec<NamedArgument<S>>,
}

#[derive(Clone, Debug, Eq, PartialEq)]
pub struct NamedArgument<S> {
    pub name: Identifier<S>,
    pub value: InlineExpression<S>,
}

#[derive(Clone, Debug, Eq, PartialEq)]
pub struct Variant<S> {
    pub key: VariantKey<S>,
    pub value: Pattern<S>,
    pub default: bool,
}

#[derive(Clone, Debug, Eq, PartialEq)]
pub enum VariantKey<S> {
    Identifier { name: S },
    NumberLiteral { value: S },
}
