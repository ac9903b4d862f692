//! A reader of Fluent written on single lines, for the sentences and tests: one
//! entry or attribute (`.x = …`) a line, variants on the same line. It is not
//! the standard's grammar and panics on anything else.

use fluent_syntax::ast::*;

type Text = String;

pub fn resource(source: &str) -> Resource<Text> {
    let mut body: Vec<Entry<Text>> = Vec::new();
    for line in source.lines().map(str::trim).filter(|l| !l.is_empty()) {
        let (name, value) = line.split_once('=').expect("an equals sign");
        let (name, value) = (name.trim(), value.trim());
        let value = (!value.is_empty()).then(|| {
            let mut reader = Reader { rest: value };
            let pattern = reader.pattern(false);
            assert!(reader.rest.is_empty(), "left over: {}", reader.rest);
            pattern
        });
        if let Some(attribute) = name.strip_prefix('.') {
            let attribute = Attribute {
                id: id(attribute),
                value: value.expect("a pattern"),
            };
            match body.last_mut().expect("an entry before") {
                Entry::Message(m) => m.attributes.push(attribute),
                Entry::Term(t) => t.attributes.push(attribute),
                Entry::Junk { .. } => unreachable!("never made"),
            }
        } else if let Some(term) = name.strip_prefix('-') {
            body.push(Entry::Term(Term {
                id: id(term),
                value: value.expect("a pattern"),
                attributes: Vec::new(),
            }));
        } else {
            body.push(Entry::Message(Message {
                id: id(name),
                value,
                attributes: Vec::new(),
            }));
        }
    }
    Resource { body }
}

fn id(name: &str) -> Identifier<Text> {
    Identifier { name: name.into() }
}

struct Reader<'a> {
    rest: &'a str,
}

impl Reader<'_> {
    fn space(&mut self) {
        self.rest = self.rest.trim_start();
    }

    fn eat(&mut self, mark: &str) -> bool {
        match self.rest.strip_prefix(mark) {
            Some(rest) => {
                self.rest = rest;
                true
            }
            None => false,
        }
    }

    fn need(&mut self, mark: &str) {
        self.space();
        assert!(self.eat(mark), "{mark} expected at: {}", self.rest);
    }

    fn while_(&mut self, part: impl Fn(char) -> bool) -> String {
        let end = self.rest.find(|c| !part(c)).unwrap_or(self.rest.len());
        let (taken, rest) = self.rest.split_at(end);
        self.rest = rest;
        taken.into()
    }

    fn name(&mut self) -> Identifier<Text> {
        let name = self.while_(|c| c.is_ascii_alphanumeric() || c == '-' || c == '_');
        assert!(!name.is_empty(), "an id expected at: {}", self.rest);
        id(&name)
    }

    fn attribute(&mut self) -> Option<Identifier<Text>> {
        self.eat(".").then(|| self.name())
    }

    /// A pattern; one of a variant ends before the next key or brace, and its
    /// outer blank is dropped.
    fn pattern(&mut self, variant: bool) -> Pattern<Text> {
        let mut elements = Vec::new();
        loop {
            let ends = |c| c == '{' || (variant && (c == '[' || c == '*' || c == '}'));
            let mut text = self.while_(|c| !ends(c));
            if variant && elements.is_empty() {
                text = text.trim_start().into();
            }
            if variant && !self.rest.starts_with('{') {
                text = text.trim_end().into();
            }
            if !text.is_empty() {
                elements.push(PatternElement::TextElement { value: text });
            }
            if !self.eat("{") {
                return Pattern { elements };
            }
            let expression = self.expression();
            elements.push(PatternElement::Placeable { expression });
        }
    }

    /// What stands after an opening brace, and the closing one.
    fn expression(&mut self) -> Expression<Text> {
        self.space();
        let inline = self.inline();
        self.space();
        if self.eat("}") {
            return Expression::Inline(inline);
        }
        self.need("->");
        let mut variants = Vec::new();
        loop {
            self.space();
            if self.eat("}") {
                break;
            }
            let default = self.eat("*");
            self.need("[");
            let number = self
                .rest
                .starts_with(|c: char| c.is_ascii_digit() || c == '-');
            let key = self.while_(|c| c != ']');
            self.need("]");
            variants.push(Variant {
                key: match number {
                    true => VariantKey::NumberLiteral { value: key },
                    false => VariantKey::Identifier { name: key },
                },
                value: self.pattern(true),
                default,
            });
        }
        Expression::Select {
            selector: inline,
            variants,
        }
    }

    fn inline(&mut self) -> InlineExpression<Text> {
        if self.eat("{") {
            return InlineExpression::Placeable {
                expression: Box::new(self.expression()),
            };
        }
        if self.eat("$") {
            return InlineExpression::VariableReference { id: self.name() };
        }
        if self.eat("\"") {
            return self.string();
        }
        let second = self.rest.chars().nth(1).unwrap_or(' ');
        let minus = self.rest.starts_with('-');
        if self.rest.starts_with(|c: char| c.is_ascii_digit()) || minus && second.is_ascii_digit() {
            return self.number();
        }
        if self.eat("-") {
            let id = self.name();
            let attribute = self.attribute();
            let arguments = self.eat("(").then(|| self.call());
            return InlineExpression::TermReference {
                id,
                attribute,
                arguments,
            };
        }
        let id = self.name();
        if self.eat("(") {
            let arguments = self.call();
            return InlineExpression::FunctionReference { id, arguments };
        }
        let attribute = self.attribute();
        InlineExpression::MessageReference { id, attribute }
    }

    fn string(&mut self) -> InlineExpression<Text> {
        let mut value = String::new();
        loop {
            value.push_str(&self.while_(|c| c != '"' && c != '\\'));
            if self.eat("\"") {
                return InlineExpression::StringLiteral { value };
            }
            // A backslash and what it escapes stay as they are.
            let (escape, rest) = self.rest.split_at(2);
            value.push_str(escape);
            self.rest = rest;
        }
    }

    fn number(&mut self) -> InlineExpression<Text> {
        let value = self.while_(|c| c.is_ascii_digit() || c == '-' || c == '.');
        InlineExpression::NumberLiteral { value }
    }

    /// What stands after an opening parenthesis, and the closing one.
    fn call(&mut self) -> CallArguments<Text> {
        let (mut positional, mut named) = (Vec::new(), Vec::new());
        loop {
            self.space();
            if self.eat(")") {
                return CallArguments { positional, named };
            }
            let inline = self.inline();
            self.space();
            match inline {
                InlineExpression::MessageReference {
                    id,
                    attribute: None,
                } if self.eat(":") => {
                    self.space();
                    let value = self.inline();
                    named.push(NamedArgument { name: id, value });
                }
                inline => positional.push(inline),
            }
            self.space();
            self.eat(",");
        }
    }
}
