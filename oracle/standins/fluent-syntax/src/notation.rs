//! A plain notation of a tree: prefix order, each piece of text with its byte
//! count before it, so that what is read can borrow from it.
//!
//! text: decimal count, `:`, bytes. list: decimal count, `;`, members.
//! option: `-`, or `+` and the thing.

use crate::ast::*;

// Writing.

pub fn write<S: AsRef<str>>(resource: &Resource<S>) -> String {
    let mut w = Writer(String::new());
    w.list(&resource.body, Writer::entry);
    w.0
}

struct Writer(String);

impl Writer {
    fn text<S: AsRef<str>>(&mut self, text: &S) {
        let text = text.as_ref();
        self.0.push_str(&text.len().to_string());
        self.0.push(':');
        self.0.push_str(text);
    }

    fn id<S: AsRef<str>>(&mut self, id: &Identifier<S>) {
        self.text(&id.name);
    }

    fn list<T>(&mut self, members: &[T], member: impl Fn(&mut Self, &T)) {
        self.0.push_str(&members.len().to_string());
        self.0.push(';');
        for m in members {
            member(self, m);
        }
    }

    fn option<T>(&mut self, thing: Option<&T>, some: impl Fn(&mut Self, &T)) {
        match thing {
            None => self.0.push('-'),
            Some(t) => {
                self.0.push('+');
                some(self, t);
            }
        }
    }

    fn entry<S: AsRef<str>>(&mut self, entry: &Entry<S>) {
        match entry {
            Entry::Message(m) => {
                self.0.push('m');
                self.id(&m.id);
                self.option(m.value.as_ref(), Self::pattern);
                self.list(&m.attributes, Self::attribute);
            }
            Entry::Term(t) => {
                self.0.push('t');
                self.id(&t.id);
                self.pattern(&t.value);
                self.list(&t.attributes, Self::attribute);
            }
            Entry::Junk { content } => {
                self.0.push('j');
                self.text(content);
            }
        }
    }

    fn attribute<S: AsRef<str>>(&mut self, attribute: &Attribute<S>) {
        self.id(&attribute.id);
        self.pattern(&attribute.value);
    }

    fn pattern<S: AsRef<str>>(&mut self, pattern: &Pattern<S>) {
        self.list(&pattern.elements, |w, element| match element {
            PatternElement::TextElement { value } => {
                w.0.push('t');
                w.text(value);
            }
            PatternElement::Placeable { expression } => {
                w.0.push('p');
                w.expression(expression);
            }
        });
    }

    fn expression<S: AsRef<str>>(&mut self, expression: &Expression<S>) {
        match expression {
            Expression::Inline(inline) => {
                self.0.push('i');
                self.inline(inline);
            }
            Expression::Select { selector, variants } => {
                self.0.push('s');
                self.inline(selector);
                self.list(variants, |w, variant| {
                    match &variant.key {
                        VariantKey::Identifier { name } => {
                            w.0.push('i');
                            w.text(name);
                        }
                        VariantKey::NumberLiteral { value } => {
                            w.0.push('n');
                            w.text(value);
                        }
                    }
                    w.0.push(if variant.default { '*' } else { '.' });
                    w.pattern(&variant.value);
                });
            }
        }
    }

    fn inline<S: AsRef<str>>(&mut self, inline: &InlineExpression<S>) {
        match inline {
            InlineExpression::StringLiteral { value } => {
                self.0.push('s');
                self.text(value);
            }
            InlineExpression::NumberLiteral { value } => {
                self.0.push('n');
                self.text(value);
            }
            InlineExpression::FunctionReference { id, arguments } => {
                self.0.push('f');
                self.id(id);
                self.arguments(arguments);
            }
            InlineExpression::MessageReference { id, attribute } => {
                self.0.push('m');
                self.id(id);
                self.option(attribute.as_ref(), Self::id);
            }
            InlineExpression::TermReference {
                id,
                attribute,
                arguments,
            } => {
                self.0.push('t');
                self.id(id);
                self.option(attribute.as_ref(), Self::id);
                self.option(arguments.as_ref(), Self::arguments);
            }
            InlineExpression::VariableReference { id } => {
                self.0.push('v');
                self.id(id);
            }
            InlineExpression::Placeable { expression } => {
                self.0.push('p');
                self.expression(expression);
            }
        }
    }

    fn arguments<S: AsRef<str>>(&mut self, arguments: &CallArguments<S>) {
        self.list(&arguments.positional, Self::inline);
        self.list(&arguments.named, |w, named| {
            w.id(&named.name);
            w.inline(&named.value);
        });
    }
}

// Reading.

pub fn read(source: &str) -> Option<Resource<&str>> {
    let mut r = Reader(source);
    let body = r.list(Reader::entry)?;
    r.0.is_empty().then_some(Resource { body })
}

struct Reader<'s>(&'s str);

impl<'s> Reader<'s> {
    fn mark(&mut self) -> Option<char> {
        let mut chars = self.0.chars();
        let mark = chars.next();
        self.0 = chars.as_str();
        mark
    }

    fn count(&mut self, end: char) -> Option<usize> {
        let (digits, rest) = self.0.split_once(end)?;
        self.0 = rest;
        digits.parse().ok()
    }

    fn text(&mut self) -> Option<&'s str> {
        let length = self.count(':')?;
        let text = self.0.get(..length)?;
        self.0 = &self.0[length..];
        Some(text)
    }

    fn id(&mut self) -> Option<Identifier<&'s str>> {
        Some(Identifier { name: self.text()? })
    }

    fn list<T>(&mut self, member: impl Fn(&mut Self) -> Option<T>) -> Option<Vec<T>> {
        let count = self.count(';')?;
        (0..count).map(|_| member(self)).collect()
    }

    fn option<T>(&mut self, some: impl Fn(&mut Self) -> Option<T>) -> Option<Option<T>> {
        match self.mark()? {
            '-' => Some(None),
            '+' => Some(Some(some(self)?)),
            _ => None,
        }
    }

    fn entry(&mut self) -> Option<Entry<&'s str>> {
        Some(match self.mark()? {
            'm' => Entry::Message(Message {
                id: self.id()?,
                value: self.option(Self::pattern)?,
                attributes: self.list(Self::attribute)?,
            }),
            't' => Entry::Term(Term {
                id: self.id()?,
                value: self.pattern()?,
                attributes: self.list(Self::attribute)?,
            }),
            'j' => Entry::Junk {
                content: self.text()?,
            },
            _ => return None,
        })
    }

    fn attribute(&mut self) -> Option<Attribute<&'s str>> {
        Some(Attribute {
            id: self.id()?,
            value: self.pattern()?,
        })
    }

    fn pattern(&mut self) -> Option<Pattern<&'s str>> {
        let elements = self.list(|r| match r.mark()? {
            't' => Some(PatternElement::TextElement { value: r.text()? }),
            'p' => Some(PatternElement::Placeable {
                expression: r.expression()?,
            }),
            _ => None,
        })?;
        Some(Pattern { elements })
    }

    fn expression(&mut self) -> Option<Expression<&'s str>> {
        match self.mark()? {
            'i' => Some(Expression::Inline(self.inline()?)),
            's' => Some(Expression::Select {
                selector: self.inline()?,
                variants: self.list(Self::variant)?,
            }),
            _ => None,
        }
    }

    fn variant(&mut self) -> Option<Variant<&'s str>> {
        let key = match self.mark()? {
            'i' => VariantKey::Identifier { name: self.text()? },
            'n' => VariantKey::NumberLiteral {
                value: self.text()?,
            },
            _ => return None,
        };
        let default = self.mark()? == '*';
        let value = self.pattern()?;
        Some(Variant {
            key,
            value,
            default,
        })
    }

    fn inline(&mut self) -> Option<InlineExpression<&'s str>> {
        Some(match self.mark()? {
            's' => InlineExpression::StringLiteral {
                value: self.text()?,
            },
            'n' => InlineExpression::NumberLiteral {
                value: self.text()?,
            },
            'f' => InlineExpression::FunctionReference {
                id: self.id()?,
                arguments: self.arguments()?,
            },
            'm' => InlineExpression::MessageReference {
                id: self.id()?,
                attribute: self.option(Self::id)?,
            },
            't' => InlineExpression::TermReference {
                id: self.id()?,
                attribute: self.option(Self::id)?,
                arguments: self.option(Self::arguments)?,
            },
            'v' => InlineExpression::VariableReference { id: self.id()? },
            'p' => InlineExpression::Placeable {
                expression: Box::new(self.expression()?),
            },
            _ => return None,
        })
    }

    fn arguments(&mut self) -> Option<CallArguments<&'s str>> {
        Some(CallArguments {
            positional: self.list(Self::inline)?,
            named: self.list(|r| {
                Some(NamedArgument {
                    name: r.id()?,
                    value: r.inline()?,
                })
            })?,
        })
    }
}
