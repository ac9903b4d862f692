//! Resolution as an ordered list of effects. No buffer length is known here.

use super::effects::Effect;
use super::errors::{self, FUNCTION, MESSAGE, TERM, VARIABLE};
use super::escapes::Escapes;
use super::lookup::{holder, part, Holder};
use super::number::{Number, Seen};
use super::reader::*;
use super::value::{asks_category, found, Value};

/// Resolution ends at a merge that refusal 17 will stop.
struct Stop;
type Step<T> = Result<T, Stop>;

/// Named arguments, in stored order.
type Named<'s> = Vec<(&'s Id, Value)>;

pub struct Resolution {
    pub effects: Vec<Effect>,
    /// `???` was written: the Rust panics there.
    pub unnamed: bool,
    /// The numbers that it writes and chooses by.
    pub numbers: Seen,
    /// The escapes of the string literals that it reads.
    pub escapes: Box<Escapes>,
}

/// What formatting this pattern of the store does.
pub fn resolve(store: &Store, given: &[(Id, Given)], pattern: &Pattern) -> Resolution {
    let mut r = Resolver {
        store,
        given,
        effects: Vec::new(),
        unnamed: false,
        numbers: Seen::default(),
        escapes: Escapes::default(),
        making: Vec::new(),
        alive: 0,
        begun: 0,
        cut: false,
        term: None,
        path: Vec::new(),
    };
    let _ = r.pattern(pattern);
    Resolution {
        effects: r.effects,
        unnamed: r.unnamed,
        numbers: r.numbers,
        escapes: Box::new(r.escapes),
    }
}

struct Resolver<'s> {
    store: &'s Store,
    given: &'s [(Id, Given)],
    effects: Vec<Effect>,
    unnamed: bool,
    numbers: Seen,
    escapes: Escapes,
    /// The workspace texts being made, the innermost last.
    making: Vec<Vec<u8>>,
    /// How many finished workspace texts are alive.
    alive: usize,
    begun: u8,
    /// The 101st placeable was begun.
    cut: bool,
    /// The named arguments of the term that was entered last, until it ends.
    term: Option<Named<'s>>,
    /// The patterns being written: the first one and those of references.
    path: Vec<&'s [u8]>,
}

impl<'s> Resolver<'s> {
    fn put(&mut self, text: &[u8]) {
        self.effects.push(Effect::Put(text.to_vec()));
        if let Some(top) = self.making.last_mut() {
            top.extend_from_slice(text);
        }
    }

    fn report(&mut self, record: Vec<u8>) {
        self.effects.push(Effect::Report(record));
    }

    fn look_up(&mut self, id: &[u8]) -> Option<Holder<'s>> {
        let held = holder(self.store, id);
        if held.is_none() {
            self.effects.push(Effect::Unfound);
        }
        held
    }

    /// Makes a workspace text.
    fn make(&mut self, text: impl FnOnce(&mut Self) -> Step<()>) -> Step<Value> {
        self.effects.push(Effect::Open);
        self.making.push(Vec::new());
        text(self)?;
        self.effects.push(Effect::Keep);
        self.alive += 1;
        let text = self.making.pop().expect("an open text");
        Ok(Value::Kept(self.alive - 1, text))
    }

    /// The bytes of a text are needed; those of a kept one are read.
    fn read<'v>(&mut self, value: &'v Value) -> Option<&'v [u8]> {
        match value {
            Value::Text(text) => Some(text),
            Value::Kept(before, text) => {
                self.effects.push(Effect::Read(*before, text.clone()));
                Some(text)
            }
            Value::Number(_) | Value::None | Value::Error => None,
        }
    }

    /// Frees the workspace texts made since `alive` of them were alive.
    fn free(&mut self, alive: usize) {
        self.effects.push(Effect::Free(self.alive - alive));
        self.alive = alive;
    }

    fn braces(&mut self, name: &[u8]) {
        self.put(b"{");
        self.put(name);
        self.put(b"}");
    }

    fn pattern(&mut self, pattern: &'s Pattern) -> Step<()> {
        for element in &pattern.elements {
            if self.cut {
                break;
            }
            match element {
                Element::Text(text) => self.put(text),
                Element::Placeable(expression) => self.placeable(pattern, expression)?,
            }
        }
        Ok(())
    }

    fn placeable(&mut self, pattern: &'s Pattern, expression: &'s Expression) -> Step<()> {
        self.begun += 1;
        self.effects.push(Effect::Begin);
        if self.begun == 101 {
            self.cut = true;
            self.report(errors::too_many_placeables());
            return Ok(());
        }
        let direct = matches!(
            expression,
            Expression::Inline(Inline::Message(..) | Inline::Term(..) | Inline::Text(..))
        );
        let isolated = self.store.isolating && pattern.elements.len() > 1 && !direct;
        if isolated {
            self.put("\u{2068}".as_bytes());
        }
        if self.path.is_empty() {
            self.path.push(&pattern.bytes);
        }
        self.effects.push(Effect::Expand);
        self.expression(expression)?;
        if self.cut {
            let named = match expression {
                Expression::Inline(inline) | Expression::Select(inline, _) => inline,
            };
            let name = self.name(named);
            self.braces(&name);
        }
        if isolated {
            self.put("\u{2069}".as_bytes());
        }
        Ok(())
    }

    /// How an expression is named in an error's text.
    fn name(&mut self, inline: &Inline) -> Vec<u8> {
        let dotted = |before: &[u8], id: &Id, attribute: &Option<Id>| {
            let mut name = [before, id].concat();
            if let Some(attribute) = attribute {
                name.push(b'.');
                name.extend_from_slice(attribute);
            }
            name
        };
        match inline {
            Inline::Message(id, attribute) => dotted(b"", id, attribute),
            Inline::Term(id, attribute, _) => dotted(b"-", id, attribute),
            Inline::Function(id, _) => [id, &b"()"[..]].concat(),
            Inline::Variable(id) => [b"$", &id[..]].concat(),
            Inline::Text(_) | Inline::Number(_) | Inline::Placeable(_) => {
                self.unnamed = true;
                b"???".to_vec()
            }
        }
    }

    fn expression(&mut self, expression: &'s Expression) -> Step<()> {
        let (selector, variants) = match expression {
            Expression::Inline(inline) => return self.write(inline),
            Expression::Select(selector, variants) => (selector, variants),
        };
        let alive = self.alive;
        let value = self.value(selector)?;
        let text = self.read(&value);
        let locale = self.store.locale;
        let found = found(variants, &value, text, locale);
        if let Value::Number(number) = &value {
            self.numbers.chosen_by(number);
            if let Some(taken) = asks_category(variants, found) {
                self.numbers.choices.count(number, locale, taken);
            }
        }
        let default = || variants.iter().find(|variant| variant.default);
        let chosen = found.map(|at| &variants[at]).or_else(default);
        self.free(alive);
        match chosen {
            Some(variant) => self.pattern(&variant.pattern),
            None => {
                self.report(errors::missing_default());
                Ok(())
            }
        }
    }

    /// Writes an inline expression.
    fn write(&mut self, inline: &'s Inline) -> Step<()> {
        match inline {
            Inline::Text(literal) => {
                let text = self.escapes.read(literal).expect("checked");
                self.put(&text);
            }
            Inline::Number(literal) => self.put_number(&Number::of_literal(literal)),
            Inline::Placeable(expression) => self.expression(expression)?,
            Inline::Variable(id) => match self.variable(id) {
                Some(value) => self.put_value(&value),
                None => {
                    let name = self.name(inline);
                    self.braces(&name);
                }
            },
            Inline::Function(id, arguments) => match self.call(id, arguments)? {
                Some(Value::Error) => {
                    let name = self.name(inline);
                    self.put(&name);
                }
                Some(value) => self.put_value(&value),
                None => self.miss(FUNCTION, id, &None, inline),
            },
            Inline::Message(id, attribute) => match self.look_up(id).and_then(Holder::message) {
                None => self.miss(MESSAGE, id, attribute, inline),
                Some(entry) => match (part(entry, attribute), attribute) {
                    (Some(pattern), _) => self.enter(pattern, inline)?,
                    (None, Some(_)) => self.miss(MESSAGE, id, attribute, inline),
                    (None, None) => {
                        self.report(errors::no_value(id));
                        let name = self.name(inline);
                        self.braces(&name);
                    }
                },
            },
            Inline::Term(id, attribute, arguments) => {
                let alive = self.alive;
                let named = match arguments {
                    Some(arguments) => self.arguments(arguments)?.1,
                    None => Vec::new(),
                };
                self.term = Some(named);
                let entry = self.look_up(id).and_then(Holder::term);
                match entry.and_then(|entry| part(entry, attribute)) {
                    Some(pattern) => self.enter(pattern, inline)?,
                    None => self.miss(TERM, id, attribute, inline),
                }
                self.term = None;
                self.free(alive);
            }
        }
        Ok(())
    }

    /// Gives the value of a selector or argument.
    fn value(&mut self, inline: &'s Inline) -> Step<Value> {
        Ok(match inline {
            Inline::Number(literal) => Value::Number(Box::new(Number::of_literal(literal))),
            Inline::Text(literal) => {
                let text = self.escapes.read(literal).expect("checked");
                if !literal.contains(&b'\\') {
                    return Ok(Value::Text(text));
                }
                self.make(|r| {
                    r.put(&text);
                    Ok(())
                })?
            }
            Inline::Variable(id) => self.variable(id).unwrap_or(Value::Error),
            Inline::Function(id, arguments) => self.call(id, arguments)?.unwrap_or(Value::Error),
            Inline::Message(..) | Inline::Term(..) | Inline::Placeable(..) => {
                self.make(|r| r.write(inline))?
            }
        })
    }

    fn put_value(&mut self, value: &Value) {
        if let Some(text) = self.read(value) {
            self.put(text);
        } else if let Value::Number(number) = value {
            self.put_number(number);
        }
    }

    fn put_number(&mut self, number: &Number) {
        self.numbers.written(number);
        self.put(&number.text());
    }

    /// A variable's value; a missing one is listed outside of terms.
    fn variable(&mut self, id: &Id) -> Option<Value> {
        if let Some(named) = &self.term {
            let held = named.iter().find(|(name, _)| *name == id);
            return held.map(|(_, value)| value.clone());
        }
        match self.given.iter().find(|(name, _)| name == id) {
            Some((_, Given::Text(text))) => Some(Value::Text(text.clone())),
            Some((_, Given::Number(d))) => Some(Value::Number(Box::new(Number::plain(*d)))),
            Some((_, Given::None)) => Some(Value::None),
            None => {
                self.report(errors::reference(VARIABLE, id, None));
                None
            }
        }
    }

    fn arguments(&mut self, arguments: &'s Arguments) -> Step<(Vec<Value>, Named<'s>)> {
        let mut positional = Vec::new();
        for inline in &arguments.positional {
            positional.push(self.value(inline)?);
        }
        let mut named = Vec::new();
        for (name, inline) in &arguments.named {
            named.push((name, self.value(inline)?));
        }
        Ok((positional, named))
    }

    /// The result of a function, or `None` if there is no such function.
    fn call(&mut self, id: &Id, arguments: &'s Arguments) -> Step<Option<Value>> {
        let alive = self.alive;
        let (positional, named) = self.arguments(arguments)?;
        let held = self.look_up(id);
        let result = match held {
            Some(Holder::Function) => Some(self.number(positional.first(), &named)?),
            _ => None,
        };
        self.free(alive);
        Ok(result)
    }

    /// NUMBER, the one function there is.
    fn number(&mut self, first: Option<&Value>, named: &[(&Id, Value)]) -> Step<Value> {
        let Some(Value::Number(number)) = first else {
            return Ok(Value::Error);
        };
        let mut number = number.clone();
        for (name, value) in named {
            if let Some(text) = self.read(value) {
                number.merge_text(name, text);
            } else if let Value::Number(n) = value {
                if let Some(digits) = number.merge_number(name, n.value) {
                    self.effects.push(Effect::Merge(digits));
                    if digits > 19 {
                        return Err(Stop);
                    }
                }
            }
        }
        Ok(Value::Number(number))
    }

    /// Writes the pattern of a reference, unless it is being written already.
    fn enter(&mut self, pattern: &'s Pattern, inline: &Inline) -> Step<()> {
        if self.path.contains(&&pattern.bytes[..]) {
            self.report(errors::cyclic());
            let name = self.name(inline);
            self.braces(&name);
            return Ok(());
        }
        self.path.push(&pattern.bytes);
        self.pattern(pattern)?;
        self.path.pop();
        Ok(())
    }

    /// Lists and writes a reference that leads nowhere.
    fn miss(&mut self, kind: u8, id: &Id, attribute: &Option<Id>, inline: &Inline) {
        self.report(errors::reference(kind, id, attribute.as_deref()));
        let name = self.name(inline);
        self.braces(&name);
    }
}
