//! images.vec: stores, images, arguments and sheet images, well-formed and
//! damaged. The Rust has no counterpart; the answers are those of the small reader.

use super::formats::hurt;
use super::{File, CASES};
use crate::boundaries;
use crate::bytes::Write;
use crate::case::{Bundle, Item, Value};
use crate::model::arguments::accepted;
use crate::model::number::Decimal;
use crate::model::reader;
use crate::order;
use crate::random::Random;
use crate::sheet_points::sheet;
use crate::{encode, ftl, listed, rust, Maker};
use fluent_bundle::FluentValue;

/// What a piece of bytes is to be, by the refusal it may meet.
#[derive(Clone, Copy, PartialEq)]
pub enum Kind {
    Store = 4,
    Resource = 5,
    /// Arguments by document 01's layout alone.
    Arguments = 13,
    Sheet = 18,
    /// Arguments with their names in order and their scales least.
    Ordered = 19,
}

impl Kind {
    pub fn accepts(self, bytes: &[u8]) -> bool {
        match self {
            Kind::Store => reader::store(bytes).is_some(),
            Kind::Resource => reader::resource(bytes).is_some(),
            Kind::Arguments => reader::arguments(bytes).is_some(),
            Kind::Sheet => reader::sheet(bytes).is_some(),
            Kind::Ordered => accepted(bytes).is_ok(),
        }
    }

    /// 0, or the refusal; arguments may meet two.
    fn answer(self, bytes: &[u8]) -> u8 {
        match self {
            Kind::Arguments | Kind::Ordered => accepted(bytes).err().unwrap_or(0),
            _ if self.accepts(bytes) => 0,
            _ => self as u8,
        }
    }

    fn operation(self) -> u8 {
        match self {
            Kind::Store => 20,
            Kind::Resource => 21,
            Kind::Arguments | Kind::Ordered => 22,
            Kind::Sheet => 51,
        }
    }
}

pub(super) fn judged(file: &mut File, kind: Kind, bytes: &[u8]) {
    let mut case = Vec::new();
    case.blob(bytes);
    case.u8(kind.answer(bytes));
    file.case(kind.operation(), case);
}

pub fn make(seed: u64, cases: usize) -> File {
    let mut r = Random::new(seed ^ 3);
    let mut file = File::default();
    for (kind, bytes, _) in boundaries::all() {
        judged(&mut file, kind, &bytes);
    }
    for (bytes, _) in boundaries::sheets() {
        judged(&mut file, Kind::Sheet, &bytes);
    }
    for image in order::images() {
        judged(&mut file, Kind::Ordered, &image.bytes);
    }
    for literal in boundaries::ESCAPES {
        unescape_case(&mut file, literal);
    }
    for (kind, bytes) in bases() {
        damage_case(&mut file, kind, &bytes);
        if kind == Kind::Arguments {
            damage_case(&mut file, Kind::Ordered, &bytes);
        }
    }
    let mut at = seed.wrapping_mul(7_000_003);
    let end = file.count() + 30;
    while file.count() < end {
        at += 1;
        let bundle = Maker::new(at).bundle();
        let (kind, bytes) = match bundle.items.last() {
            Some(Item::Plain(tree)) if !at.is_multiple_of(3) => {
                (Kind::Resource, encode::resource(tree))
            }
            _ => (Kind::Store, encode::store(&bundle)),
        };
        if (60..=110).contains(&bytes.len()) {
            damage_case(&mut file, kind, &bytes);
        }
    }
    let end = file.count() + 120 * cases / CASES;
    while file.count() < end {
        at += 1;
        let image = encode::listed(&listed(at).listed);
        if image.len() <= 200 {
            judged(&mut file, Kind::Ordered, &image);
        }
    }
    let end = file.count() + 1500 * cases / CASES;
    while file.count() < end {
        at += 1;
        let mut maker = Maker::new(at);
        let bundle = maker.bundle();
        let arguments = maker.arguments();
        let (kind, bytes) = match r.below(8) {
            0 | 1 => (Kind::Store, encode::store(&bundle)),
            2..=4 => (Kind::Resource, encode::resource(&maker.resource())),
            5 | 6 => (Kind::Ordered, encode::arguments(&arguments)),
            _ => {
                find_case(&mut file, &mut r, &arguments);
                continue;
            }
        };
        if bytes.len() > 300 {
            continue;
        }
        assert!(kind.accepts(&bytes), "the generator makes well-formed ones");
        let mut damaged = bytes.clone();
        for _ in 0..1 + r.below(2) {
            hurt(&mut r, &mut damaged);
        }
        if r.one_in(4) {
            judged(&mut file, kind, &bytes);
        }
        judged(&mut file, kind, &damaged);
    }
    file
}

/// A string literal that is well-formed, which two readings agree on.
pub(super) fn unescape_case(file: &mut File, literal: &str) {
    let Some(text) = reader::unescape(literal.as_bytes()) else {
        return;
    };
    let standin = fluent_syntax::unicode::unescape_unicode_to_string(literal);
    assert_eq!(standin.as_bytes(), text);
    let mut case = Vec::new();
    case.str(literal);
    case.str(text);
    file.case(23, case);
}

fn find_case(file: &mut File, r: &mut Random, arguments: &[(String, Value)]) {
    let name = *r.pick(&["n", "m", "s", "q", "N", "nn"]);
    let found = arguments.iter().find(|(n, _)| n == name);
    let held = rust::arguments(arguments);
    let mut case = Vec::new();
    case.blob(encode::arguments(arguments));
    case.str(name);
    match (found.map(|(_, value)| value), held.get(name)) {
        (None, None) => case.u8(0),
        (Some(Value::Text(text)), Some(FluentValue::String(s))) if s == text => {
            case.u8(1);
            case.str(text);
        }
        (Some(Value::Number(d)), Some(FluentValue::Number(n)))
            if n.value.to_bits() == rust::number::double(*d).to_bits() =>
        {
            case.u8(2);
            case.flag(d.negative);
            case.u64(d.digits);
            case.u8(d.scale);
        }
        (Some(Value::None), Some(FluentValue::None)) => case.u8(3),
        _ => panic!("the Rust finds another value"),
    }
    file.case(24, case);
}

/// Every other byte at every place, and every truncation.
pub(super) fn damage_case(file: &mut File, kind: Kind, bytes: &[u8]) {
    assert!(bytes.len() <= 120 && kind.accepts(bytes));
    let mut bits = Bits::default();
    let mut changed = bytes.to_vec();
    for at in 0..bytes.len() {
        for value in (0..=255).filter(|value| *value != bytes[at]) {
            changed[at] = value;
            bits.push(kind.accepts(&changed));
        }
        changed[at] = bytes[at];
    }
    for length in 0..bytes.len() {
        bits.push(kind.accepts(&bytes[..length]));
    }
    let mut case = vec![kind as u8];
    case.blob(bytes);
    case.blob(bits.bytes);
    file.case(25, case);
}

/// Bits, the most significant of each byte first.
#[derive(Default)]
struct Bits {
    bytes: Vec<u8>,
    count: usize,
}

impl Bits {
    fn push(&mut self, bit: bool) {
        if self.count.is_multiple_of(8) {
            self.bytes.push(0);
        }
        if bit {
            *self.bytes.last_mut().expect("a byte") |= 0x80 >> (self.count % 8);
        }
        self.count += 1;
    }
}

const RESOURCES: [&str; 24] = [
    "",
    "a = Hello",
    "ab = x{ \"\" }y",
    "a = é\u{10FFFF}\u{800}",
    "a = \u{D7FF}\u{E000}\u{10000}\u{FFFFF}",
    "a = { \"x\\u0041\" }",
    "a = { \"\\\"\\U01F40B\\\\\" }",
    "a = { -1.50 }",
    "a = { 123456789012345 }",
    "a = { F() }",
    "a = { F(1, x: 2) }",
    "a = { F(\"\\\\\", -3, $n) }",
    "a = { b }",
    "a = { b.x }",
    "a = { -u }",
    "-t = { -u.x(1, n: \"é\") }",
    "a = { -t(x: 1, y: \"2\") }",
    "a = { $n }",
    "a = { { { $n } } }",
    "a = { $n -> [one] x *[2.0] é }",
    "a = { { 1 -> [a] b } }",
    "a =\n.x = y",
    "-t = v\n.x = y\n.y = z",
    "a = x\n-a = y",
];

fn bases() -> Vec<(Kind, Vec<u8>)> {
    let resource = |source: &str| ftl::resource(source);
    let number = |negative, digits, scale| {
        Value::Number(Decimal {
            negative,
            digits,
            scale,
        })
    };
    let mut out: Vec<_> = RESOURCES
        .iter()
        .map(|source| (Kind::Resource, encode::resource(&resource(source))))
        .collect();
    let text = |t: &str| Value::Text(t.into());
    let arguments = [
        vec![],
        vec![("n", text(""))],
        vec![("n", text("é€\u{10FFFF}"))],
        vec![("n", number(false, 0, 0))],
        vec![("n", number(true, 999_999_999_999_999, 14))],
        vec![("a-_9Z", Value::None)],
        vec![("n", number(true, 0, 0))],
        vec![("n", number(false, 25, 1)), ("o", number(true, 10, 0))],
        vec![
            ("m", text("x")),
            ("n", number(false, 15, 1)),
            ("o", Value::None),
        ],
        vec![
            ("a", Value::None),
            ("a-", Value::None),
            ("a0", Value::None),
            ("aa", Value::None),
            ("b", Value::None),
        ],
    ];
    for list in arguments {
        let named: Vec<_> = list.into_iter().map(|(n, v)| (n.to_string(), v)).collect();
        out.push((Kind::Arguments, encode::arguments(&named)));
    }
    let function = |id: &str| Item::Function(id.into());
    let stores: [(u8, bool, Vec<Item>); 9] = [
        (0, true, vec![]),
        (3, false, vec![]),
        (1, true, vec![Item::Plain(resource(""))]),
        (2, true, vec![Item::Plain(resource("a = b"))]),
        (0, false, vec![Item::Overriding(resource("a = { b }"))]),
        (0, true, vec![function("F")]),
        (0, true, vec![function("NUMBER"), function("G")]),
        (
            1,
            true,
            vec![
                Item::Plain(resource("a = x")),
                function("F"),
                Item::Overriding(resource("-a = y")),
            ],
        ),
        (
            0,
            true,
            vec![function("a"), Item::Plain(resource("a = { a() }"))],
        ),
    ];
    for (at, (locale, isolating, items)) in stores.into_iter().enumerate() {
        let mut store = encode::store(&Bundle {
            locale,
            isolating,
            items,
        });
        // Some slices are longer than what is used.
        store.resize(store.len() + at % 3, 0xAA);
        out.push((Kind::Store, store));
    }
    for rows in ["", "a", "a; ab.x", "a n=x; b", "a.x n=-15; b m=none n=é"] {
        out.push((Kind::Sheet, sheet("a = A", rows).image()));
    }
    out
}
