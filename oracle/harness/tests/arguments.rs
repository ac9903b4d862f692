//! Arguments in name order, by document 02's Card 2. Expected answers are written
//! by hand.
#![forbid(unsafe_code)]

use harness::case::{accepted, Bundle, Item, Value};
use harness::model::arguments::{self, less};
use harness::model::effects::Lengths;
use harness::model::number::Decimal;
use harness::model::operations;
use harness::model::reader::{self, Given, Row};
use harness::model::sheet::{format_sheet, prepare};
use harness::order::{formattings, image, images, largest, sheets, store};
use harness::vectors::images::Kind;
use harness::{encode, ftl, rust};

fn answer(words: &str) -> u8 {
    arguments::accepted(&image(words)).err().unwrap_or(0)
}

fn number(negative: bool, digits: u64, scale: u8) -> Value {
    Value::Number(Decimal {
        negative,
        digits,
        scale,
    })
}

/// The notation, held to bytes.
#[test]
fn the_notation() {
    assert_eq!(image(""), [0, 0, 0, 7, 1, 0, 0]);
    assert_eq!(image("a"), [0, 0, 0, 11, 1, 0, 1, 0, 1, b'a', 3]);
    let two = [
        0, 0, 0, 19, 1, 0, 2, 0, 2, b'a', b'-', 3, 0, 1, b'b', 1, 0, 1, b'x',
    ];
    assert_eq!(image("a- b=x"), two);
    let number = [
        0, 0, 0, 21, 1, 0, 1, 0, 1, b'n', 2, 1, 0, 0, 0, 0, 0, 0, 0, 25, 3,
    ];
    assert_eq!(image("n=-25/3"), number);
    assert_eq!(image("+version"), [0, 0, 0, 7, 2, 0, 0]);
    assert_eq!(image("+count"), [0, 0, 0, 7, 1, 0, 1]);
    assert_eq!(image("+left"), [0, 0, 0, 8, 1, 0, 0, 0]);
    assert_eq!(image("+length"), [0, 0, 0, 8, 1, 0, 0]);
    assert_eq!(image("!kind"), [0, 0, 0, 11, 1, 0, 1, 0, 1, b'z', 4]);
    assert_eq!(
        image("a{3}b"),
        [0, 0, 0, 14, 1, 0, 1, 0, 4, b'a', b'a', b'a', b'b', 3]
    );
}

#[test]
fn names_as_bare_bytes() {
    let ascending: [&[u8]; 12] = [
        b"A", b"AA", b"Z", b"a", b"a-", b"a-a", b"a0", b"aA", b"a_", b"aa", b"ab", b"b",
    ];
    for (at, a) in ascending.iter().enumerate() {
        for (other, b) in ascending.iter().enumerate() {
            assert_eq!(less(a, b), at < other, "{a:?} {b:?}");
        }
    }
}

#[test]
fn every_image_by_hand() {
    let mut counts = [0; 20];
    for image in images() {
        assert_eq!(answer(image.words), image.answer, "{}", image.words);
        // 13 is judged alone, whatever the order
        let fine = Kind::Arguments.accepts(&image.bytes);
        assert_eq!(fine, image.answer != 13, "{}", image.words);
        assert_eq!(Kind::Ordered.accepts(&image.bytes), image.answer == 0);
        counts[usize::from(image.answer)] += 1;
    }
    assert_eq!((counts[0], counts[13], counts[19]), (44, 58, 75));
}

/// What an accepted image gives is what stands in it.
#[test]
fn names_and_values() {
    let given = arguments::accepted(&image("a=x b=-25/1 c")).expect("it is accepted");
    let number = Given::Number(Decimal {
        negative: true,
        digits: 25,
        scale: 1,
    });
    let wanted = [
        (b"a".to_vec(), Given::Text(b"x".to_vec())),
        (b"b".to_vec(), number),
        (b"c".to_vec(), Given::None),
    ];
    assert_eq!(given, wanted);
}

/// Every order of three names but one is 19, and with something malformed 13.
#[test]
fn every_order_of_three() {
    let names = ["a", "aa", "b"];
    let mut fine = 0;
    for first in names {
        for second in names {
            for third in names {
                let words = format!("{first} {second} {third}");
                let wanted = match words == "a aa b" {
                    true => 0,
                    false => 19,
                };
                assert_eq!(answer(&words), wanted, "{words}");
                assert_eq!(answer(&format!("{words} !kind")), 13, "{words}");
                fine += usize::from(wanted == 0);
            }
        }
    }
    assert_eq!(fine, 1);
}

/// Every scale of some digits.
#[test]
fn every_scale() {
    for scale in 1..=14 {
        for refused in ["0", "-0", "10", "-10", "100000000000000", "999999999999990"] {
            assert_eq!(
                answer(&format!("n={refused}/{scale}")),
                19,
                "{refused} {scale}"
            );
        }
        for fine in ["1", "-1", "11", "101", "100000000000001", "999999999999999"] {
            assert_eq!(answer(&format!("n={fine}/{scale}")), 0, "{fine} {scale}");
        }
    }
    for any in ["0", "-0", "10", "100000000000000", "1", "999999999999999"] {
        assert_eq!(answer(&format!("n={any}/0")), 0);
        assert_eq!(answer(&format!("n={any}/15")), 13);
    }
}

/// As many arguments as fit.
#[test]
fn the_largest_images() {
    for large in largest() {
        assert_eq!(large.bytes.len(), large.length, "{}", large.what);
        let said = arguments::accepted(&large.bytes);
        assert_eq!(
            said.as_ref().map_or(0, Vec::len) > 10_000,
            large.answer == 0
        );
        assert_eq!(said.err().unwrap_or(0), large.answer, "{}", large.what);
        assert!(large.arguments >= 11_000, "{}", large.what);
    }
}

/// The answer with these lengths, and the buffers after, all AA before.
fn lent(l: Lengths, call: impl Fn(&mut [u8], &mut [u8], &mut [u8]) -> u8) -> (u8, [Vec<u8>; 3]) {
    let [mut text, mut list, mut work] = [l.text, l.list, l.workspace].map(|n| vec![0xAA; n]);
    let answer = call(&mut text, &mut list, &mut work);
    (answer, [text, list, work])
}

fn all(buffers: &[Vec<u8>; 3], byte: u8) -> bool {
    buffers.iter().flatten().all(|b| *b == byte)
}

#[test]
fn every_formatting_by_hand() {
    let mut seen = [0; 20];
    for call in formattings() {
        let attribute = call.attribute.as_deref();
        let prepared = operations::prepare(&call.store, &call.id, attribute, &call.arguments);
        let (answer, after) = lent(call.lengths, |text, list, work| {
            let done = operations::format_in(&prepared, text, list, work);
            done.err().unwrap_or(0)
        });
        assert_eq!(answer, call.answer, "{} {:?}", call.words, call.lengths);
        seen[usize::from(answer)] += 1;
        // before the run nothing changes
        let before = [4, 8, 11, 12, 13, 19].contains(&answer);
        if before || answer == 7 && call.lengths.list < 5 {
            assert!(all(&after, 0xAA), "{}", call.words);
        } else if answer > 0 {
            assert!(all(&after, 0), "{}", call.words);
        } else {
            assert_eq!(after[2], [0; 3]);
        }
    }
    for number in [0, 4, 7, 8, 11, 12, 13, 15, 17, 19] {
        assert!(seen[number] > 0, "{number}");
    }
}

#[test]
fn every_sheet_by_hand() {
    let mut seen = [0; 20];
    for call in sheets() {
        let prepared = prepare(&call.store, &call.sheet);
        let (answer, after) = lent(call.lengths, |text, list, work| {
            let done = format_sheet(&prepared, text, list, work);
            done.err().unwrap_or(0)
        });
        assert_eq!(answer, call.answer, "{} {:?}", call.words, call.lengths);
        seen[usize::from(answer)] += 1;
        // a list under 5 bytes comes before any message; what one meets clears
        if call.lengths.list < 5 {
            assert_eq!(answer, 7);
            assert!(all(&after, 0xAA), "{}", call.words);
        } else if answer > 0 {
            assert!(all(&after, 0), "{}", call.words);
        } else {
            assert_eq!(after[2], [0; 3]);
        }
    }
    for number in [0, 7, 11, 12, 13, 15, 17, 19] {
        assert!(seen[number] > 0, "{number}");
    }
}

/// Each image in a formatting, and in a sheet between two messages, with a list under
/// 5 bytes and with a longer one.
#[test]
fn every_image_in_both() {
    let row = |image: &[u8]| Row {
        message: b"a".to_vec(),
        attribute: None,
        arguments: image.to_vec(),
    };
    for given in images() {
        for list in [4, 100] {
            let lengths = Lengths {
                text: 100,
                list,
                workspace: 0,
            };
            // 13 and 19 come before 7 in a formatting
            let prepared = operations::prepare(&store(), b"a", None, &given.bytes);
            let said = operations::format(&prepared, lengths).err().unwrap_or(0);
            let fine = if list < 5 { 7 } else { 0 };
            let wanted = if given.answer > 0 { given.answer } else { fine };
            assert_eq!(said, wanted, "{} {list}", given.words);
            // and behind it in a sheet
            if given.words.contains("+length") {
                continue;
            }
            let rows = [row(&image("")), row(&given.bytes), row(&image(""))];
            let prepared = prepare(&store(), &encode::sheet(&rows));
            let (said, after) = lent(lengths, |text, list, work| {
                let done = format_sheet(&prepared, text, list, work);
                done.err().unwrap_or(0)
            });
            let wanted = if list < 5 { 7 } else { given.answer };
            assert_eq!(said, wanted, "{} {list}", given.words);
            if said > 0 {
                let left = if list < 5 { 0xAA } else { 0 };
                assert!(all(&after, left), "{} {list}", given.words);
            }
        }
    }
}

/// Variables that are there and that are not, around each other.
#[test]
fn lookups_by_hand() {
    let source = "a = { $A }{ $a }{ $a- }{ $aa }{ $ab }{ $b }{ $c }{ $z }";
    let store = encode::store(&Bundle {
        locale: 0,
        isolating: false,
        items: vec![Item::Plain(ftl::resource(source))],
    });
    for (words, text) in [
        ("", "{$A}{$a}{$a-}{$aa}{$ab}{$b}{$c}{$z}"),
        ("a=1/0 aa=x b=-25/1", "{$A}1{$a-}x{$ab}-2.5{$c}{$z}"),
        ("A=x a aa=y c=-0/0", "x{$a-}y{$ab}{$b}-0{$z}"),
        ("a-=x ab=y z=w", "{$A}{$a}x{$aa}y{$b}{$c}w"),
        (
            "A=1/0 a=2/0 a-=3/0 aa=4/0 ab=5/0 b=6/0 c=7/0 z=8/0",
            "12345678",
        ),
        ("a-=x a0=y aaa=z b", "{$A}{$a}x{$aa}{$ab}{$c}{$z}"),
    ] {
        let prepared = operations::prepare(&store, b"a", None, &image(words));
        let done = operations::format(&prepared, Lengths::AMPLE).expect("it finishes");
        assert_eq!(std::str::from_utf8(&done.text), Ok(text), "{words}");
        assert_eq!(done.errors, text.matches('{').count(), "{words}");
    }
}

/// Names and values have one accepted image: read and written again it is the same
/// bytes, and one that is refused with 19 is other bytes.
#[test]
fn one_image_for_names_and_values() {
    let again = |bytes: &[u8]| {
        let text = |bytes| String::from_utf8(bytes).expect("it was read as text");
        let given = reader::arguments(bytes)
            .expect("it is well-formed")
            .into_iter();
        let values = given.map(|(name, value)| match value {
            Given::Text(bytes) => (text(name), Value::Text(text(bytes))),
            Given::Number(decimal) => (text(name), Value::Number(decimal)),
            Given::None => (text(name), Value::None),
        });
        encode::arguments(&values.collect::<Vec<_>>())
    };
    for image in images().iter().filter(|image| image.answer != 13) {
        let written = again(&image.bytes);
        assert!(arguments::accepted(&written).is_ok(), "{}", image.words);
        assert_eq!(written == image.bytes, image.answer == 0, "{}", image.words);
    }
    // zero and minus zero are two values
    assert_ne!(again(&image("n=0/0")), again(&image("n=-0/0")));
    assert_eq!(again(&image("n=0/3")), image("n=0/0"));
    assert_eq!(again(&image("n=-0/3")), image("n=-0/0"));
}

/// 4 and 18 come before what a message would meet.
#[test]
fn before_any_message() {
    let row = |words: &str| Row {
        message: b"a".to_vec(),
        attribute: None,
        arguments: image(words),
    };
    let sheet = encode::sheet(&[row("z n=x")]);
    let longer = [&sheet[..], &[0]].concat();
    let [fine, short] = [40, 4].map(|list| Lengths {
        text: 40,
        list,
        workspace: 3,
    });
    let said = |store: &[u8], sheet: &[u8], lengths| {
        let prepared = prepare(store, sheet);
        lent(lengths, |text, list, work| {
            let done = format_sheet(&prepared, text, list, work);
            done.err().unwrap_or(0)
        })
    };
    for lengths in [fine, short] {
        for (store, sheet, wanted) in [
            (&store()[..8], &sheet[..], 4),
            (&store()[..8], &longer, 4),
            (&store(), &longer, 18),
        ] {
            let (answer, after) = said(store, sheet, lengths);
            assert_eq!(answer, wanted);
            assert!(all(&after, 0xAA));
        }
    }
    let (answer, after) = said(&store(), &sheet, short);
    assert!(answer == 7 && all(&after, 0xAA));
    let (answer, after) = said(&store(), &sheet, fine);
    assert!(answer == 19 && all(&after, 0));
}

/// The accepted form: sorted, the last of equal names, least scales.
#[test]
fn the_accepted_form() {
    let text = |t: &str| Value::Text(t.into());
    let named = |list: &[(&str, Value)]| {
        let named = list.iter().map(|(n, v)| (n.to_string(), v.clone()));
        named.collect::<Vec<_>>()
    };
    let listed = named(&[
        ("b", text("x")),
        ("aa", number(true, 0, 3)),
        ("a", number(false, 1500, 3)),
        ("b", Value::None),
        ("A", number(true, 100_000_000_000_000, 14)),
        ("a-", number(false, 10, 0)),
    ]);
    let wanted = named(&[
        ("A", number(true, 1, 0)),
        ("a", number(false, 15, 1)),
        ("a-", number(false, 10, 0)),
        ("aa", number(true, 0, 0)),
        ("b", Value::None),
    ]);
    assert_eq!(accepted(&listed), wanted);
    assert_eq!(encode::arguments(&listed), encode::listed(&wanted));
    assert_eq!(encode::arguments(&wanted), encode::listed(&wanted));
    assert_eq!(arguments::accepted(&encode::listed(&listed)), Err(19));
    assert!(arguments::accepted(&encode::listed(&wanted)).is_ok());
    assert_eq!(
        encode::listed(&wanted),
        image("A=-1/0 a=15/1 a-=10/0 aa=-0/0 b")
    );
    // the original sorts on insert, and replaces the earlier of equal names
    let (given, sorted) = (rust::arguments(&listed), rust::arguments(&wanted));
    let pairs = |args: &fluent_bundle::FluentArgs| {
        let pairs = args.iter().map(|(n, v)| (n.to_string(), format!("{v:?}")));
        pairs.collect::<Vec<_>>()
    };
    assert_eq!(pairs(&given), pairs(&sorted));
    let names = given.iter().map(|(name, _)| name).collect::<Vec<_>>();
    assert_eq!(names, ["A", "a", "a-", "aa", "b"]);
}
