//! The counting of isolation marks, by hand and on wrong texts, and what is said
//! of an input's marks.
#![forbid(unsafe_code)]

use harness::case::{Bundle, Case, Item, Value};
use harness::model::effects::Effect;
use harness::model::marks::{
    by_bytes, by_scalars, marks, open_at_the_limit, paired, Marks, CLOSING, OPENING,
};
use harness::model::premises::{formatting, whole_sheet, Kind, Marked};
use harness::{checked, checked_sheet, encode, ftl, unmarked, unmarked_sheet};

/// ⟨ and ⟩ as marks.
fn text(text: &str) -> String {
    text.replace('⟨', "\u{2068}").replace('⟩', "\u{2069}")
}

fn counted(opening: usize, closing: usize, deepest: usize, unopened: Option<usize>) -> Marks {
    Marks {
        opening,
        closing,
        deepest,
        unopened,
    }
}

#[test]
fn counts_by_hand() {
    for (source, wanted, pairs) in [
        ("", counted(0, 0, 0, None), true),
        ("Витязь", counted(0, 0, 0, None), true),
        ("⟨⟩", counted(1, 1, 1, None), true),
        ("x ⟨2⟩", counted(1, 1, 1, None), true),
        ("⟨2⟩⟨3⟩", counted(2, 2, 1, None), true),
        ("⟨y ⟨z ⟨נח⟩⟩⟩", counted(3, 3, 3, None), true),
        ("⟨⟨⟩⟨⟨⟩⟩⟩", counted(4, 4, 3, None), true),
        // A closing mark too few.
        ("⟨", counted(1, 0, 1, None), false),
        ("⟨y ⟨נח⟩", counted(2, 1, 2, None), false),
        // One too many; the prefix ends with it, in bytes.
        ("⟩", counted(0, 1, 0, Some(3)), false),
        ("é⟩", counted(0, 1, 0, Some(5)), false),
        ("⟨2⟩⟩", counted(1, 2, 1, Some(10)), false),
        // As many of each, but not in every prefix.
        ("⟩⟨", counted(1, 1, 0, Some(3)), false),
        ("x ⟩2⟨", counted(1, 1, 0, Some(5)), false),
        ("⟨⟩⟩⟨", counted(2, 2, 1, Some(9)), false),
        ("⟩⟨⟨⟩⟨⟩⟩⟨", counted(4, 4, 1, Some(3)), false),
    ] {
        let source = text(source);
        assert_eq!(by_scalars(&source), wanted, "{source:?}");
        assert_eq!(by_bytes(source.as_bytes()), wanted, "{source:?}");
        assert_eq!(marks(source.as_bytes()), Ok(wanted), "{source:?}");
        assert_eq!(wanted.paired(), pairs, "{source:?}");
        assert_eq!(paired(source.as_bytes()).is_ok(), pairs, "{source:?}");
    }
}

#[test]
fn near_to_marks() {
    for near in [
        "\u{2066}",
        "\u{2067}",
        "\u{206A}",
        "\u{202A}",
        "\u{202E}",
        "\u{200F}",
        "\u{2028}",
        "\u{20A8}",
        "\u{20E9}",
        "\u{1068}",
        "\u{A069}",
        "\u{12068}",
        "\u{102069}",
        "\u{E2}\u{81}\u{A8}",
        "\\u2068",
        "⟨⟩",
        "\u{FFFD}",
    ] {
        assert_eq!(marks(near.as_bytes()), Ok(Marks::default()), "{near:?}");
    }
    assert!(marks(b"\xE2\x81").is_err());
    assert!(marks(b"\xE2\x81\xA8\xFF").is_err());
    // By bytes alone a broken text is counted, too.
    assert_eq!(by_bytes(b"\xE2\x81\xE2\x81\xA8\xFF").opening, 1);
}

/// The card's words, said of every prefix counted for itself.
fn paired_by_words(text: &str) -> bool {
    let count = |text: &str, mark: char| text.chars().filter(|c| *c == mark).count();
    let ends = text.char_indices().map(|(at, c)| at + c.len_utf8());
    let no_prefix = ends
        .chain([0])
        .all(|end| count(&text[..end], CLOSING) <= count(&text[..end], OPENING));
    no_prefix && count(text, OPENING) == count(text, CLOSING)
}

/// Every byte prefix, its marks found for itself.
fn paired_by_bytes(text: &[u8]) -> bool {
    let count = |text: &[u8], last: u8| {
        let places = text.windows(3).filter(|w| **w == [0xE2, 0x81, last]);
        places.count()
    };
    let prefixes = (0..=text.len()).map(|end| &text[..end]);
    let mut over = prefixes.filter(|prefix| count(prefix, 0xA9) > count(prefix, 0xA8));
    over.next().is_none() && count(text, 0xA8) == count(text, 0xA9)
}

/// All texts of up to six of these words.
#[test]
fn small_texts() {
    let words = ["\u{2068}", "\u{2069}", "x", "\u{2067}"];
    let mut pairs = 0;
    for length in 0..=6 {
        for mut number in 0..words.len().pow(length) {
            let mut text = String::new();
            for _ in 0..length {
                text.push_str(words[number % words.len()]);
                number /= words.len();
            }
            let said = marks(text.as_bytes()).expect("both counts agree").paired();
            assert_eq!(said, paired_by_words(&text), "{text:?}");
            assert_eq!(said, paired_by_bytes(text.as_bytes()), "{text:?}");
            pairs += usize::from(said);
        }
    }
    // Of each length as many as the sum over k of: the places for 2k marks, times
    // the k-th Catalan number for pairing them, times 2 for each other word.
    assert_eq!(pairs, 1 + 2 + 5 + 14 + 42 + 132 + 429);
}

/// A text with a mark dropped, put in or exchanged is noticed.
#[test]
fn wrong_texts() {
    for right in ["x ⟨2⟩", "⟨y ⟨Витязь⟩⟩ z", "1⟨2⟨3⟨נח⟩3⟩2⟩1", "⟨2⟩⟨3⟩"]
    {
        let right = text(right);
        assert!(paired(right.as_bytes()).is_ok());
        let places = right.match_indices([OPENING, CLOSING]);
        for (at, mark) in places {
            // Dropped: the numbers differ.
            let dropped = [&right[..at], &right[at + mark.len()..]].concat();
            assert!(paired(dropped.as_bytes()).is_err(), "{dropped:?}");
            // Twice: the numbers differ.
            let twice = [&right[..at], mark, &right[at..]].concat();
            assert!(paired(twice.as_bytes()).is_err(), "{twice:?}");
        }
        // All exchanged: as many of each, but a prefix has more closing ones.
        let exchanged: String = right
            .chars()
            .map(|scalar| match scalar {
                OPENING => CLOSING,
                CLOSING => OPENING,
                other => other,
            })
            .collect();
        let said = marks(exchanged.as_bytes()).expect("both counts agree");
        assert_eq!(said.opening, said.closing);
        assert!(said.unopened.is_some() && paired(exchanged.as_bytes()).is_err());
    }
}

/// What the model says of a source and the argument `v`.
fn said(source: &str, v: &str) -> Marked {
    let bundle = Bundle {
        locale: 0,
        isolating: true,
        items: vec![Item::Plain(ftl::resource(&text(source)))],
    };
    let given = [("v".to_string(), Value::Text(text(v)))];
    formatting(&encode::store(&bundle), &encode::arguments(&given)).expect("well-formed")
}

#[test]
fn where_marks_can_stand() {
    let texts = [
        "a = ⟨",
        "a = x ⟩ y",
        "a = x{ $n }⟩",
        "a = { $n -> [x] ⟨ *[o] y }",
        "a = { $n -> [x] y *[o] ⟩ }",
        "a = { { $n -> *[o] { $m -> *[o] ⟩ } } }",
        "a = { NUMBER({ $n -> *[o] ⟩ }) }",
        "a = { { $n -> *[o] ⟨ } -> *[o] x }",
        "a = x\n.x = ⟩",
        "-a = ⟩",
        "-a = x\n.y = x\n.x = ⟩",
        "a = x\nb = ⟩",
        // The second `a` holds nothing.
        "a = x\na = ⟩",
    ];
    let literals = [
        "a = { \"⟨\" }",
        "a = { \"\\u2069\" }",
        "a = { \"x\\U002068y\" }",
        "a = { \"\\\\\\u2068\" }",
        "a = { \"\\u2069\" -> *[o] x }",
        "a = { { \"\\u2069\" } }",
        "a = { NUMBER(\"⟩\") }",
        "a = { NUMBER(1, F(\"⟩\")) }",
        "a = { F(x: \"\\u2068\") }",
        "a = { -t(\"\\u2068\") }",
        "a = { -t(1, n: \"⟩\") }",
        "a = { -t.x(n: \"\\u2069\") }",
        "a = { $n -> *[o] { \"\\u2069\" } }",
        "a = x\n.x = { \"\\u2069\" }",
        "a = x\na = { \"\\u2069\" }",
    ];
    let wanted = |kind| Marked {
        texts: usize::from(kind == Kind::Text),
        literals: usize::from(kind == Kind::Literal),
        arguments: usize::from(kind == Kind::Argument),
    };
    for source in texts {
        assert_eq!(said(source, "x"), wanted(Kind::Text), "{source}");
    }
    for source in literals {
        assert_eq!(said(source, "x"), wanted(Kind::Literal), "{source}");
    }
    assert_eq!(said("a = x", "x⟩"), wanted(Kind::Argument));
    let all = said("a = ⟩{ \"⟩⟨\" }{ F(\"\\u2069\") }", "⟨");
    assert_eq!((all.texts, all.literals, all.arguments), (1, 2, 1));
    assert!(!all.none() && !all.only(Kind::Text));
    for source in [
        "a = x { $n } \u{2067}",
        "a = { \"\\u2067\\U00206A\\uD800\\UE281A8\" }",
        "a = { \"\\\\u2068\" }",
        "a = { \"\\u00E2\\u0081\\u00A8\" }",
        "u2068 = { u2069 }",
    ] {
        assert!(said(source, "\u{2066}").none(), "{source}");
    }
}

#[test]
fn marks_of_items_and_sheets() {
    let plain = |source: &str| Item::Plain(ftl::resource(&text(source)));
    let overriding = |source: &str| Item::Overriding(ftl::resource(&text(source)));
    let store = |items: Vec<Item>| {
        encode::store(&Bundle {
            locale: 3,
            isolating: false,
            items,
        })
    };
    let none = encode::arguments(&[]);
    let marked = |items| formatting(&store(items), &none).expect("well-formed").texts;
    assert_eq!(marked(vec![]), 0);
    assert_eq!(marked(vec![plain("a = x"), plain("b = ⟩")]), 1);
    // Neither of the two marked ones holds `a`.
    let hidden = vec![plain("a = ⟩"), overriding("a = x"), plain("a = ⟨")];
    assert_eq!(marked(hidden), 2);
    let fine = store(vec![plain("a = { $n }")]);
    let broken = &fine[..fine.len() - 1];
    assert_eq!(formatting(broken, &none), None);
    assert_eq!(formatting(&fine, &none[1..]), None);
    let sheet = |rows: &str| harness::sheet_points::sheet("a = { $n }", &text(rows)).image();
    let said = |rows: &str| whole_sheet(&fine, &sheet(rows));
    let found = |arguments| Marked {
        arguments,
        ..Marked::default()
    };
    assert_eq!(said(""), Some(found(0)));
    assert_eq!(said("a n=x; a n=2; a"), Some(found(0)));
    assert_eq!(said("a n=x; a n=⟩; a m=⟨⟨"), Some(found(2)));
    assert_eq!(said("a n=x; a !left"), None);
    assert_eq!(whole_sheet(&fine, &sheet("a")[1..]), None);
}

#[test]
#[should_panic(expected = "Marked { texts: 1, literals: 0, arguments: 0 }")]
fn a_planted_mark_is_noticed() {
    let mut case = unmarked(1);
    let planted = Item::Plain(ftl::resource("zz = \u{2068}"));
    case.bundle.items.push(planted);
    checked(case);
}

#[test]
#[should_panic(expected = "Marked { texts: 0, literals: 1, arguments: 0 }")]
fn a_planted_escape_is_noticed() {
    let mut sheet = unmarked_sheet(1);
    let planted = Item::Plain(ftl::resource("zz = { zz(x: \"\\u2069\") }"));
    sheet.bundle.items.push(planted);
    checked_sheet(sheet);
}

#[test]
#[should_panic(expected = "Marked { texts: 0, literals: 0, arguments: 1 }")]
fn a_planted_argument_is_noticed() {
    let mut case: Case = unmarked(1);
    let planted = Value::Text("x\u{2069}".into());
    case.arguments.push(("zz".into(), planted));
    checked(case);
}

/// What was open when the 101st placeable was begun.
#[test]
fn open_at_the_101st() {
    use Effect::{Begin, Keep, Open};
    let put = |text: &str| {
        Effect::Put(
            text.replace('⟨', "\u{2068}")
                .replace('⟩', "\u{2069}")
                .into(),
        )
    };
    let begun = |count: usize| vec![Begin; count];
    assert_eq!(open_at_the_limit(&[]), None);
    assert_eq!(open_at_the_limit(&begun(100)), None);
    assert_eq!(open_at_the_limit(&begun(101)), Some(0));
    let with = |effects: Vec<Effect>| {
        let all = [begun(100), effects, begun(1), vec![put("⟩⟨⟨⟨")]].concat();
        open_at_the_limit(&all)
    };
    assert_eq!(with(vec![put("x⟨")]), Some(1));
    assert_eq!(with(vec![put("x⟨"), put("y⟨2⟩⟨")]), Some(2));
    assert_eq!(with(vec![put("⟨x⟩")]), Some(0));
    // What stands in a workspace text is not in the text.
    assert_eq!(with(vec![put("⟨"), Open, put("⟨⟨")]), Some(1));
    assert_eq!(with(vec![Open, put("⟨"), Keep, put("⟨⟨")]), Some(2));
}
