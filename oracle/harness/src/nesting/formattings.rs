//! Formattings in which no text element, string literal or string argument has a
//! mark: their sources and their texts.

/// With isolation.
pub(super) const ISOLATING: [(&str, &str); 91] = [
    // A lone element has no marks.
    ("a = Hello", "Hello"),
    ("a = { $n }", "2"),
    ("a = { $s }", "Витязь"),
    ("a = { 5 }", "5"),
    ("a = { NUMBER(5) }", "5"),
    ("a = { { $n } }", "2"),
    ("a = { $n -> *[o] x }", "x"),
    ("a = { $n -> *[o] { $s } }", "Витязь"),
    ("a = { $q }", "{$q}"),
    // Nor has a direct string literal, message or term.
    ("a = x { \"y\" }", "x y"),
    ("a = x { \"\\u0041\" } z", "x A z"),
    ("a = x { p }", "x p"),
    ("a = x { b.x }\nb = b\n.x = y", "x y"),
    ("a = x { -t }", "x t"),
    ("a = x { -b.x }\n-b = b\n.x = y", "x y"),
    // The term's value is a lone element.
    ("a = x { -v(n: 1) }", "x 1"),
    // All else has marks: variable, number, function, inline placeable, select.
    ("a = x { $n }", "x ⟨2⟩"),
    ("a = { $s }, { $h }", "⟨Витязь⟩, ⟨נח⟩"),
    ("a = { $n }{ $n }", "⟨2⟩⟨2⟩"),
    ("a = x { $m }", "x ⟨⟩"),
    ("a = x { 5 }", "x ⟨5⟩"),
    ("a = x { NUMBER(5) }", "x ⟨5⟩"),
    ("a = x { { p } }", "x ⟨p⟩"),
    ("a = x { { \"y\" } }", "x ⟨y⟩"),
    ("a = x { { -t } }", "x ⟨t⟩"),
    ("a = x { { { $n } } }", "x ⟨2⟩"),
    ("a = x { $n -> *[o] y } z", "x ⟨y⟩ z"),
    ("a = x { $n -> [two] y *[o] { $s } }", "x ⟨Витязь⟩"),
    // Isolates in isolates.
    ("a = x { $n -> *[o] y { $s } } z", "x ⟨y ⟨Витязь⟩⟩ z"),
    (
        "a = x { $n -> *[o] y { $n -> *[o] z { $h } } }",
        "x ⟨y ⟨z ⟨נח⟩⟩⟩",
    ),
    ("a = x { { $n -> *[o] y { $n } } }", "x ⟨y ⟨2⟩⟩"),
    (
        "a = { $n -> *[o] { $s } and { $h } }, { $n }",
        "⟨⟨Витязь⟩ and ⟨נח⟩⟩, ⟨2⟩",
    ),
    // Messages in messages; `i` is x⟨2⟩.
    ("a = { i }", "x⟨2⟩"),
    ("a = x { i }", "x x⟨2⟩"),
    ("a = x { { i } }", "x ⟨x⟨2⟩⟩"),
    ("a = { i }{ { i } }", "x⟨2⟩⟨x⟨2⟩⟩"),
    ("a = x { $n -> *[o] { i } }", "x ⟨x⟨2⟩⟩"),
    ("a = x { { b.x } }\nb = b\n.x = y{ 1 }", "x ⟨y⟨1⟩⟩"),
    (
        "a = 1{ { b } }1\nb = 2{ { c } }2\nc = 3{ $h }3",
        "1⟨2⟨3⟨נח⟩3⟩2⟩1",
    ),
    (
        "a = { { b } } { { b } }\nb = { { c } }{ { c } }\nc = y{ $n }",
        "⟨⟨y⟨2⟩⟩⟨y⟨2⟩⟩⟩ ⟨⟨y⟨2⟩⟩⟨y⟨2⟩⟩⟩",
    ),
    // As deep as one pattern goes: the 31st select has depth 31, its selector and
    // what is in its variant 32.
    ("a = «31 1{ $n -> *[o] »1{ $n }«31  }»", "[31 1⟨]1⟨2⟩[31 ⟩]"),
    // Three times 31 and one to the next, and four: 100 placeables, 97 of them
    // isolates in one another.
    (
        "a = «31 1{ $n -> *[o] »1{ b }«31  }»\nb = «31 2{ $n -> *[o] »2{ c }«31  }»\nc = «31 3{ $n -> *[o] »3{ d }«31  }»\nd = «3 4{ $n -> *[o] »4{ $n }«3  }»",
        "[31 1⟨]1[31 2⟨]2[31 3⟨]3[3 4⟨]4⟨2⟩[96 ⟩]",
    ),
    // One more: the innermost is the 101st.
    (
        "a = «31 1{ $n -> *[o] »1{ b }«31  }»\nb = «31 2{ $n -> *[o] »2{ c }«31  }»\nc = «31 3{ $n -> *[o] »3{ d }«31  }»\nd = «4 4{ $n -> *[o] »4{ $n }«4  }»",
        "[31 1⟨]1[31 2⟨]2[31 3⟨]3[4 4⟨]4[4 {$n}⟩]{d}[31 {$n}⟩]{c}[31 {$n}⟩]{b}[31 {$n}⟩]",
    ),
    // Terms, with arguments of their own; `-r` is r⟨$n⟩.
    ("a = x { -r(n: \"Ковчег\") }", "x r⟨Ковчег⟩"),
    ("a = x { { -r(n: \"\\u05E0\") } }", "x ⟨r⟨\u{5E0}⟩⟩"),
    ("a = x { { -r } }", "x ⟨r⟨{$n}⟩⟩"),
    ("a = x { -b.x }\n-b = b\n.x = y{ 1 }z", "x y⟨1⟩z"),
    // Marks that are made for a selector or an argument are not in the text.
    ("a = { i -> [x] y *[o] z }{ $n }", "⟨z⟩⟨2⟩"),
    ("a = x { NUMBER(5, i) }", "x ⟨5⟩"),
    ("a = x { NUMBER(i) }", "x ⟨NUMBER()⟩"),
    ("a = x { -t(i) }", "x t"),
    // What is missing.
    ("a = x { $q }", "x ⟨{$q}⟩"),
    ("a = x { F() }", "x ⟨{F()}⟩"),
    ("a = x { zz }", "x {zz}"),
    ("a = x { { zz } }", "x ⟨{zz}⟩"),
    ("a = x { { -zz } }", "x ⟨{-zz}⟩"),
    ("a = x { { p.no } }", "x ⟨{p.no}⟩"),
    ("a = x { { b } }\nb =\n.x = y", "x ⟨{b}⟩"),
    ("a = x { $n -> [1] y } z", "x ⟨⟩ z"),
    ("a = x { $q -> *[o] y { $q } }", "x ⟨y ⟨{$q}⟩⟩"),
    ("a = x { { -v } }", "x ⟨{$n}⟩"),
    // Cyclic.
    ("a = x { a }", "x {a}"),
    ("a = x { { a } }", "x ⟨{a}⟩"),
    ("a = x { { b } }\nb = y { { a } } z", "x ⟨y ⟨{a}⟩ z⟩"),
    ("a = x { { b } }\nb = y { { b } }", "x ⟨y ⟨{b}⟩⟩"),
    // Near to marks: U+2066, U+2067, a read escape of each, U+FFFD, a backslash
    // with letters and digits, and the bytes of a mark, each as a scalar.
    ("a = \u{2067}{ $h }\u{2066}", "\u{2067}⟨נח⟩\u{2066}"),
    ("a = x{ { \"\\u2067\\U002066\" } }", "x⟨\u{2067}\u{2066}⟩"),
    ("a = x{ \"\\uD800\" }{ \"\\UE281A8\" }", "x\u{FFFD}\u{FFFD}"),
    ("a = x{ \"\\\\u2068\" }{ $n }", "x\\u2068⟨2⟩"),
    (
        "a = { \"\\u00E2\\u0081\\u00A8\" }{ $n }",
        "\u{E2}\u{81}\u{A8}⟨2⟩",
    ),
    // 100 placeables are not cut short.
    (
        "a = x{ h }{ h }{ h }{ h }{ h }{ h }{ h }{ h }{ h }{ h } y",
        "x[90 w] y",
    ),
    ("a = x<100>y", "x[100 ⟨2⟩]y"),
    // With the 101st nothing more is written, but for names and closing marks.
    ("a = x<101>y", "x[100 ⟨2⟩]"),
    // No isolate is open: 1 { g }, 2 to 92 with the ten { h }, so the last { h }
    // has eight of its nine.
    ("a = x { g } y", "x [89 w]{h}{g}"),
    // One is open. The 2nd placeable is { g }, so one w less.
    ("a = x { $n -> *[o] { g } } y", "x ⟨[88 w]{h}{g}{$n}⟩"),
    ("a = x { $n -> *[o] y<100>z }", "x ⟨y[99 ⟨2⟩]{$n}⟩"),
    ("a = x { { g } } y", "x ⟨[89 w]{h}{???}⟩"),
    (
        "a = { $n } { $s } x { $n -> *[o] { g } }",
        "⟨2⟩ ⟨Витязь⟩ x ⟨[86 w]{h}{g}{$n}⟩",
    ),
    // Two: 1 and 2 are selects, 3 is { g }.
    (
        "a = x { $n -> *[o] y { $n -> *[o] { g } } } z",
        "x ⟨y ⟨[87 w]{h}{g}{$n}⟩{$n}⟩",
    ),
    // Three.
    (
        "a = 1{ $n -> *[o] 2{ $s -> *[o] 3{ $h -> *[o] { g } } } }",
        "1⟨2⟨3⟨[86 w]{h}{g}{$h}⟩{$s}⟩{$n}⟩",
    ),
    // Nine of the isolates of `k`, each with nine, are closed; the tenth is open
    // and has eight.
    ("a = x { k } y", "x [9 ⟨[9 ⟨2⟩]⟩]⟨[8 ⟨2⟩]{???}⟩{k}"),
    // In a message inside an isolate of the outer one: 1 select, 2 { b }, 3
    // select, 4 { g }.
    (
        "a = x { $n -> *[o] y { b } }\nb = z { $n -> *[o] { g } } z",
        "x ⟨y z ⟨[86 w]{h}{g}{$n}⟩{b}{$n}⟩",
    ),
    (
        "a = x { { b } }\nb = y { { g } } z",
        "x ⟨y ⟨[88 w]{h}{???}⟩{???}⟩",
    ),
    (
        "a = x { $n -> *[o] { -b } }\n-b = z { 1 -> *[o] { g } } z",
        "x ⟨z ⟨[86 w]{h}{g}{???}⟩{-b}{$n}⟩",
    ),
    // In a function's argument, whose text is not in the text: 5 is its result.
    ("a = x { NUMBER(5, g) } y", "x ⟨5{NUMBER()}⟩"),
    ("a = x { F(g) } y", "x ⟨{F()}{F()}⟩"),
    (
        "a = x { $n -> *[o] y { NUMBER(5, g) } z }",
        "x ⟨y ⟨5{NUMBER()}⟩{$n}⟩",
    ),
    ("a = x { NUMBER(5, k) } y", "x ⟨5{NUMBER()}⟩"),
    // In a term's argument: no text of the term is written any more.
    ("a = x { -t(g) } y", "x {-t}"),
    ("a = x { { -r(g) } } y", "x ⟨{???}⟩"),
    // In a selector: no variant is written any more.
    ("a = x { g -> [w] y *[o] z } y", "x ⟨{g}⟩"),
];

/// Without isolation.
pub(super) const PLAIN: [(&str, &str); 7] = [
    ("a = x { $n }", "x 2"),
    ("a = x { $n -> *[o] y { $s } } z", "x y Витязь z"),
    ("a = x { { i } }", "x x2"),
    ("a = x { $q }{ F() }{ { a } }", "x {$q}{F()}{a}"),
    ("a = x { $n -> *[o] { g } } y", "x [88 w]{h}{g}{$n}"),
    ("a = x { k } y", "x [89 2]{???}{k}"),
    ("a = \u{2067}{ $h }\u{2066}", "\u{2067}נח\u{2066}"),
];
