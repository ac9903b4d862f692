//! The formattings. In the workings a text being made stands before one that
//! interrupts it, and `|` parts moments; only the largest counts.

/// Without isolation marks.
pub(super) const PLAIN: [(usize, &str); 105] = [
    // Use is the bytes of the texts being made and of the finished ones.
    // p.
    (1, "a = { p -> *[o] x }"),
    // кит, six bytes, counted once though it moves to the back.
    (6, "a = { w -> *[o] x }"),
    // One after the other: p | кит | p. Not the sum, and not the last.
    (6, "a = { p -> *[o] x }{ w -> *[o] x }{ p -> *[o] x }"),
    // bb + ccc | bb + y | byb.
    (5, "a = { b -> *[o] x }\nb = bb{ c -> *[o] y }b\nc = ccc"),
    // bb + ccc | bb + yyyyy | bbyyyyyb: the end of a text can be the highest.
    (
        8,
        "a = { b -> *[o] x }\nb = bb{ c -> *[o] yyyyy }b\nc = ccc",
    ),
    // 1 + 44 + ttt | 1 + 445 | 12 | 123: two texts are interrupted at once.
    (
        6,
        "a = { b -> *[o] x }\nb = 1{ c -> *[o] 2 }3\nc = 44{ -t -> *[o] 5 }",
    ),
    // кит and then b + p | кит and bc: a finished text under interrupted ones.
    (8, "a = { NUMBER(1, w, b) }\nb = b{ p -> *[o] c }"),
    // b + (p and кит) | b1: finished texts above an interrupted one.
    (8, "a = { b -> *[o] x }\nb = b{ NUMBER(1, p, w) }"),
    // What goes there, as a selector.
    // The text itself is written to the text buffer.
    (0, "a = Hello { p }, { w }, { -t }"),
    (0, "a = { { p } }{ { { w } } }"),
    (0, "a = { \"\\u0041\\\\\" }"),
    // An attribute: yy.
    (2, "a = { b.x -> *[o] x }\nb = b\n.x = yy"),
    // A term: ttt.
    (3, "a = { -t -> [ttt] x *[o] y }"),
    // A term's attribute: vv.
    (2, "a = { -b.x -> *[o] x }\n-b = b\n.x = vv"),
    // Inline placeables: of a message p, a variable two, a number 12, a literal.
    (1, "a = { { p } -> *[o] x }"),
    (3, "a = { { $n } -> [two] x *[o] y }"),
    (2, "a = { { $k } -> [12] x *[o] y }"),
    (5, "a = { { \"plain\" } -> *[o] x }"),
    // 1.50 as it is written, four bytes.
    (4, "a = { { 1.50 } -> *[o] x }"),
    // None is a text of no bytes.
    (0, "a = { { $m } -> *[o] x }"),
    // Within one another they are one text: two.
    (3, "a = { { { { $n } } } -> *[o] x }"),
    // A select in an inline placeable: p | yy.
    (2, "a = { { p -> *[o] yy } -> *[o] x }"),
    // Not: a plain literal, a number, a variable, a function's result.
    (0, "a = { \"text\" -> *[o] x }"),
    (0, "a = { 1.50 -> *[o] x }"),
    (0, "a = { $n -> [two] x *[o] y }"),
    (0, "a = { $q -> *[o] x }"),
    (0, "a = { NUMBER(5, x: \"y\") -> *[o] x }"),
    // As a positional argument of a function.
    (1, "a = { NUMBER(1, p) }"),
    (3, "a = { NUMBER(1, -t) }"),
    (3, "a = { NUMBER(1, { $n }) }"),
    (1, "a = { NUMBER(1, \"\\u0041\") }"),
    // The first one too, though NUMBER then has no number.
    (6, "a = { NUMBER(w) }"),
    (0, "a = { NUMBER(1, \"plain\", 2.0, $n, $q, NUMBER(3)) }"),
    // As a named argument of a function: ordinal, seven bytes; an option that
    // NUMBER does not know; one of the wrong kind.
    (
        7,
        "a = { NUMBER(1, type: \"ordina\\u006C\") -> [one] x *[o] y }",
    ),
    (1, "a = { NUMBER(1, x: \"\\\\\") }"),
    (2, "a = { NUMBER(1, minimumFractionDigits: \"2\\\\\") }"),
    (
        0,
        "a = { NUMBER(1, type: \"ordinal\", minimumFractionDigits: 2) }",
    ),
    // As an argument of a term, positional ones too, which it never sees.
    (1, "a = { -t(p) }"),
    (6, "a = { -t(w) }"),
    (3, "a = { -t({ $n }, \"plain\", 5, $k) }"),
    (2, "a = { -v(n: \"\\u0041B\") }"),
    (0, "a = { -v(n: \"AB\") }{ -v(n: 5) }"),
    // An escaped literal counts what it reads as: A, 🐋, U+FFFD twice, a\b"c.
    (1, "a = { \"\\u0041\" -> [A] x *[o] y }"),
    (4, "a = { \"\\U01F40B\" -> *[o] x }"),
    (3, "a = { \"\\uD800\" -> *[o] x }"),
    (3, "a = { \"\\UFFFFFF\" -> *[o] x }"),
    (5, "a = { \"a\\\\b\\\"c\" -> *[o] x }"),
    // xéy.
    (4, "a = { \"x\\u00e9y\" -> *[o] x }"),
    // A term's arguments live until all its text is written.
    // кит and p, the text elsewhere.
    (7, "a = { -t(w, p) }"),
    // кит, p and then ttt.
    (10, "a = { -t(w, p) -> *[o] x }"),
    // p and \ | p, \ and кит: a selector inside the term.
    (8, "a = { -b(p, n: \"\\\\\") }\n-b = { w -> *[o] x }"),
    // The positional ones stay though nothing can name them: кит | кит and two.
    (9, "a = { -b(w) }\n-b = { { \"two\" } -> *[o] x }"),
    // The next placeable finds them gone: кит | ttt.
    (6, "a = { -t(w) }{ -t -> *[o] x }"),
    // A missing term keeps its arguments until {-zz} is written.
    (6, "a = { -zz(w) }"),
    // кит and {-zz}.
    (11, "a = { -zz(w) -> *[o] x }"),
    // p and {-t.no}: the term is there, and its attribute is not.
    (8, "a = { -t.no(p) -> *[o] x }"),
    // p and {-p}: p is a message.
    (5, "a = { -p(p) -> *[o] x }"),
    // An inner term clears the arguments for variables, not their bytes.
    // p and \ | p, \ and кит.
    (8, "a = { -b(p, n: \"\\\\\") }\n-b = { -t }{ w -> *[o] x }"),
    // \ | \ and A, the inner term's | \ and two, by the formatting's own n.
    (
        4,
        "a = { -b(n: \"\\\\\") }\n-b = { -v(n: \"\\u0041\") }{ { $n } -> *[o] x }",
    ),
    // кит, then p with it, then ttt with both.
    (10, "a = { -b(w) }\n-b = { -t(p) -> *[o] x }"),
    // A selector's text is gone before its variant begins: кит | ttt.
    (6, "a = { w -> *[o] { -t -> *[o] x } }"),
    // ttt | кит: the other way round.
    (6, "a = { -t -> *[o] { w -> *[o] x } }"),
    // (p) | yyy, which stands alone in the outer selector's text.
    (3, "a = { { p -> [p] yyy *[o] x } -> *[o] z }"),
    // Gone before MissingDefault too: кит | no text of the outer one.
    (6, "a = { { w -> [x] y } -> *[o] z }"),
    (6, "a = { w -> [x] y }{ p -> [x] y }"),
    // A term's variable as selector frees nothing: \\ | \\ and p.
    (
        3,
        "a = { -b(n: \"\\\\\\\\\") }\n-b = { $n -> *[o] { p -> *[o] x } }",
    ),
    // A | A and кит: it is still there for the second selector.
    (
        7,
        "a = { -b(n: \"\\u0041\") }\n-b = { $n -> [A] y *[o] x }{ w -> *[o] x }",
    ),
    // A function's arguments are gone before its result is written.
    // p | 55555.
    (5, "a = { { NUMBER(55555, p) } -> *[o] x }"),
    // кит | 5.
    (6, "a = { { NUMBER(5, w) } -> *[o] x }"),
    // p | NUMBER(), eight bytes.
    (8, "a = { { NUMBER(p) } -> *[o] x }"),
    // p | {F()}, five bytes; six times p | {F()}.
    (5, "a = { { F(p) } -> *[o] x }"),
    (6, "a = { { F(p, p, p, p, p, p) } -> *[o] x }"),
    // They live together, positional then named: p, кит and \.
    (8, "a = { NUMBER(5, p, w, x: \"\\\\\") }"),
    // A function as selector: кит | p.
    (6, "a = { NUMBER(1, w) -> [one] { p -> *[o] x } *[o] y }"),
    // кит and p | ttt: a missing one as selector.
    (7, "a = { F(w, p) -> [x] y *[o] { -t -> *[o] x } }"),
    // p | p and (p, p) | p and p: the inner call's are gone when it ends.
    (3, "a = { F(p, NUMBER(1, p, p), p) }"),
    // (кит) | p | p and ttt: passed on to a term.
    (6, "a = { -t(NUMBER(1, w), p) -> *[o] x }"),
    // 1 + кит | 15 | 15 + ttt | 15.
    (
        7,
        "a = { b -> *[o] x }\nb = 1{ NUMBER(5, w) }{ -t -> *[o] y }",
    ),
    // A term as argument: кит and ttt | ttt, whose arguments are gone | ttt and p.
    (9, "a = { NUMBER(1, -t(w), p) }"),
    // p and ttt | ttt | ttt and кит.
    (9, "a = { NUMBER(1, -t(p), w) }"),
    // p and ttt | ttt | ttt and кит | with them ttt: of a term.
    (12, "a = { -t(-t(p), w) -> *[o] x }"),
    // A variable that names a term's argument shares its bytes.
    // AB, and AB written from it.
    (4, "a = { -v(n: \"\\u0041\\u0042\") -> [AB] x *[o] y }"),
    // A, and AAA.
    (
        4,
        "a = { -b(n: \"\\u0041\") -> [AAA] x *[o] y }\n-b = { $n }{ $n }{ $n }",
    ),
    // A | A and (p): as NUMBER's argument it is not copied.
    (2, "a = { -b(n: \"\\u0041\") }\n-b = { NUMBER($n, p) }"),
    // A and B, and ABB.
    (
        5,
        "a = { -b(n: \"\\u0041\", m: \"\\u0042\") -> [ABB] x *[o] y }\n-b = { $n }{ $m }{ $m }",
    ),
    // A | with B of the inner term and B written from it | A and p.
    (
        3,
        "a = { -b(n: \"\\u0041\") }\n-b = { -v(n: \"\\u0042\") -> *[o] x }{ p -> *[o] x }",
    ),
    // Error texts go where the text goes.
    // {zz}, {zz.y}, {p.y}.
    (4, "a = { zz -> *[o] x }"),
    (6, "a = { zz.y -> *[o] x }"),
    (5, "a = { p.y -> *[o] x }"),
    // {b}: no value.
    (3, "a = { b -> *[o] x }\nb =\n.x = y"),
    // {a}, and y{b}: cyclic.
    (3, "a = { a -> *[o] x }"),
    (4, "a = { b -> *[o] x }\nb = y{ b }"),
    // {$q}, and {$n} in a term that has no n.
    (4, "a = { { $q } -> *[o] x }"),
    (4, "a = { -v -> *[o] x }"),
    // {-zz} as an argument, with {zz}.
    (9, "a = { NUMBER(1, -zz, zz) }"),
    // Several bytes for one character: кит, 🐋é, кит and 🐋.
    (6, "a = { { $s } -> *[o] x }"),
    (6, "a = { b -> *[o] x }\nb = 🐋é"),
    (10, "a = { NUMBER(1, w, \"\\U01F40B\") }"),
    // Cut short. `a` has the 1st placeable, so the last `w` of `g` is the 101st:
    // nine times nine, eight, {h}.
    (92, "a = { g -> *[o] x }"),
    // In a text element's place nothing more is written: 92 and none of p.
    (92, "a = { NUMBER(5, g, p) }"),
    // 92 and A; 92 and {zz}; 92 and {-zz}, with A.
    (93, "a = { NUMBER(5, g, \"\\u0041\") }"),
    (96, "a = { NUMBER(5, g, zz) }"),
    (98, "a = { F(g, -zz(\"\\u0041\")) }"),
    // The 2nd is `b`'s: 81, seven, {h}, and {???} for `b`'s own.
    (96, "a = { b -> *[o] x }\nb = { { g } }"),
    // Likewise, and {g}: b, 81, seven, {h}, {g}.
    (95, "a = { b -> *[o] x }\nb = b{ g }"),
];

/// With isolation marks, three bytes each, written ⟨ and ⟩.
pub(super) const ISOLATING: [(usize, &str); 17] = [
    // No mark around a lone placeable: two.
    (3, "a = { b -> *[o] x }\nb = { $n }"),
    // x⟨two⟩.
    (10, "a = { b -> *[o] x }\nb = x{ $n }"),
    // The marks of `a` go to the text: two.
    (3, "a = x{ { $n } -> *[o] y }"),
    // No mark around a message, a term, a string literal: xp, xttt, xy.
    (2, "a = { b -> *[o] x }\nb = x{ p }"),
    (4, "a = { b -> *[o] x }\nb = x{ -t }"),
    (2, "a = { b -> *[o] x }\nb = x{ \"y\" }"),
    // x⟨5⟩, x⟨p⟩, x⟨⟩.
    (8, "a = { b -> *[o] x }\nb = x{ NUMBER(5) }"),
    (8, "a = { b -> *[o] x }\nb = x{ { p } }"),
    (7, "a = { b -> *[o] x }\nb = x{ $m }"),
    // x⟨{$q}⟩ and x⟨{F()}⟩.
    (11, "a = { b -> *[o] x }\nb = x{ $q }"),
    (12, "a = { b -> *[o] x }\nb = x{ F() }"),
    // x⟨ + p | x⟨y⟩.
    (8, "a = { b -> *[o] x }\nb = x{ p -> *[o] y }"),
    // x⟨ + кит | x⟨two⟩: the variant's lone placeable has no marks of its own.
    (10, "a = { b -> *[o] x }\nb = x{ w -> *[o] { $n } }"),
    // x⟨ + кит and p | x⟨5⟩.
    (11, "a = { b -> *[o] x }\nb = x{ NUMBER(5, w, p) }"),
    // A | A and x⟨A⟩: inside a term.
    (9, "a = { -b(n: \"\\u0041\") -> *[o] x }\n-b = x{ $n }"),
    // ⟨two⟩⟨кит⟩ in an argument: 9 + 12.
    (21, "a = { NUMBER(1, b) }\nb = { $n }{ $s }"),
    // Cut short in `b`: x⟨, 81, seven, {h}, {???}, ⟩.
    (103, "a = { b -> *[o] x }\nb = x{ { g } }"),
];
