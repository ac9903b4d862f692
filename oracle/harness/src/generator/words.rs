//! The generator's words: few ids, so that references hit, miss, clash and cycle.

/// Messages, terms and functions; `g` and `h` are those with many placeables.
pub(super) const IDS: [&str; 6] = ["a", "b", "c", "t", "u", "zz"];
pub(super) const FUNCTIONS: [&str; 3] = ["NUMBER", "F", "a"];
pub(super) const ATTRIBUTES: [&str; 3] = ["x", "y", "z"];
pub(super) const VARIABLES: [&str; 4] = ["n", "m", "s", "q"];
pub(super) const KEYS: [&str; 10] = [
    "one", "other", "two", "few", "many", "zero", "x", "w", "a", "u1",
];
const TEXTS: [&str; 12] = [
    "w", "x", "a", "one", "other", " ", "é", "кит", "\u{2068}", "🐋", "1", "{$n}",
];
pub(super) const NUMBERS: [&str; 16] = [
    "1",
    "0",
    "2",
    "1.0",
    "-0",
    "3",
    "5.50",
    "6",
    "11",
    "21",
    "007",
    "-1",
    "0.1",
    "1.5",
    "100",
    "123456789012345",
];
const LITERALS: [&str; 14] = [
    "w",
    "",
    "one",
    "x",
    "1",
    "a b",
    "\\\\",
    "\\\"",
    "\\u0041",
    "\\U01F40B",
    "\\uD800",
    "\\UFFFFFF",
    "x\\u00e9y\\u00C9",
    "\"",
];

/// What a maker's texts and literals are taken from.
#[derive(Clone, Copy)]
pub(super) struct Words {
    pub(super) texts: &'static [&'static str],
    pub(super) literals: &'static [&'static str],
    /// How many elements its patterns have at least.
    pub(super) elements: usize,
}

pub(super) const USUAL: Words = Words {
    texts: &TEXTS,
    literals: &LITERALS,
    elements: 1,
};

/// Words without U+2068 and U+2069, and patterns in which isolates arise.
pub(super) const SHIPS: Words = Words {
    texts: &SHIP_TEXTS,
    literals: &SHIP_LITERALS,
    elements: 2,
};

/// Ship names, the other directional characters, and scalars with bytes or
/// numbers near those of the marks.
const SHIP_TEXTS: [&str; 40] = [
    "x",
    "a",
    "one",
    "other",
    " ",
    ", ",
    "{$n}",
    "Витязь",
    "Южный Крест",
    "נח",
    "אניית המחקר",
    "سفينة",
    "لؤلؤة البحر",
    "海豚",
    "🐋",
    "é",
    "\u{200E}",
    "\u{200F}",
    "\u{2028}",
    "\u{202A}",
    "\u{202B}",
    "\u{202C}",
    "\u{202D}",
    "\u{202E}",
    "\u{2066}",
    "\u{2067}",
    "\u{2067}נח\u{2066}",
    "\u{2065}",
    "\u{206A}",
    "\u{206F}",
    // E2 80 A9, E2 82 A8, E2 83 A8, E1 81 A8, EA 81 A9, F0 92 81 A8, F0 92 81 A9.
    "\u{2029}",
    "\u{20A8}",
    "\u{20E8}",
    "\u{1068}",
    "\u{A069}",
    "\u{12068}",
    "\u{12069}",
    // C3 A2, C2 81 and C2 A8 or C2 A9: the bytes of a mark, each as a scalar.
    "\u{E2}\u{81}\u{A8}",
    "\u{E2}\u{81}\u{A9}",
    "\\u2068",
];

const SHIP_LITERALS: [&str; 26] = [
    "w",
    "",
    "one",
    "Витязь",
    "נח",
    "سفينة",
    "\u{2067}",
    "\u{206A}",
    "\u{202E}x\u{202C}",
    "\\u2067",
    "\\u206A",
    "\\U002066",
    "\\u200F\\u200E",
    "\\u202e",
    "\\uD800",
    "\\uDC68",
    "\\UFFFFFF",
    "\\U012068",
    "\\U102069",
    // Above every scalar: they read as U+FFFD.
    "\\UE281A8",
    "\\UE281A9",
    // The bytes of a mark, each as a scalar.
    "\\u00E2\\u0081\\u00A8",
    "\\u00e2\\u0081\\u00a9",
    // A backslash, and then letters and digits.
    "\\\\u2068",
    "x\\\\U002069",
    "\\\"\\\\\\\\u2069",
];
