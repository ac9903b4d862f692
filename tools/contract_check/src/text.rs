//! Cutting text: brackets, words and names.

use std::ops::Range;

const OPEN: [char; 3] = ['(', '[', '{'];
const CLOSE: [char; 3] = [')', ']', '}'];

/// How a character changes the depth of brackets.
pub fn turn(c: char) -> i32 {
    OPEN.contains(&c) as i32 - CLOSE.contains(&c) as i32
}

/// The bytes between the bracket that opens at `open` and its partner.
pub fn inside(text: &str, open: usize) -> Range<usize> {
    let mut depth = 0;
    for (i, c) in text[open..].char_indices() {
        depth += turn(c);
        if depth == 0 {
            return open + 1..open + i;
        }
    }
    open + 1..text.len()
}

/// The parts of a text between a separator that stands outside every bracket.
pub fn split<'a>(text: &'a str, separator: char) -> Vec<&'a str> {
    let (mut depth, mut from, mut parts) = (0, 0, Vec::new());
    for (i, c) in text.char_indices() {
        depth += turn(c);
        if depth == 0 && c == separator {
            parts.push(text[from..i].trim());
            from = i + c.len_utf8();
        }
    }
    parts.push(text[from..].trim());
    parts
}

/// The texts inside the outermost brackets of a text.
pub fn groups(text: &str) -> Vec<&str> {
    let (mut at, mut found) = (0, Vec::new());
    while let Some(open) = text[at..].find(&OPEN[..]).map(|i| at + i) {
        let range = inside(text, open);
        at = (range.end + 1).min(text.len());
        found.push(&text[range]);
    }
    found
}

/// A text without the brackets that enclose it whole.
pub fn unwrapped(text: &str) -> &str {
    let text = text.trim();
    if text.starts_with('(') && inside(text, 0).end + 1 == text.len() {
        return unwrapped(&text[1..text.len() - 1]);
    }
    text
}

/// The words of a text, without brackets; a projection, which begins with a dot, is none.
pub fn words(text: &str) -> Vec<&str> {
    text.split(|c: char| c.is_whitespace() || turn(c) != 0 || c == ',' || c == ';')
        .map(|w| w.strip_suffix('.').unwrap_or(w))
        .filter(|w| !w.is_empty() && !w.starts_with('.'))
        .collect()
}

/// A character of a name in a clause.
fn in_name(c: char) -> bool {
    c.is_alphanumeric() || c == '_' || c == '\''
}

/// Where a path such as `x.new` stands in a text, by itself or with projections behind it.
fn stands<'a>(text: &'a str, path: &'a str) -> impl Iterator<Item = usize> + 'a {
    text.match_indices(path).map(|(i, _)| i).filter(move |&i| {
        !text[..i].ends_with(|c| in_name(c) || c == '.')
            && !text[i + path.len()..].starts_with(in_name)
    })
}

/// Does a text name the value of a path, and not its length alone?
pub fn names(text: &str, path: &str) -> bool {
    let found = stands(text, path).any(|i| {
        let before = text[..i].trim_end_matches(|c: char| c == '(' || c.is_whitespace());
        let length = before.strip_suffix("length");
        !length.is_some_and(|b| !b.ends_with(|c| in_name(c) || c == '.'))
    });
    found
}

/// One space between any two words, and none at a bracket's inner side.
pub fn even(text: &str) -> String {
    let joined = text.split_whitespace().collect::<Vec<_>>().join(" ");
    joined.replace("( ", "(").replace(" )", ")")
}
