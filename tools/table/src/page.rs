//! The page: self-contained HTML, a section for each language.

use crate::ask::{Answer, LANGUAGES};
use crate::differ::differing;
use crate::{Row, Table};
use std::fmt::Write as _;

const STYLE: &str = include_str!("style.css");

pub fn page(tables: &[Table]) -> String {
    let mut out =
        String::from("<!doctype html>\n<html lang=\"en\">\n<head>\n<meta charset=\"utf-8\">\n");
    out.push_str("<meta name=\"viewport\" content=\"width=device-width, initial-scale=1\">\n");
    out.push_str("<title>Every sentence of the sheet</title>\n");
    put(
        &mut out,
        format_args!("<style>\n{STYLE}</style>\n</head>\n<body>\n"),
    );
    header(&mut out);
    out.push_str("<main>\n");
    for (k, (code, name)) in LANGUAGES.iter().enumerate() {
        section(&mut out, tables, k, code, name);
    }
    out.push_str("</main>\n</body>\n</html>\n");
    out
}

fn put(out: &mut String, what: std::fmt::Arguments) {
    out.write_fmt(what).expect("a string takes it");
}

fn header(out: &mut String) {
    out.push_str("<nav class=\"languages\" aria-label=\"Languages\"><div>\n<a class=\"top\" href=\"#top\">Sentences</a>\n");
    for (code, name) in LANGUAGES {
        put(
            out,
            format_args!("<a href=\"#{code}\" lang=\"{code}\">{name}</a>\n"),
        );
    }
    out.push_str("</div></nav>\n<header id=\"top\">\n<h1>Every sentence of the sheet</h1>\n");
    out.push_str("<p>What <code>weszlagyo sheet</code> prints, by the proved resolver, for every count from 0 to 30 and some large ones, with calves and without, and with each field missing; then for every species and every other number. Unless a table says otherwise: porpoise, 3 of them, 1 calf, 400 metres, leg 7, Anna Berg.</p>\n");
    out.push_str("<p class=\"key\"><span><b class=\"n\">7</b> the row’s own number</span> <span><mark>word</mark> differs from the row above</span> <span class=\"wrong\">what the resolver reports, in its words</span> <span class=\"figures\">placeables begun · ids unfound</span></p>\n</header>\n");
}

fn section(out: &mut String, tables: &[Table], k: usize, code: &str, name: &str) {
    put(out, format_args!("<section id=\"{code}\">\n<h2 lang=\"{code}\">{name}</h2>\n<nav class=\"tables\" aria-label=\"Tables of {name}\">\n"));
    for t in tables {
        put(
            out,
            format_args!("<a href=\"#{code}-{}\">{}</a>\n", t.anchor, t.title),
        );
    }
    out.push_str("</nav>\n");
    for t in tables {
        table(out, t, k, code, name);
    }
    out.push_str("</section>\n");
}

fn table(out: &mut String, t: &Table, k: usize, code: &str, name: &str) {
    let (anchor, title, columns) = (&t.anchor, &t.title, t.columns.len());
    put(out, format_args!("<table id=\"{code}-{anchor}\" class=\"of-{columns}\">\n<colgroup><col class=\"head\">{}</colgroup>\n<thead>\n", "<col>".repeat(columns)));
    put(out, format_args!("<tr><th class=\"title\" colspan=\"{}\"><span lang=\"{code}\">{name}</span> · {title}</th></tr>\n", columns + 1));
    put(
        out,
        format_args!("<tr><th scope=\"col\" class=\"head\">{}</th>", t.rows_are),
    );
    for c in &t.columns {
        put(out, format_args!("<th scope=\"col\">{c}</th>"));
    }
    out.push_str("</tr>\n</thead>\n<tbody>\n");
    let mut before: Option<&Row> = None;
    for row in &t.rows {
        let class = if row.after_gap { " class=\"gap\"" } else { "" };
        put(
            out,
            format_args!(
                "<tr{class}><th scope=\"row\" class=\"head\">{}</th>\n",
                grouped(&row.head)
            ),
        );
        for (i, cell) in row.cells.iter().enumerate() {
            let above = before.map(|b| b.cells[i][k].text.as_str());
            sentence(out, &t.columns[i], &cell[k], above, &row.head, code);
        }
        out.push_str("</tr>\n");
        before = Some(row);
    }
    out.push_str("</tbody>\n</table>\n");
}

/// A number with a narrow space before each three digits.
fn grouped(head: &str) -> String {
    if !head.bytes().all(|b| b.is_ascii_digit()) || head.len() < 5 {
        return head.into();
    }
    let mut out = String::new();
    for (i, c) in head.chars().enumerate() {
        if i > 0 && (head.len() - i).is_multiple_of(3) {
            out.push('\u{2009}');
        }
        out.push(c);
    }
    out
}

fn sentence(
    out: &mut String,
    column: &str,
    a: &Answer,
    above: Option<&str>,
    number: &str,
    code: &str,
) {
    put(
        out,
        format_args!(
            "<td data-column=\"{}\"><p lang=\"{code}\">",
            escaped(column)
        ),
    );
    marked(out, &a.text, above, number);
    out.push_str("</p>");
    if !a.errors.is_empty() {
        out.push_str("<ul class=\"wrong\">");
        for (error, times) in counted(&a.errors) {
            let times = if times > 1 {
                format!(" <small>× {times}</small>")
            } else {
                String::new()
            };
            put(out, format_args!("<li>{}{times}</li>", escaped(error)));
        }
        out.push_str("</ul>");
    }
    put(
        out,
        format_args!(
            "<div class=\"figures\">begun {} · unfound {}</div></td>\n",
            a.begun, a.unfound
        ),
    );
}

/// The words, those that differ from the sentence above marked, and the row's
/// own number set apart.
fn marked(out: &mut String, text: &str, above: Option<&str>, number: &str) {
    let mut inside = false;
    for (word, new) in differing(above, text) {
        let own = new && word.text == number;
        if inside && (own || !new) {
            out.push_str("</mark>");
            inside = false;
        }
        if word.spaced {
            out.push(' ');
        }
        if new && !own && !inside {
            out.push_str("<mark>");
            inside = true;
        }
        let word = escaped(word.text);
        match own {
            true => put(out, format_args!("<b class=\"n\">{word}</b>")),
            false => out.push_str(&word),
        }
    }
    if inside {
        out.push_str("</mark>");
    }
}

/// Equal errors that follow one another, once with their number.
fn counted(errors: &[String]) -> Vec<(&str, usize)> {
    let mut out: Vec<(&str, usize)> = Vec::new();
    for e in errors {
        match out.last_mut() {
            Some((last, n)) if *last == e => *n += 1,
            _ => out.push((e, 1)),
        }
    }
    out
}

fn escaped(text: &str) -> String {
    text.replace('&', "&amp;")
        .replace('<', "&lt;")
        .replace('>', "&gt;")
        .replace('"', "&quot;")
}
