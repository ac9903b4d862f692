//! Formats one message of the benchmarks' store of 60 entries so many times, or
//! a sheet of 30, or the message with three texts in the workspace, or a call with
//! many variables, or a message of twenty numbers, of twenty choices or full of escapes,
//! and does nothing else, so that `tools/instructions` can count what one formatting
//! costs; or calls for a sheet with a list of 4 bytes, which is refused once store and
//! sheet are checked.
#![forbid(unsafe_code)]

use against::sheet::{self, Printed};
use against::{choices, convert, literals, many, numbers, workspace};
use harness::case::Value;
use weszlagyo::{operations, FluentBundle, Refusal, Sheet};

fn main() {
    let mut words = std::env::args().skip(1);
    let (Some(times), Some(what)) = (
        words.next().and_then(|word| word.parse::<usize>().ok()),
        words.next(),
    ) else {
        eprintln!(
            "usage: instructions TIMES (ID | (--sheet | --sightings) [--checks] | --workspace [--long] | --many 0..2 | --numbers 0..2 | --choices 0..9 [--names] | --escapes 0..3 [--bytes])"
        );
        std::process::exit(2);
    };
    let how = words.next();
    let list = match how.as_deref() {
        Some("--checks") => 4,
        _ => 256,
    };
    match what.as_str() {
        "--sheet" => format_sheet(times, &sheet::parts(), list),
        "--sightings" => format_sheet(times, &sheet::sightings(), list),
        "--workspace" => {
            let printed = workspace::printed();
            let work = match how.as_deref() {
                Some("--long") => workspace::LONG,
                _ => workspace::figure(&printed),
            };
            let (id, given) = &printed.messages[0];
            format(times, &printed.made(), id, given, work);
        }
        "--many" => format_many(times, how.as_deref()),
        "--numbers" => format_numbers(times, how.as_deref()),
        "--choices" => format_choices(times, how.as_deref(), words.next().is_some()),
        "--escapes" => format_escapes(times, how.as_deref(), words.next().is_some()),
        id => format(times, &sheet::parts().made(), id, &sheet::arguments(), 256),
    }
}

/// Formats a message with a workspace of that length.
fn format(times: usize, bundle: &FluentBundle, id: &str, given: &[(String, Value)], work: usize) {
    let image = convert::arguments(given).image().expect("they fit");
    let (mut text, mut list, mut work) = ([0; 512], [0; 256], vec![0; work]);
    for _ in 0..times {
        let figures = operations::format(
            bundle.store(),
            id.as_bytes(),
            None,
            &image,
            &mut text,
            &mut list,
            &mut work,
        );
        let length = figures.expect("it is formatted").text;
        std::hint::black_box(length);
    }
}

/// The word's number.
fn place(word: Option<&str>) -> usize {
    let number = word.and_then(|word| word.parse().ok());
    number.expect("a number from 0 on")
}

/// Formats a message of twenty numbers, and prints how many and their minimum of
/// fraction digits, `-` for none.
fn format_numbers(times: usize, at: Option<&str>) {
    let minimum = numbers::MINIMUMS[place(at)];
    println!("{} {}", numbers::COUNT, minimum.unwrap_or("-"));
    let printed = numbers::printed(minimum);
    let (id, given) = &printed.messages[0];
    format(times, &printed.made(), id, given, 0);
}

/// Formats a message of twenty choices, by numbers or by the names of their categories,
/// and prints which it is.
fn format_choices(times: usize, at: Option<&str>, names: bool) {
    let choices = choices::ALL[place(at)];
    println!("{} {choices}", choices::COUNT);
    let printed = match names {
        false => choices.printed(),
        true => choices.by_name(),
    };
    let (id, given) = &printed.messages[0];
    format(times, &printed.made(), id, given, 0);
}

/// Formats a message full of escapes, or the same text without one, and prints how many
/// escapes, digits and digits above 9 it has, and which it is.
fn format_escapes(times: usize, at: Option<&str>, bytes: bool) {
    let literals = literals::ALL[place(at)];
    let (escapes, digits) = (literals.escapes(), literals.digits());
    let above_9 = literals.digits_above_9();
    println!("{escapes} {digits} {above_9} {literals}");
    let printed = match bytes {
        false => literals.printed(),
        true => literals.in_bytes(),
    };
    let (id, given) = &printed.messages[0];
    format(times, &printed.made(), id, given, 0);
}

/// Formats a call with many variables, and prints how many there are and among how
/// many arguments.
fn format_many(times: usize, size: Option<&str>) {
    let size = many::sizes()[place(size)];
    println!("{} {}", size.variables, size.arguments);
    let printed = many::printed(size);
    let (id, given) = &printed.messages[0];
    format(times, &printed.made(), id, given, 256);
}

/// Formats a sheet in one call, with a list of that length.
fn format_sheet(times: usize, printed: &Printed, list: usize) {
    let bundle = printed.made();
    let mut sheet = Sheet::new();
    for (id, given) in &printed.messages {
        let args = convert::arguments(given);
        sheet.push(id, None, Some(&args)).expect("it fits");
    }
    let (mut text, mut list, mut work) = ([0; 8_192], vec![0; list], [0; 256]);
    for _ in 0..times {
        let figures = operations::format_sheet(
            bundle.store(),
            sheet.image(),
            &mut text,
            &mut list,
            &mut work,
        );
        match list.len() {
            4 => assert_eq!(figures, Err(Refusal::SHORT_LIST)),
            _ => assert!(figures.is_ok_and(|figures| figures.errors == 0)),
        }
    }
}
