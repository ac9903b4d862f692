//! Document 01's sentences and misreadings, asked of the Rust and of the model.
#![forbid(unsafe_code)]

use harness::model::errors;
use harness::sentences::sentences;
use harness::{expected, large_stack};

fn record(name: &str) -> Vec<u8> {
    let (kind, id) = name.split_once(' ').unwrap_or((name, ""));
    match (kind, name) {
        ("message", _) => errors::reference(1, id.as_bytes(), None),
        ("term", _) => errors::reference(2, id.as_bytes(), None),
        ("function", _) => errors::reference(3, id.as_bytes(), None),
        ("variable", _) => errors::reference(4, id.as_bytes(), None),
        (_, "missing default") => errors::missing_default(),
        (_, "cyclic") => errors::cyclic(),
        (_, "too many") => errors::too_many_placeables(),
        _ => panic!("no record {name}"),
    }
}

#[test]
fn sentences_and_misreadings() {
    large_stack(|| {
        for s in sentences() {
            let e = expected(&s.case).unwrap_or_else(|d| panic!("{}: {d}", s.id));
            assert!(e.from_rust, "{}", s.id);
            let done = e.answer.expect("it finishes");
            assert_eq!(String::from_utf8_lossy(&done.text), s.text, "{}", s.id);
            let records: Vec<_> = s.errors.iter().map(|name| record(name)).collect();
            assert_eq!(done.list, errors::list(&records), "{}", s.id);
            assert_eq!((done.begun, done.unfound), (s.begun, s.unfound), "{}", s.id);
        }
    });
}

#[test]
fn bytes_that_document_01_prints() {
    let hello = harness::encode::resource(&harness::ftl::resource("a = Hello"));
    let printed = [
        0, 0, 0, 0x1C, 1, 0, 1, 1, 0, 1, 0x61, 1, 0, 0, 0, 0x0A, 0, 1, 1, 0, 5, 0x48, 0x65, 0x6C,
        0x6C, 0x6F, 0, 0,
    ];
    assert_eq!(hello, printed);
    let all = sentences();
    let s3 = all.iter().find(|s| s.id == "S3").expect("S3");
    let list = expected(&s3.case)
        .expect("they agree")
        .answer
        .expect("done")
        .list;
    assert_eq!(list, [0, 0, 0, 0x0D, 1, 0, 6, 2, 4, 0, 1, 0x6E, 0]);
}
