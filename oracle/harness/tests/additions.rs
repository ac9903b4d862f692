//! Overriding errors: the Rust's own, document 01's records, and the model's.
#![forbid(unsafe_code)]

use harness::case::{Bundle, Item};
use harness::model::{errors, operations};
use harness::{encode, ftl, large_stack, rust, Maker};

fn items(sources: &[&str]) -> Vec<Item> {
    let item = |source: &&str| match source.strip_prefix("function ") {
        Some(id) => Item::Function(id.into()),
        None => match source.strip_prefix("overriding ") {
            Some(source) => Item::Overriding(ftl::resource(source)),
            None => Item::Plain(ftl::resource(source)),
        },
    };
    sources.iter().map(item).collect()
}

/// Adds one after the other; the last one's list from Rust and model.
fn last_list(sources: &[&str]) -> (Vec<u8>, Vec<u8>) {
    let mut bundle = rust::number::bundle(0);
    let mut slice = vec![0; 4096];
    operations::new(&mut slice, 0, 1).expect("room enough");
    let mut lists = (Vec::new(), Vec::new());
    for item in items(sources) {
        let given = rust::add(&mut bundle, &item);
        match &item {
            Item::Plain(tree) => {
                let mut list = vec![0; 512];
                let image = encode::resource(tree);
                let count = operations::add_resource(&mut slice, &image, Some(&mut list));
                assert_eq!(count, Ok(given.len()));
                lists.0 = encode::error_list(&given);
                list.truncate(lists.0.len());
                lists.1 = list;
            }
            Item::Overriding(tree) => {
                let image = encode::resource(tree);
                assert_eq!(operations::add_resource(&mut slice, &image, None), Ok(0));
            }
            Item::Function(id) => {
                let added = operations::add_function(&mut slice, id.as_bytes(), 1);
                assert_eq!(added.is_ok(), given.is_empty());
            }
        }
    }
    lists
}

#[test]
fn overriding_errors() {
    type Records<'a> = &'a [(u8, &'a str)];
    let cases: [(&[&str], Records); 8] = [
        (&["foo = x"], &[]),
        (&["foo = x", "-foo = y"], &[(2, "foo")]),
        (&["-foo = x", "foo = y"], &[(1, "foo")]),
        (&["function foo", "foo = y"], &[(1, "foo")]),
        (&["foo = x\nfoo = y\nfoo = z"], &[(1, "foo"), (1, "foo")]),
        (
            &["foo = x", "foo = y\nbar = b\n-bar = c\n-foo = z"],
            &[(1, "foo"), (2, "bar"), (2, "foo")],
        ),
        (&["overriding foo = x", "foo = y"], &[(1, "foo")]),
        (
            &["function foo", "overriding foo = x", "foo = y"],
            &[(1, "foo")],
        ),
    ];
    for (sources, expected) in cases {
        let records: Vec<_> = expected
            .iter()
            .map(|(kind, id)| errors::overriding(*kind, id.as_bytes()))
            .collect();
        let (from_rust, from_model) = last_list(sources);
        assert_eq!(from_rust, errors::list(&records), "{sources:?}");
        assert_eq!(from_model, errors::list(&records), "{sources:?}");
    }
}

#[test]
fn additions_build_the_encoded_store() {
    large_stack(|| {
        for seed in 0..2000 {
            let mut wanted = Maker::new(seed).bundle();
            let mut slice = vec![0xAA; 8192];
            let isolating = u8::from(wanted.isolating);
            operations::new(&mut slice, wanted.locale, isolating).expect("room enough");
            let mut bundle = rust::number::bundle(wanted.locale);
            // Functions that are refused are no items of the store.
            wanted.items.retain(|item| match item {
                Item::Plain(tree) => {
                    let errors = rust::add(&mut bundle, item);
                    let mut list = vec![0; 2048];
                    let image = encode::resource(tree);
                    let count = operations::add_resource(&mut slice, &image, Some(&mut list));
                    assert_eq!(count, Ok(errors.len()));
                    let errors = encode::error_list(&errors);
                    assert_eq!(&list[..errors.len()], errors);
                    true
                }
                Item::Overriding(tree) => {
                    rust::add(&mut bundle, item);
                    let image = encode::resource(tree);
                    operations::add_resource(&mut slice, &image, None).is_ok()
                }
                Item::Function(id) => {
                    let refused = !rust::add(&mut bundle, item).is_empty();
                    let added = operations::add_function(&mut slice, id.as_bytes(), 1);
                    assert_eq!(added, if refused { Err(10) } else { Ok(()) });
                    !refused
                }
            });
            let store = encode::store(&Bundle { ..wanted });
            assert_eq!(&slice[..store.len()], store);
            assert!(slice[store.len()..].iter().all(|b| *b == 0xAA));
        }
    });
}
