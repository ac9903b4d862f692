//! The model and the Rust agree on generated cases, and the comparison can
//! fail: a stand-in that is changed on purpose is noticed.
#![forbid(unsafe_code)]

use harness::case::Item;
use harness::{expected, expected_sheet, generator, large_stack, sheet_generator, Maker};

/// How many of the seeds' cases differ between the model and the Rust.
fn differences(seeds: std::ops::Range<u64>) -> usize {
    seeds.filter(|s| expected(&generator(*s)).is_err()).count()
}

#[test]
fn model_and_rust_agree() {
    large_stack(|| {
        for seed in 500_000..520_000 {
            if let Err(difference) = expected(&generator(seed)) {
                panic!("seed {seed}: {difference}");
            }
        }
    });
}

#[test]
fn a_wrong_plural_rule_is_noticed() {
    large_stack(|| {
        let seeds = 600_000..602_000;
        assert_eq!(differences(seeds.clone()), 0);
        intl_pluralrules::plant_wrong_rule(true);
        assert!(differences(seeds) > 0);
    });
}

#[test]
fn a_wrong_escape_is_noticed() {
    large_stack(|| {
        let seeds = 610_000..612_000;
        assert_eq!(differences(seeds.clone()), 0);
        fluent_syntax::unicode::plant_wrong_escape(true);
        assert!(differences(seeds) > 0);
    });
}

#[test]
fn exact_buffers_are_enough_and_one_byte_less_is_not() {
    use harness::model::effects::Lengths;
    large_stack(|| {
        for seed in 700_000..705_000 {
            let e = expected(&generator(seed)).expect("they agree");
            let Ok(done) = &e.answer else { continue };
            let exact = Lengths {
                text: done.text.len(),
                list: done.list.len(),
                workspace: done.highest,
            };
            assert_eq!(e.with(exact).as_ref(), Ok(done));
            if exact.text > 0 {
                let text = exact.text - 1;
                assert_eq!(e.with(Lengths { text, ..exact }), Err(15));
            }
            if exact.workspace > 0 {
                let workspace = exact.workspace - 1;
                assert_eq!(e.with(Lengths { workspace, ..exact }), Err(16));
            }
            let list = exact.list - 1;
            assert_eq!(e.with(Lengths { list, ..exact }), Err(7));
        }
    });
}

/// Plain additions and functions leave a formatting with nothing unfound as it
/// was, in the Rust and in the model.
#[test]
fn steady_under_additions() {
    large_stack(|| {
        let mut steady = 0;
        for seed in 800_000..805_000 {
            let mut case = generator(seed);
            let before = expected(&case).expect("they agree").answer;
            if !matches!(&before, Ok(done) if done.unfound == 0) {
                continue;
            }
            let mut maker = Maker::new(seed + 1);
            let more = maker.bundle().items;
            let plain = |item: &Item| !matches!(item, Item::Overriding(_));
            case.bundle.items.extend(more.into_iter().filter(plain));
            case.bundle.items.push(Item::Function("zz".into()));
            assert_eq!(expected(&case).expect("they agree").answer, before);
            steady += 1;
        }
        assert!(steady > 1000);
    });
}

/// The same of whole sheets.
#[test]
fn sheets_are_steady_under_additions() {
    large_stack(|| {
        let mut steady = 0;
        for seed in 810_000..813_000 {
            let mut sheet = sheet_generator(seed);
            let before = expected_sheet(&sheet).expect("they agree").answer;
            if !matches!(&before, Ok(done) if done.figures.unfound == 0) {
                continue;
            }
            let more = Maker::new(seed + 1).bundle().items;
            let plain = |item: &Item| !matches!(item, Item::Overriding(_));
            sheet.bundle.items.extend(more.into_iter().filter(plain));
            sheet.bundle.items.push(Item::Function("zz".into()));
            assert_eq!(expected_sheet(&sheet).expect("they agree").answer, before);
            steady += 1;
        }
        assert!(steady > 500, "{steady}");
    });
}
