//! The messages of twenty choices: the benchmarks compare their texts with the
//! original's, and here they are held to what they should be.

use against::choices::{self, Choices};
use against::convert;
use against::sheet::Printed;

fn text(printed: &Printed) -> String {
    let (id, given) = &printed.messages[0];
    let args = convert::arguments(given);
    let done = printed.made().format(id, None, Some(&args));
    done.expect("formatted").text
}

/// A letter for each number: zero, one (i), two, few, many, other.
#[test]
fn texts() {
    let texts = choices::ALL.map(|choices: Choices| text(&choices.printed()));
    assert_eq!(
        texts,
        [
            "oioooooooooooooooooo",
            "oioooooooooooooooooo",
            "mifffmmmmmmmmifffimm",
            "mifffmmmmifmimmifimm",
            "oooooooooooooooooooo",
            "zitfoomooooooooooooo",
            "oooooooooooooooooooo",
            "oitfoooooooooitfoioo",
            "oitfoooooitoiooifioo",
            "zitffmmzzooooooooooo",
        ]
    );
}

/// By the names of the categories the same variants are chosen.
#[test]
fn by_name() {
    for choices in choices::ALL {
        assert_eq!(text(&choices.by_name()), text(&choices.printed()));
    }
}
