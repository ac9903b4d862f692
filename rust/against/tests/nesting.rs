//! The count of isolation marks over the crate's texts, and that it can fail.
#![forbid(unsafe_code)]

use against::nesting::{self, Nesting, Noticed};
use against::Counts;
use harness::large_stack;

#[test]
fn generated_texts_are_paired() {
    let counts = large_stack(|| {
        let mut counts = Counts::default();
        for seed in 70_000..70_400 {
            nesting::compare_formatting(seed, &mut counts)?;
            nesting::compare_sheet(seed, &mut counts)?;
        }
        nesting::by_hand(&mut counts)?;
        Ok::<_, String>(counts)
    });
    let said = counts.expect("nothing differs").nesting;
    assert_eq!(said.unpaired, 0);
    assert!(said.texts > 1_000 && said.from_damaged > 300, "{said}");
    assert!(said.with_marks > 700 && said.deepest > 20, "{said}");
    assert!(said.cut > 400 && said.inside > 300, "{said}");
    assert!(said.originals > 500, "{said}");
}

#[test]
fn marks_in_the_input_are_noticed() {
    let counts = large_stack(|| {
        let mut counts = Counts::default();
        for seed in 80_000..80_200 {
            nesting::compare_marked(seed, &mut counts)?;
        }
        Ok::<_, String>(counts)
    });
    let said = counts.expect("nothing differs").nesting;
    assert!(said.noticed());
    for kind in said.noticed {
        assert!(kind.cases == 400 && kind.unpaired > 40, "{said}");
        assert!(kind.by_a_prefix > 0, "{said}");
    }
}

/// What a wrong text gives.
fn counted(text: &str) -> (Result<(), String>, Nesting) {
    let text = text.replace('⟨', "\u{2068}").replace('⟩', "\u{2069}");
    let mut nesting = Nesting::default();
    let answer = nesting.count(text.as_bytes(), &[Some(1)]);
    (answer, nesting)
}

#[test]
fn wrong_texts_are_noticed() {
    let (answer, said) = counted("x ⟨y ⟨2⟩⟩");
    assert_eq!((answer, said.unpaired, said.texts), (Ok(()), 0, 1));
    assert_eq!((said.marks, said.deepest), (4, 2));
    assert_eq!((said.cut, said.inside), (1, 1));
    // A closing mark is dropped, put twice, or they are exchanged.
    for wrong in ["x ⟨y ⟨2⟩", "x ⟨y 2⟩⟩", "x ⟨y ⟨2⟩⟩⟩", "⟩⟨", "x ⟩2⟨", "⟨⟩⟩⟨"]
    {
        let (answer, said) = counted(wrong);
        assert!(
            answer.is_err_and(|said| said.starts_with("unpaired")),
            "{wrong}"
        );
        assert_eq!((said.unpaired, said.texts), (1, 0), "{wrong}");
    }
    let mut nesting = Nesting::default();
    assert!(nesting.original(b"\xE2\x81\xA8").is_err());
    assert!(nesting.damaged(b"\xE2\x81\xA9", &[]).is_err());
    assert!(nesting.count(b"\xE2\x81", &[]).is_err());
    assert_eq!((nesting.unpaired, nesting.texts), (3, 0));
}

/// A run in which marks in the input change nothing is no run.
#[test]
fn nothing_noticed() {
    let kind = Noticed {
        cases: 1_000,
        finished: 990,
        unpaired: 1,
        by_a_prefix: 0,
    };
    let mut nesting = Nesting {
        noticed: [kind; 3],
        ..Nesting::default()
    };
    assert!(nesting.noticed());
    nesting.noticed[1].unpaired = 0;
    assert!(!nesting.noticed());
    nesting.noticed[1].cases = 10;
    assert!(nesting.noticed());
}
