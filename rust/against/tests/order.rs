//! The crate's formattings and sheets by the order of their arguments.
#![forbid(unsafe_code)]

use against::order::{self, Order};
use against::Counts;
use harness::{large_stack, Listing, Place};

#[test]
fn generated_arguments() {
    let counts = large_stack(|| {
        let mut counts = Counts::default();
        for seed in 90_000..90_600 {
            order::compare_formatting(seed, &mut counts)?;
            order::compare_sheet(seed, &mut counts)?;
        }
        Ok::<_, String>(counts)
    });
    let counts = counts.expect("nothing differs");
    let said = counts.order;
    assert!(said.listings.iter().all(|n| *n > 150), "{said}");
    assert!(said.places.iter().all(|n| *n > 120), "{said}");
    assert!(said.refused > 500 && said.finished > 450, "{said}");
    assert!(said.originals > 400 && said.many > 3, "{said}");
    for answer in [0, 7, 13, 19] {
        assert!(counts.answers[answer] > 100, "{answer}");
    }
}

#[test]
fn worked_out_by_hand() {
    let counts = large_stack(|| {
        let mut counts = Counts::default();
        order::by_hand(&mut counts)?;
        Ok::<_, String>(counts)
    });
    let counts = counts.expect("nothing differs");
    for answer in [0, 4, 7, 8, 11, 12, 13, 15, 17, 19] {
        assert!(counts.answers[answer] > 5, "{answer}");
    }
}

/// The sums of what was counted.
#[test]
fn counted() {
    let mut one = Order::default();
    one.image(Listing::Accepted, 256);
    one.image(Listing::Repeated, 257);
    one.image(Listing::Mixed, 2_000);
    one.image(Listing::Mixed, 10_000);
    one.asked(&[Place::Last, Place::Above, Place::Last]);
    one.refused(true, true);
    one.refused(true, false);
    one.refused(false, false);
    assert_eq!(one.listings, [1, 0, 1, 0, 2]);
    assert_eq!((one.many, one.very_many, one.most), (2, 1, 10_000));
    assert_eq!(one.places, [0, 0, 1, 0, 0, 1]);
    assert_eq!((one.refused, one.finished, one.originals), (3, 2, 1));
    let mut sum = one;
    sum.add(&one);
    assert_eq!(sum.listings, [2, 0, 2, 0, 4]);
    assert_eq!((sum.many, sum.very_many, sum.most), (4, 2, 10_000));
    assert_eq!((sum.refused, sum.finished, sum.originals), (6, 4, 2));
    assert_eq!(Order::default().to_string(), "");
    assert!(sum
        .to_string()
        .contains("6 refused as listed, 4 of them finish"));
}
