//! New bundles and additions: through the crate against the original Rust, and
//! on slices of any length against the model.

use crate::{convert, hurt, same, Counts, Lent, BEFORE};
use harness::case::{Case, Item};
use harness::model::operations as model;
use harness::random::Random;
use harness::{encode, rust, Expected};
use weszlagyo::{builtins, operations, FluentBundle, FluentError, Locale};

/// The case's bundle, made by the crate as the original Rust makes it: the
/// same errors at each addition, and in the end the expected store.
pub fn by_the_crate(
    case: &Case,
    expected: &Expected,
    counts: &mut Counts,
) -> Result<FluentBundle, String> {
    let locale = Locale::from_number(case.bundle.locale).expect("one of the four");
    let mut ours = FluentBundle::new(vec![locale]);
    ours.set_use_isolating(case.bundle.isolating);
    let mut original = rust::number::bundle(case.bundle.locale);
    for item in &case.bundle.items {
        let theirs = rust::add(&mut original, item);
        let said = match item {
            Item::Plain(tree) => {
                let resource = convert::resource(tree).map_err(|e| format!("build: {e}"))?;
                same("image", resource.image(), &encode::resource(tree))?;
                ours.add_resource(&resource).err().unwrap_or_default()
            }
            Item::Overriding(tree) => {
                let resource = convert::resource(tree).map_err(|e| format!("build: {e}"))?;
                let added = ours.add_resource_overriding(resource);
                added.map_err(|e| format!("overriding: {e}"))?;
                Vec::new()
            }
            Item::Function(id) => {
                let added = ours.add_function(id, builtins::NUMBER);
                added.err().into_iter().collect()
            }
        };
        // an entry that yields is no refusal; a function whose id is held is one
        let refused = matches!(item, Item::Function(_)) && !said.is_empty();
        counts.call(if refused { 10 } else { 0 });
        let ours: Vec<String> = said.iter().map(FluentError::to_string).collect();
        let theirs: Vec<String> = theirs.iter().map(ToString::to_string).collect();
        same("errors of an addition", ours, theirs)?;
    }
    // the expected store holds a function that was refused too
    if case.bundle.items.len() == usize::from(ours.store()[8]) {
        same("store", ours.store(), &expected.store)?;
        counts.stores += 1;
    }
    let message = original.get_message(&case.message);
    same(
        "has_message",
        ours.has_message(&case.message),
        message.is_some(),
    )?;
    if let (Some(ours), Some(theirs)) = (ours.get_message(&case.message), &message) {
        same("a value", ours.value().is_some(), theirs.value().is_some())?;
        for name in ["x", "y", "z", "none"] {
            let theirs = theirs.get_attribute(name).is_some();
            same(name, ours.get_attribute(name).is_some(), theirs)?;
        }
    }
    Ok(ours)
}

/// The operations on slices, images and lists of many lengths, damaged or not:
/// the model's answer, and every byte.
pub fn by_lengths(
    case: &Case,
    expected: &Expected,
    random: &mut Random,
    counts: &mut Counts,
) -> Result<(), String> {
    let mut slice = expected.store.clone();
    let mut damaged = random.one_in(3) && hurt(random, &mut slice);
    let spare = *random.pick(&[0, 1, 14, 15, 16, 40, 600, 5000]);
    slice.resize(slice.len() + random.below(spare + 1), BEFORE);
    match random.below(5) {
        // lent a slice of its own
        0 => new(random, counts),
        1 => {
            counts.damaged += u64::from(damaged);
            some_function(&slice, random, counts)
        }
        _ => {
            let trees = case.bundle.items.iter().filter_map(|item| match item {
                Item::Plain(tree) | Item::Overriding(tree) => Some(tree),
                Item::Function(_) => None,
            });
            let trees: Vec<_> = trees.collect();
            let mut image = match trees.is_empty() {
                true => vec![0, 0, 0, 7, 1, 0, 0],
                false => encode::resource(trees[random.below(trees.len())]),
            };
            damaged |= random.one_in(3) && hurt(random, &mut image);
            counts.damaged += u64::from(damaged);
            resource(&slice, &image, random, counts)
        }
    }
}

fn new(random: &mut Random, counts: &mut Counts) -> Result<(), String> {
    let (locale, isolating) = (random.below(6) as u8, random.below(4) as u8);
    let mut ours = Lent::new(random.below(20), random);
    let mut theirs = ours.slice().to_vec();
    let answer = operations::new(ours.slice(), locale, isolating).map_err(|r| r.number());
    let wanted = model::new(&mut theirs, locale, isolating);
    counts.call(wanted.err().unwrap_or(0));
    same("new", answer, wanted)?;
    same("new's slice", ours.held()?, &theirs)
}

fn some_function(slice: &[u8], random: &mut Random, counts: &mut Counts) -> Result<(), String> {
    let ids = ["NUMBER", "F", "a", "zz", "Q", "", "-a", "a b", "é", "n9_-"];
    let long = "x".repeat(254 + random.below(3));
    let id = match random.one_in(10) {
        true => &long,
        false => *random.pick(&ids),
    };
    let code = *random.pick(&[1, 1, 1, 1, 0, 2, 255]);
    function(Lent::with(slice, random), id.as_bytes(), code, counts).map(drop)
}

/// A function's addition to a lent slice: the model's answer and slice. Gives the
/// slice.
pub(crate) fn function(
    mut ours: Lent,
    id: &[u8],
    code: u8,
    counts: &mut Counts,
) -> Result<Vec<u8>, String> {
    let mut theirs = ours.slice().to_vec();
    let answer = operations::add_function(ours.slice(), id, code);
    let wanted = model::add_function(&mut theirs, id, code);
    counts.call(wanted.err().unwrap_or(0));
    same("add_function", answer.map_err(|r| r.number()), wanted)?;
    same("add_function's slice", ours.held()?, &theirs)?;
    Ok(theirs)
}

fn resource(
    slice: &[u8],
    image: &[u8],
    random: &mut Random,
    counts: &mut Counts,
) -> Result<(), String> {
    let mut ours = Lent::with(slice, random);
    if random.one_in(3) {
        let mut theirs = slice.to_vec();
        let answer = operations::add_resource_overriding(ours.slice(), image);
        let wanted = model::add_resource(&mut theirs, image, None).map(|_| ());
        counts.call(wanted.err().unwrap_or(0));
        same("overriding", answer.map_err(|r| r.number()), wanted)?;
        return same("overriding's slice", ours.held()?, &theirs);
    }
    let length = *random.pick(&[0, 4, 5, 6, 12, 13, 19, 20, 21, 200]);
    let list = Lent::new(length, random);
    plain([ours, list], image, counts).map(drop)
}

/// A plain addition to a lent slice, with a lent list: the model's answer, slice
/// and list. Gives the slice.
pub(crate) fn plain(
    [mut ours, mut list]: [Lent; 2],
    image: &[u8],
    counts: &mut Counts,
) -> Result<Vec<u8>, String> {
    let mut theirs = ours.slice().to_vec();
    let mut wanted_list = list.slice().to_vec();
    let answer = operations::add_resource(ours.slice(), image, list.slice());
    let wanted = model::add_resource(&mut theirs, image, Some(&mut wanted_list));
    counts.call(wanted.err().unwrap_or(0));
    same("add_resource", answer.map_err(|r| r.number()), wanted)?;
    same("add_resource's slice", ours.held()?, &theirs)?;
    same("add_resource's list", list.held()?, &wanted_list)?;
    Ok(theirs)
}
