//! Seeded formattings and sheets whose arguments are listed as a form was filled:
//! in name order or not, with a name twice, with scales that are not least. Beside
//! them stands what both sides are given to be compared with, the accepted form.

mod asked;
mod listing;
mod names;

use super::sheet::Held;
use super::{held_messages, Maker};
use crate::case::{accepted, Bundle, Case, Given, Item, Row, Sheet, Value};
use crate::encode;
use crate::random::Random;
use crate::vectors::numbers::decimal;
pub use asked::{Place, PLACES};
pub use listing::{Listing, LISTINGS};
pub(crate) use names::most;

/// A formatting, and its arguments as they are listed.
pub struct Listed {
    /// With the arguments in their accepted form.
    pub case: Case,
    pub listed: Vec<(String, Value)>,
    pub listing: Listing,
    /// Where the variables stand that the message asks for; none where the case is of
    /// the usual kind.
    pub places: Vec<Place>,
}

/// A sheet, some of whose rows have arguments as they are listed.
pub struct ListedSheet {
    pub sheet: Sheet,
    /// The same with all arguments in their accepted form.
    pub accepted: Sheet,
    /// Of each row.
    pub listings: Vec<Listing>,
    pub places: Vec<Place>,
}

/// The formatting of a seed.
pub fn listed(seed: u64) -> Listed {
    let mut maker = Maker::new(seed ^ 0x19 << 48);
    let listing = Listing::any(&mut maker.r);
    match maker.r.one_in(3) {
        true => maker.usual(listing),
        false => maker.asking(listing),
    }
}

/// The sheet of a seed.
pub fn listed_sheet(seed: u64) -> ListedSheet {
    let mut maker = Maker::new(seed ^ 0x5E19 << 40);
    let (bundle, held, names, places) = match maker.r.one_in(3) {
        true => maker.usual_bundle(),
        false => maker.asking_bundle(),
    };
    let mut sheet = ListedSheet {
        sheet: Sheet {
            bundle: bundle.clone(),
            rows: Vec::new(),
        },
        accepted: Sheet {
            bundle,
            rows: Vec::new(),
        },
        listings: maker.listings(),
        places,
    };
    for listing in &sheet.listings {
        let (row, plain) = maker.listed_row(&held, &names, *listing);
        sheet.sheet.rows.push(row);
        sheet.accepted.rows.push(plain);
    }
    sheet
}

/// A bundle, its messages, the names of arguments, and the places that are asked for.
type Sheeted = (Bundle, Vec<Held>, Vec<String>, Vec<Place>);

impl Maker {
    /// A case of the usual kind, with more arguments than it asks for.
    fn usual(&mut self, listing: Listing) -> Listed {
        let mut case = self.case();
        let mut given = case.arguments.clone();
        for name in names::near(&mut self.r) {
            if given.iter().all(|(held, _)| *held != name) {
                given.push((name, self.value()));
            }
        }
        let listed = listing.of(&mut self.r, accepted(&given));
        case.arguments = accepted(&listed);
        Listed {
            case,
            listed,
            listing,
            places: Vec::new(),
        }
    }

    /// A message that asks for some of very few or very many arguments.
    fn asking(&mut self, listing: Listing) -> Listed {
        let names = names::any(&mut self.r);
        let (bundle, places) = self.asking_for(&names);
        let mut given = self.values(&names);
        if matches!(listing, Listing::Accepted | Listing::Reordered) && names.len() > 200 {
            fill(&mut self.r, &mut given);
        }
        let listed = listing.of(&mut self.r, given);
        let (mut message, mut attribute) = ("a", None);
        match self.r.below(24) {
            0 => message = "zz",
            1 => attribute = Some("no"),
            2..=5 => attribute = Some("x"),
            _ => {}
        }
        Listed {
            case: Case {
                bundle,
                message: message.into(),
                attribute: attribute.map(Into::into),
                arguments: accepted(&listed),
            },
            listed,
            listing,
            places,
        }
    }

    /// A bundle whose message `a` and its attribute `x` ask for variables at places
    /// among these names.
    fn asking_for(&mut self, names: &[String]) -> (Bundle, Vec<Place>) {
        let (resource, places) = asked::resource(&mut self.r, names);
        let bundle = Bundle {
            locale: self.r.below(4) as u8,
            isolating: self.r.one_in(2),
            items: vec![Item::Function("NUMBER".into()), Item::Plain(resource)],
        };
        (bundle, places)
    }

    /// A value for each name, none for most where there are very many.
    fn values(&mut self, names: &[String]) -> Vec<(String, Value)> {
        let few = names.len() < 3_000;
        let ends = [0, names.len() / 2, names.len().saturating_sub(1)];
        let named = names.iter().enumerate();
        let given = named.map(|(at, name)| {
            let value = match few || ends.contains(&at) {
                true => self.value(),
                false => Value::None,
            };
            (name.clone(), value)
        });
        given.collect()
    }

    fn value(&mut self) -> Value {
        match self.r.below(6) {
            0 | 1 => Value::Text(self.one_of(self.words.texts)),
            2 => Value::None,
            _ => Value::Number(decimal(&mut self.r).shortest()),
        }
    }

    /// A bundle of the usual kind, some of whose messages are there.
    fn usual_bundle(&mut self) -> Sheeted {
        let mut bundle = self.bundle();
        let mut held = held_messages(&bundle);
        while held.is_empty() {
            bundle = self.bundle();
            held = held_messages(&bundle);
        }
        (bundle, held, names::near(&mut self.r), Vec::new())
    }

    /// A bundle of one message that asks for some of the arguments.
    fn asking_bundle(&mut self) -> Sheeted {
        let names = match self.r.below(30) {
            0 => names::any(&mut self.r),
            1 => {
                let count = 257 + self.r.below(600);
                names::some(&mut self.r, count)
            }
            count => names::some(&mut self.r, count),
        };
        let (bundle, places) = self.asking_for(&names);
        let held = vec![("a".into(), true, vec!["x".into()])];
        (bundle, held, names, places)
    }

    /// How the rows are listed; in one sheet of three all as accepted.
    fn listings(&mut self) -> Vec<Listing> {
        let count = 1 + self.r.below(8);
        let mut listings = vec![Listing::Accepted; count];
        if !self.r.one_in(3) {
            listings[self.r.below(count)] = Listing::any(&mut self.r);
            if self.r.one_in(4) {
                listings[self.r.below(count)] = Listing::any(&mut self.r);
            }
        }
        listings
    }

    /// A row as it is listed, and in its accepted form.
    fn listed_row(&mut self, held: &[Held], names: &[String], listing: Listing) -> (Row, Row) {
        let mut row = self.row(held);
        if self.r.one_in(60) {
            row.message = "zz".into();
        }
        if self.r.one_in(60) {
            row.attribute = Some("no".into());
        }
        let some: Vec<_> = names
            .iter()
            .filter(|_| !self.r.one_in(6))
            .cloned()
            .collect();
        let given = self.values(&some);
        let listed = listing.of(&mut self.r, given);
        let plain = Row {
            arguments: Given::Values(accepted(&listed)),
            ..row.clone()
        };
        row.arguments = match listing {
            Listing::Accepted => plain.arguments.clone(),
            _ => Given::Bytes(encode::listed(&listed)),
        };
        (row, plain)
    }
}

/// Makes one value a text that fills the image to 65,536 bytes, or to a few less.
fn fill(r: &mut Random, given: &mut [(String, Value)]) {
    let at = r.below(given.len());
    given[at].1 = Value::Text(String::new());
    let room = 65_536 - encode::listed(given).len();
    let less = if r.one_in(2) { 0 } else { r.below(300) };
    given[at].1 = Value::Text("x".repeat(room.saturating_sub(less)));
}
