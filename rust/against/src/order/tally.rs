//! What was counted of arguments and their order.

use harness::{Listing, Place, LISTINGS, PLACES};
use std::fmt;

/// Arguments images by how they are listed.
#[derive(Clone, Copy, Debug, Default, PartialEq, Eq)]
pub struct Order {
    /// By their listing.
    pub listings: [u64; 5],
    /// With 257 to 2,000 arguments, and with 10,000 or more.
    pub many: u64,
    pub very_many: u64,
    /// The most arguments that one has.
    pub most: u64,
    /// Messages that ask for a variable at each place among the names.
    pub places: [u64; 6],
    /// Formattings and sheets that are refused as they are listed, those of them that
    /// finish in their accepted form, and those whose text is the original's own then.
    pub refused: u64,
    pub finished: u64,
    pub originals: u64,
}

impl Order {
    /// An arguments image.
    pub fn image(&mut self, listing: Listing, arguments: usize) {
        if let Some(at) = LISTINGS.iter().position(|held| *held == listing) {
            self.listings[at] += 1;
        }
        self.many += u64::from((257..=2_000).contains(&arguments));
        self.very_many += u64::from(arguments >= 10_000);
        self.most = self.most.max(arguments as u64);
    }

    /// The places of the variables that a message asks for.
    pub fn asked(&mut self, places: &[Place]) {
        for (sum, place) in self.places.iter_mut().zip(PLACES) {
            *sum += u64::from(places.contains(&place));
        }
    }

    /// One that is refused as it is listed.
    pub fn refused(&mut self, finished: bool, original: bool) {
        self.refused += 1;
        self.finished += u64::from(finished);
        self.originals += u64::from(finished && original);
    }

    /// What was counted elsewhere, too.
    pub fn add(&mut self, other: &Self) {
        for (sum, n) in self.listings.iter_mut().zip(other.listings) {
            *sum += n;
        }
        for (sum, n) in self.places.iter_mut().zip(other.places) {
            *sum += n;
        }
        self.many += other.many;
        self.very_many += other.very_many;
        self.most = self.most.max(other.most);
        self.refused += other.refused;
        self.finished += other.finished;
        self.originals += other.originals;
    }
}

impl fmt::Display for Order {
    fn fmt(&self, f: &mut fmt::Formatter) -> fmt::Result {
        let [accepted, reordered, repeated, scaled, mixed] = self.listings;
        if self.listings.iter().sum::<u64>() == 0 {
            return Ok(());
        }
        writeln!(
            f,
            "arguments: {accepted} images in order, {reordered} reordered, {repeated} with a name twice, {scaled} with another scale, {mixed} mixed"
        )?;
        writeln!(
            f,
            "arguments: {} with 257 to 2,000, {} with 10,000 or more, at most {}",
            self.many, self.very_many, self.most
        )?;
        let [first, middle, last, below, between, above] = self.places;
        writeln!(
            f,
            "arguments: asked for the first {first}, in the middle {middle}, the last {last}, missing below all {below}, between two {between}, above all {above}"
        )?;
        writeln!(
            f,
            "arguments: {} refused as listed, {} of them finish in the accepted form, {} as the original Rust",
            self.refused, self.finished, self.originals
        )
    }
}
