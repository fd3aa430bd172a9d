//! How often sheets were made at a rule's boundary, one below it and one above it.

use std::fmt::Write;

use crate::book::Book;
use crate::category::{Category, DOMESTIC_CATEGORIES};
use crate::facts::Facts;
use crate::order::Order;

/// A figure with the boundary it is asked against.
type Fixed = (&'static str, fn(&Facts) -> u32, i64);

const CROSS_BORDER_FIXED: [Fixed; 14] = [
    ("train length", |facts| facts.train_length, 7_400),
    ("hauled length", |facts| facts.hauled_length, 7_000),
    ("V length", |facts| facts.hauled_length_v, 5_000),
    ("V length", |facts| facts.hauled_length_v, 5_200),
    ("V length", |facts| facts.hauled_length_v, 7_000),
    ("axles", |facts| facts.axles, 250),
    ("hauled mass", |facts| facts.hauled_mass, 8_000),
    ("hauled mass", |facts| facts.hauled_mass, 12_000),
    ("hauled mass", |facts| facts.hauled_mass, 16_000),
    ("V masses", |facts| facts.braked_v, 2_000),
    ("V axles", |facts| facts.axles_v, 12),
    ("isolated in a run", |facts| facts.longest_run, 10),
    ("engines", |facts| facts.engines, 3),
    ("engines", |facts| facts.engines, 6),
];

const DOMESTIC_FIXED: [Fixed; 23] = [
    ("hauled mass", |facts| facts.hauled_mass, 8_000),
    ("hauled mass", |facts| facts.hauled_mass, 12_000),
    ("hauled mass", |facts| facts.hauled_mass, 16_000),
    ("train length", |facts| facts.train_length, 5_500),
    ("train length", |facts| facts.train_length, 6_500),
    ("train length", |facts| facts.train_length, 7_500),
    ("train length", |facts| facts.train_length, 8_000),
    ("train length", |facts| facts.train_length, 9_000),
    ("train length", |facts| facts.train_length, 10_000),
    ("V masses", |facts| facts.braked_v, 2_000),
    ("isolated in a run", |facts| facts.longest_run, 10),
    ("engines", |facts| facts.engines, 3),
    ("engines", |facts| facts.engines, 6),
    ("slowest hauled", |facts| facts.slowest_hauled.into(), 140),
    ("slowest hauled", |facts| facts.slowest_hauled.into(), 120),
    ("slowest hauled", |facts| facts.slowest_hauled.into(), 100),
    ("slowest hauled", |facts| facts.slowest_hauled.into(), 90),
    ("slowest hauled", |facts| facts.slowest_hauled.into(), 80),
    ("slowest engine", |facts| facts.slowest_working.into(), 140),
    ("slowest engine", |facts| facts.slowest_working.into(), 120),
    ("slowest engine", |facts| facts.slowest_working.into(), 100),
    ("slowest engine", |facts| facts.slowest_working.into(), 90),
    ("slowest engine", |facts| facts.slowest_working.into(), 80),
];

/// A boundary that moves with the order or comes again: how far a sheet stands above it.
type Moving = (&'static str, fn(&Facts, &Order) -> i64);

/// No multiple of 4,000 is one apart from a domestic margin, which is a multiple of four.
const DOMESTIC_MOVING: [Moving; 11] = [
    ("hauled mass, LRA", above_coupling),
    ("hauled mass, admissible", above_admissible),
    ("wagons 2", |facts, _| facts.wagons - 2),
    ("asked margin, 4,000 n > 0", above_tonne_in_fours),
    ("asked margin, 4,000 n < 0", above_lacking_tonne_in_fours),
    ("margin 0 of ME140, in steps", |facts, order| {
        steps(&DOMESTIC_CATEGORIES[0], facts, order)
    }),
    ("margin 0 of ME120, in steps", |facts, order| {
        steps(&DOMESTIC_CATEGORIES[1], facts, order)
    }),
    ("margin 0 of ME100, in steps", |facts, order| {
        steps(&DOMESTIC_CATEGORIES[2], facts, order)
    }),
    ("margin 0 of MA100, in steps", |facts, order| {
        steps(&DOMESTIC_CATEGORIES[3], facts, order)
    }),
    ("margin 0 of MA90, in steps", |facts, order| {
        steps(&DOMESTIC_CATEGORIES[4], facts, order)
    }),
    ("margin 0 of MA80, in steps", |facts, order| {
        steps(&DOMESTIC_CATEGORIES[5], facts, order)
    }),
];

const CROSS_BORDER_MOVING: [Moving; 6] = [
    ("hauled mass, LRA", above_coupling),
    ("hauled mass, admissible", above_admissible),
    ("begun 20 m, 5,400 to 6,800", above_begun),
    ("asked margin 0", asked_margin),
    ("asked margin, 4,000 n > 0", above_tonne),
    ("asked margin, 4,000 n < 0", above_lacking_tonne),
];

/// Farther from a boundary than is counted.
const FAR: i64 = i64::MAX;

fn above_coupling(facts: &Facts, order: &Order) -> i64 {
    i64::from(facts.hauled_mass) - i64::from(order.coupling)
}

fn above_admissible(facts: &Facts, order: &Order) -> i64 {
    i64::from(facts.hauled_mass) - i64::from(order.admissible)
}

fn above_begun(facts: &Facts, _: &Order) -> i64 {
    match facts.hauled_length_v {
        length @ 5_399..=6_801 => around(i64::from(length), 200),
        _ => FAR,
    }
}

fn asked_margin(facts: &Facts, order: &Order) -> i64 {
    order.book.rules().asked(order).margin(facts, order)
}

/// How many steps a category's margin stands above 0, where its percentage can have such a step: Q counts in ones for ME and in fours
/// for MA.
pub fn steps(category: &Category, facts: &Facts, order: &Order) -> i64 {
    let p = i64::from(category.percentage(facts, order));
    let q = if category.is_1_to_3() { 100 } else { 400 };
    let step = divisor(q, 4 * p);
    match category.margin(facts, order) {
        margin if margin.abs() <= step => margin / step,
        _ => FAR,
    }
}

/// The greatest common one.
fn divisor(one: i64, other: i64) -> i64 {
    match other {
        0 => one,
        _ => divisor(other, one % other),
    }
}

fn above_tonne_in_fours(facts: &Facts, order: &Order) -> i64 {
    match asked_margin(facts, order) {
        margin @ 3_996.. => around(margin, 4_000) / 4,
        _ => FAR,
    }
}

fn above_lacking_tonne_in_fours(facts: &Facts, order: &Order) -> i64 {
    match asked_margin(facts, order) {
        margin @ ..=-3_996 => around(margin, 4_000) / 4,
        _ => FAR,
    }
}

fn above_tonne(facts: &Facts, order: &Order) -> i64 {
    match asked_margin(facts, order) {
        margin @ 3_999.. => around(margin, 4_000),
        _ => FAR,
    }
}

fn above_lacking_tonne(facts: &Facts, order: &Order) -> i64 {
    match asked_margin(facts, order) {
        margin @ ..=-3_999 => around(margin, 4_000),
        _ => FAR,
    }
}

/// How far a value stands above the nearest multiple.
fn around(value: i64, multiple: i64) -> i64 {
    (value + multiple / 2).rem_euclid(multiple) - multiple / 2
}

/// For each boundary of a book: one below, at, one above.
#[derive(Clone)]
pub struct Boundaries {
    fixed: Vec<(Fixed, [u64; 3])>,
    moving: Vec<(Moving, [u64; 3])>,
}

fn count(counts: &mut [u64; 3], above: i64) {
    if let -1..=1 = above {
        counts[(above + 1) as usize] += 1;
    }
}

impl Boundaries {
    pub fn new(book: Book) -> Boundaries {
        let (fixed, moving): (&[Fixed], &[Moving]) = match book {
            Book::CrossBorder => (&CROSS_BORDER_FIXED, &CROSS_BORDER_MOVING),
            Book::Domestic => (&DOMESTIC_FIXED, &DOMESTIC_MOVING),
        };
        Boundaries {
            fixed: fixed.iter().map(|one| (*one, [0; 3])).collect(),
            moving: moving.iter().map(|one| (*one, [0; 3])).collect(),
        }
    }

    pub fn note(&mut self, facts: &Facts, order: &Order) {
        for ((_, figure, boundary), counts) in &mut self.fixed {
            count(counts, i64::from(figure(facts)) - *boundary);
        }
        for ((_, above), counts) in &mut self.moving {
            count(counts, above(facts, order));
        }
    }

    fn counts(&mut self) -> impl Iterator<Item = &mut [u64; 3]> {
        let fixed = self.fixed.iter_mut().map(|(_, counts)| counts);
        fixed.chain(self.moving.iter_mut().map(|(_, counts)| counts))
    }

    pub fn add(&mut self, other: &Boundaries) {
        for (counts, (_, more)) in self.counts().zip(other.rows()) {
            for (count, more) in counts.iter_mut().zip(more) {
                *count += more;
            }
        }
    }

    fn rows(&self) -> Vec<(String, [u64; 3])> {
        let fixed = self.fixed.iter();
        let fixed =
            fixed.map(|((name, _, boundary), counts)| (format!("{name} {boundary}"), *counts));
        let moving = self.moving.iter();
        let moving = moving.map(|((name, _), counts)| (name.to_string(), *counts));
        fixed.chain(moving).collect()
    }

    /// The boundaries that were not met from all three sides.
    pub fn missing(&self) -> Vec<String> {
        let rows = self.rows().into_iter();
        let missing = rows.filter(|(_, counts)| counts.contains(&0));
        missing.map(|(name, _)| name).collect()
    }

    pub fn table(&self) -> String {
        let mut text = String::new();
        for (name, [below, at, above]) in self.rows() {
            let _ = writeln!(text, "  {name:<28} {below:>8} {at:>8} {above:>8}");
        }
        text
    }
}
