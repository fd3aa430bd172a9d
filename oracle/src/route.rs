//! The route: the orders of up to 64 sections, and one category that holds from end to end.

use std::cmp::Reverse;

use crate::answer::{demand, Refusal};
use crate::book::{RuleBook, BOOK, CROSS_BORDER};
use crate::category::Category;
use crate::facts::Facts;
use crate::order::{Order, ORDER};

/// The most sections that a route may have.
pub const SECTIONS: usize = 64;

/// The byte of an order that holds the asked category.
pub const ASKED: usize = 5;

/// The category granted for the route, or 0, and its speed on each section.
#[derive(Clone, Debug, PartialEq, Eq)]
pub struct Route {
    pub category: u8,
    pub speeds: Vec<u8>,
}

/// The sections of a route. Refusal 4 has place 0 for the orders as a whole, then the place of the first bad section.
pub fn sections(orders: &[u8]) -> Result<Vec<Order>, Refusal> {
    demand(orders.len().is_multiple_of(ORDER), 4)?;
    let records = orders.as_chunks::<ORDER>().0;
    demand((1..=SECTIONS).contains(&records.len()), 4)?;
    if let Some(place) = (0..records.len()).find(|&place| is_bad(records, place)) {
        return Err(Refusal { number: 4, place });
    }
    let good = records.iter().filter_map(|record| Order::read(record));
    Ok(good.collect())
}

/// A field is out of range, or another category is asked or another book named than on the first section.
pub fn is_bad(records: &[[u8; ORDER]], place: usize) -> bool {
    let same = |at: usize| records[place][at] == records[0][at];
    Order::read(&records[place]).is_none() || !same(ASKED) || !same(BOOK)
}

/// A category's speed on every section; None where it breaks a rule on any.
pub fn speeds(
    book: &RuleBook,
    category: &Category,
    facts: &Facts,
    sections: &[Order],
) -> Option<Vec<u8>> {
    let speeds = sections.iter();
    speeds
        .map(|section| book.speed(category, facts, section))
        .collect()
}

/// The greatest of the slowest-section speeds, the lowest number at a tie, among the asked and greater ones.
pub fn granted(facts: &Facts, sections: &[Order]) -> Route {
    let book = sections
        .first()
        .map_or(&CROSS_BORDER, |one| one.book.rules());
    granted_under(book, facts, sections)
}

/// The same under a rule book.
pub fn granted_under(book: &RuleBook, facts: &Facts, sections: &[Order]) -> Route {
    let asked = sections.first().map_or(0, |section| section.asked);
    let may_be = book.categories.iter().filter(|one| one.number >= asked);
    let standing = may_be.filter_map(|category| {
        let speeds = speeds(book, category, facts, sections)?;
        Some((category.number, speeds))
    });
    let best =
        standing.max_by_key(|(number, speeds)| (speeds.iter().min().copied(), Reverse(*number)));
    let none = (0, vec![0; sections.len()]);
    let (category, speeds) = best.unwrap_or(none);
    Route { category, speeds }
}
