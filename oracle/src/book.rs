//! The two rule books: what differs between them. What they share is said once, over a rule book.

use std::ops::Range;

use crate::category::{Category, CROSS_BORDER_CATEGORIES, DOMESTIC_CATEGORIES};
use crate::facts::Facts;
use crate::order::{Order, MA80, ME120, ME140, ORDER};
use crate::{domestic_rules, rules};

/// The book that byte 7 of an order names.
#[derive(Clone, Copy, Debug, PartialEq, Eq, PartialOrd, Ord)]
pub enum Book {
    CrossBorder,
    Domestic,
}

pub const BOOKS: [Book; 2] = [Book::CrossBorder, Book::Domestic];

/// The byte of an order that names its book.
pub const BOOK: usize = 7;

impl Book {
    /// None where the byte names no book.
    pub fn named(byte: u8) -> Option<Book> {
        BOOKS.into_iter().find(|book| book.byte() == byte)
    }

    pub fn byte(self) -> u8 {
        self as u8
    }

    /// The book of an order or of a route's orders, good or not: the first that one of them names.
    pub fn of(orders: &[u8]) -> Book {
        let bytes = orders.iter().skip(BOOK).step_by(ORDER);
        let mut named = bytes.filter_map(|&byte| Book::named(byte));
        named.next().unwrap_or(Book::CrossBorder)
    }

    pub fn rules(self) -> &'static RuleBook {
        match self {
            Book::CrossBorder => &CROSS_BORDER,
            Book::Domestic => &DOMESTIC,
        }
    }

    pub fn categories(self) -> &'static [Category] {
        self.rules().categories
    }

    /// The number of its last category.
    pub fn last(self) -> u8 {
        self.categories().len() as u8
    }

    /// How long its sheet is: each category has a byte for its first rule.
    pub fn sheet(self) -> usize {
        27 + self.categories().len()
    }

    /// The columns that its orders have, from left to right.
    pub fn columns(self) -> Range<usize> {
        match self {
            Book::CrossBorder => ME120..MA80 + 1,
            Book::Domestic => ME140..MA80 + 1,
        }
    }

    pub fn other(self) -> Book {
        match self {
            Book::CrossBorder => Book::Domestic,
            Book::Domestic => Book::CrossBorder,
        }
    }

    pub fn name(self) -> &'static str {
        match self {
            Book::CrossBorder => "cross-border",
            Book::Domestic => "domestic",
        }
    }
}

/// A list of the rules that a category has of its own, by the first that it breaks, or 0.
pub type List = fn(&Category, &Facts, &Order) -> u8;

#[derive(Clone, Copy)]
pub struct RuleBook {
    pub categories: &'static [Category],
    /// The first rule broken of those common to every category, or 0.
    pub common: fn(&Facts) -> u8,
    pub own: List,
    /// Whether the sheet marks a long locomotive where one of 1 to 3 is asked.
    pub marks: fn(&Facts) -> bool,
}

pub static CROSS_BORDER: RuleBook = RuleBook {
    categories: &CROSS_BORDER_CATEGORIES,
    common: rules::common_rule,
    own: rules::category_rule,
    marks: |facts| facts.hauled_mass > 12_000,
};

/// No rule is common: each category's byte is its own. The mark is by the settings, at any hauled mass (1403.2).
pub static DOMESTIC: RuleBook = RuleBook {
    categories: &DOMESTIC_CATEGORIES,
    common: |_| 0,
    own: domestic_rules::category_rule,
    marks: |facts| facts.long,
};

impl RuleBook {
    /// The first rule that a category breaks, or 0: the common ones are asked before its own.
    pub fn rule(&self, category: &Category, facts: &Facts, order: &Order) -> u8 {
        match (self.common)(facts) {
            0 => (self.own)(category, facts, order),
            rule => rule,
        }
    }

    /// A category's speed on the order's line; None where it breaks a rule there.
    pub fn speed(&self, category: &Category, facts: &Facts, order: &Order) -> Option<u8> {
        let stands = self.rule(category, facts, order) == 0;
        let line_speed = category.line_speed(order).filter(|_| stands)?;
        Some(category.speed(facts, line_speed))
    }

    pub fn asked(&self, order: &Order) -> &'static Category {
        &self.categories[usize::from(order.asked) - 1]
    }
}
