//! The categories of both books: speed, percentage, column, braked mass and margin.

use crate::facts::Facts;
use crate::order::{Order, MA100, MA80, MA90, ME100, ME120, ME140};

#[derive(Clone, Copy, Debug)]
pub struct Category {
    pub number: u8,
    pub own_speed: u8,
    column: usize,
    /// Percentages by train length: each up to the length beside it, the last one also above.
    pub percentages: &'static [(u32, u8)],
    /// Q x (100 - k): 4,000ths of a tonne of braked mass after deduction.
    pub braked: fn(&Facts) -> i64,
}

/// The train length of a percentage that is the same for every train.
const ANY: u32 = u32::MAX;

pub const CROSS_BORDER_CATEGORIES: [Category; 5] = [
    Category::new(1, 120, ME120, &[(ANY, 77)], deducted),
    Category::new(2, 100, ME100, &[(ANY, 60)], deducted),
    Category::new(3, 100, MA100, &[(ANY, 60)], deducted),
    Category::new(4, 100, MA100, &[(ANY, 57)], by_setting),
    Category::new(5, 90, MA90, &[(ANY, 50)], by_setting),
];

/// The tables of articles 3402 and 4402.1. Where one ends, its last figure is held.
pub const DOMESTIC_CATEGORIES: [Category; 6] = [
    Category::new(1, 140, ME140, &ME140_BY_LENGTH, long_locomotive),
    Category::new(2, 120, ME120, &ME120_BY_LENGTH, long_locomotive),
    Category::new(3, 100, ME100, &ME100_BY_LENGTH, long_locomotive),
    Category::new(4, 100, MA100, &MA100_BY_LENGTH, by_setting),
    Category::new(5, 90, MA90, &MA90_BY_LENGTH, by_setting),
    Category::new(6, 80, MA80, &MA80_BY_LENGTH, by_setting),
];

const ME140_BY_LENGTH: [(u32, u8); 3] = [(5_500, 97), (6_500, 102), (7_500, 108)];
const ME120_BY_LENGTH: [(u32, u8); 4] = [(5_500, 77), (6_500, 81), (7_500, 86), (ANY, 94)];
const ME100_BY_LENGTH: [(u32, u8); 4] = [(5_500, 60), (6_500, 63), (7_500, 66), (ANY, 73)];
const MA100_BY_LENGTH: [(u32, u8); 3] = [(8_000, 57), (9_000, 64), (10_000, 69)];
const MA90_BY_LENGTH: [(u32, u8); 3] = [(8_000, 50), (9_000, 57), (10_000, 61)];
const MA80_BY_LENGTH: [(u32, u8); 3] = [(8_000, 47), (9_000, 55), (10_000, 59)];

impl Category {
    const fn new(
        number: u8,
        own_speed: u8,
        column: usize,
        percentages: &'static [(u32, u8)],
        braked: fn(&Facts) -> i64,
    ) -> Category {
        Category {
            number,
            own_speed,
            column,
            percentages,
            braked,
        }
    }

    /// Categories 1 to 3: braked in P on the German side, ME in the domestic book.
    pub fn is_1_to_3(&self) -> bool {
        self.number <= 3
    }

    /// p, the greater of the table's and the German timetable's, which a domestic order has not.
    pub fn percentage(&self, facts: &Facts, order: &Order) -> u8 {
        let mut table = self.percentages.iter();
        let own = table.find(|(length, _)| facts.train_length <= *length);
        let own = own.or(self.percentages.last());
        own.map_or(0, |(_, own)| *own).max(order.percentage)
    }

    /// None where the column and every column to its right are missing.
    pub fn line_speed(&self, order: &Order) -> Option<u8> {
        order.line_speed(self.column)
    }

    pub fn column(&self) -> usize {
        self.column
    }

    pub fn speed(&self, facts: &Facts, line_speed: u8) -> u8 {
        self.own_speed.min(line_speed).min(facts.slowest)
    }

    /// Braked mass after deduction in tenths, rounded down.
    pub fn braked_tenths(&self, facts: &Facts) -> u32 {
        ((self.braked)(facts) / 400) as u32
    }

    /// The exact margin in 4,000ths of a tonne.
    pub fn margin(&self, facts: &Facts, order: &Order) -> i64 {
        let p = i64::from(self.percentage(facts, order));
        (self.braked)(facts) - 4 * p * i64::from(facts.train_mass)
    }
}

/// Note 8: three quarters of M; note 7: k percent less.
fn deducted(facts: &Facts) -> i64 {
    (4 * i64::from(facts.braked_v) + 3 * i64::from(facts.braked_m)) * (100 - facts.k)
}

/// Each record the mass for its setting, and nothing is deducted.
fn by_setting(facts: &Facts) -> i64 {
    400 * i64::from(facts.braked_v + facts.braked_m)
}

/// Article 1403.2: of what is set to M an engine counts its whole M mass, a wagon three quarters of its V mass.
fn long_locomotive(facts: &Facts) -> i64 {
    let whole = i64::from(facts.braked_v) + i64::from(facts.engines_m);
    100 * (4 * whole + 3 * i64::from(facts.wagons_v))
}

/// k: the begun 20 m by which the hauled vehicles set to V pass 500 m, at most 10 (note 7, request Three).
pub fn deduction(hauled_length_v: u32) -> i64 {
    begun_20_m(hauled_length_v).min(10)
}

/// The same before they are held at 10.
pub fn begun_20_m(hauled_length_v: u32) -> i64 {
    i64::from(hauled_length_v.saturating_sub(5_000).div_ceil(200))
}
