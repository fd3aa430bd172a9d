//! What both books' orders and the domestic sheets have met: every field and room, every length class, the mark, and the account's
//! three figures, also such as no list has.

use std::fmt::Write;

use crate::account::Account;
use crate::book::{Book, BOOK, BOOKS};
use crate::boundaries::steps;
use crate::call::{Call, Function, Inputs};
use crate::category::Category;
use crate::coverage::Scope;
use crate::facts::Facts;
use crate::gen::damage::{faults, order_fields, out_of_range};
use crate::order::{Order, ORDER};
use crate::tally::Tally;
use crate::vehicle::{ISOLATED, SET_TO_M};

#[derive(Clone, Copy, Debug, PartialEq, Eq, PartialOrd, Ord)]
enum Met {
    /// An order of this book is refused for one field, by its place in the table, at this value, and nothing else is.
    Field(Book, usize, u64),
    /// So many bytes are lent for a sheet of this book, and nothing else is refused.
    Room(Book, usize),
    /// The category asked, and the length class that the train is in.
    Class(u8, usize),
    /// One of 1 to 3 asked, and whether the train is a long locomotive.
    Mark(u8, bool),
    /// A sheet from an account that no list has.
    Unlisted(&'static str),
    /// Of a portion's account, or of two that are joined.
    Figure(&'static str),
    /// At the bound of this rule the category does not break it, nor an earlier one.
    AtBound(u8, u8),
    /// One past the bound of this rule, which is the first that the category breaks.
    PastBound(u8, u8),
}

/// How far a category's figure is past the bound of a rule, so that it breaks the rule above 0; None where there is no bound.
fn past_bound(rule: u8, category: &Category, facts: &Facts, order: &Order) -> Option<i64> {
    let past = |figure: u32, bound: i64| Some(i64::from(figure) - bound);
    let slower = |speed: u8| Some(i64::from(category.own_speed) - i64::from(speed));
    let mass = facts.hauled_mass;
    match rule {
        60 => past(mass, order.coupling.into()),
        62 if !facts.worker_not_in_m => None,
        62 => past(mass, if category.number == 1 { 12_000 } else { 8_000 }),
        63 => past(mass, order.admissible.into()),
        66 | 78 => slower(facts.slowest_hauled),
        67 => Some(2 - facts.wagons),
        68 | 79 => past(facts.train_length, 7_500),
        69 => past(mass, if facts.long { 16_000 } else { 12_000 }),
        72 => past(facts.engines, 3),
        73 | 83 => slower(facts.slowest_working),
        77 | 88 => Some(-steps(category, facts, order)),
        82 => past(facts.engines, 6),
        84 => past(facts.braked_v, 2_000),
        87 => past(facts.longest_run, 10),
        _ => None,
    }
}

/// The rules of a category that have a bound.
fn bounded(category: u8) -> &'static [u8] {
    match category {
        1 | 2 => &[60, 62, 63, 66, 67, 68, 69, 72, 73, 77],
        3 => &[60, 62, 63, 66, 68, 69, 72, 73, 77],
        _ => &[60, 63, 78, 79, 82, 83, 84, 87, 88],
    }
}

/// The lengths about which p changes, or would.
const CLASSES: [u32; 6] = [5_500, 6_500, 7_500, 8_000, 9_000, 10_000];

const ROOMS: [usize; 6] = [0, 31, 32, 33, 34, 40];

/// What no list has, by its figures.
type Unlisted = (&'static str, fn(&Account) -> bool);

const UNLISTED: [Unlisted; 10] = [
    ("every braked mass at its ceiling", |one| {
        [one.braked_v, one.braked_m, one.engines_m, one.wagons_v] == [CEILING; 4]
    }),
    ("the mass at its ceiling, and no braked mass", |one| {
        one.mass == CEILING && one.braked_v + one.braked_m + one.engines_m + one.wagons_v == 0
    }),
    ("more hauled engines than records", |one| {
        one.engines > one.count
    }),
    ("M masses of engines above those of all", |one| {
        one.engines_m > one.braked_m
    }),
    ("M masses of engines without an engine", |one| {
        one.engines_m > 0 && one.engines == 0
    }),
    ("V masses of wagons in M, none in M", |one| {
        one.wagons_v > 0 && one.set_to_m == 0
    }),
    ("an engine not in M, and no engine", |one| {
        one.engine_not_in_m && one.engines == 0
    }),
    ("fewer in M than first settings", |one| {
        one.set_to_m < first_in_m(one)
    }),
    ("a longer run than records", |one| one.longest > one.count),
    ("the first isolated by its run alone", |one| {
        one.leading > 0 && one.first[0] != ISOLATED
    }),
];

fn first_in_m(account: &Account) -> u32 {
    let first = account.first.iter();
    first.filter(|&&setting| setting == SET_TO_M).count() as u32
}

/// What a portion's account has of the three figures.
const OF_PORTIONS: [Unlisted; 4] = [
    ("M masses of hauled engines", |one| one.engines_m > 0),
    ("V masses of wagons set to M", |one| one.wagons_v > 0),
    ("an engine not set to M", |one| one.engine_not_in_m),
    ("engines, all set to M", |one| {
        one.engines > 0 && !one.engine_not_in_m
    }),
];

/// One of the two sums, with the names of what joining meets of it.
type Sum = (fn(&mut Account) -> &mut u32, [&'static str; 3]);

const SUMS: [Sum; 2] = [
    (
        |account| &mut account.engines_m,
        [
            "M masses of engines joined, both above 0",
            "M masses of engines joined at the ceiling",
            "M masses of engines joined one past the ceiling, and nothing else is",
        ],
    ),
    (
        |account| &mut account.wagons_v,
        [
            "V masses of wagons joined, both above 0",
            "V masses of wagons joined at the ceiling",
            "V masses of wagons joined one past the ceiling, and nothing else is",
        ],
    ),
];

/// By the mark on the left and on the right.
const MARKS: [[&str; 2]; 2] = [
    ["joined without the mark", "joined with the right's mark"],
    ["joined with the left's mark", "joined with both marks"],
];

/// The ceiling of either sum.
const CEILING: u32 = 500_000;

fn demanded(function: Function) -> Vec<Met> {
    match function {
        Function::SheetOfTrain => of_sheets(),
        Function::SheetOfAccount => {
            let unlisted = UNLISTED.map(|(name, _)| Met::Unlisted(name));
            of_sheets().into_iter().chain(unlisted).collect()
        }
        Function::AccountOf => OF_PORTIONS.map(|(name, _)| Met::Figure(name)).to_vec(),
        Function::Join => {
            let sums = SUMS.into_iter().flat_map(|(_, names)| names);
            let names = sums.chain(MARKS.into_iter().flatten());
            names.map(Met::Figure).collect()
        }
        _ => vec![],
    }
}

fn of_sheets() -> Vec<Met> {
    let mut demanded = vec![];
    for book in BOOKS {
        for (field, span) in order_fields(book).iter().enumerate() {
            let faults = faults(span).into_iter();
            demanded.extend(faults.map(|value| Met::Field(book, field, value)));
        }
        demanded.extend(ROOMS.map(|room| Met::Room(book, room)));
    }
    for asked in 1..=6 {
        demanded.extend((0..=CLASSES.len()).map(|class| Met::Class(asked, class)));
    }
    for asked in 1..=3 {
        demanded.extend([true, false].map(|long| Met::Mark(asked, long)));
    }
    for category in 1..=6 {
        for &rule in bounded(category) {
            demanded.extend([Met::AtBound(rule, category), Met::PastBound(rule, category)]);
        }
    }
    demanded
}

/// A file of cases lends what SHEET lends, and is too short for every bound of every category.
fn is_in(met: &Met, scope: Scope) -> bool {
    match scope {
        Scope::Functions => true,
        Scope::Lines => !matches!(met, Met::Room(..) | Met::AtBound(..) | Met::PastBound(..)),
        Scope::Domestic => !matches!(met, Met::Room(Book::CrossBorder, _)),
    }
}

impl Met {
    fn kind(self) -> String {
        let kind = match self {
            Met::Field(book, ..) => {
                return format!("{} order, one field out of range", book.name())
            }
            Met::Room(book, _) => return format!("{} sheet, rooms lent", book.name()),
            Met::Class(..) => "domestic: length classes, by the asked one",
            Met::Mark(..) => "domestic: long locomotive or not, by the asked one",
            Met::AtBound(..) => "domestic: at a rule's bound, not broken, by category",
            Met::PastBound(..) => "domestic: one past a rule's bound, and it is first",
            Met::Unlisted(name) | Met::Figure(name) => name,
        };
        kind.to_owned()
    }
}

#[derive(Clone, Default)]
pub struct Domestic {
    tally: Tally<Met>,
}

impl Domestic {
    /// The facts are those of a train, or of engines with an account, that is not refused.
    pub fn note(&mut self, call: &Call, refusals: &[u8], facts: Option<&Facts>) {
        let function = call.function();
        match (&call.inputs, refusals) {
            (Inputs::Train { order, .. } | Inputs::Engines { order, .. }, [4]) => {
                self.note_bad(function, order);
            }
            (Inputs::Train { order, .. } | Inputs::Engines { order, .. }, [] | [5]) => {
                self.tally
                    .met(function, Met::Room(Book::of(order), call.room));
                if let (Some(facts), Some(order)) = (facts, Order::read(order)) {
                    self.note_done(call, facts, &order);
                }
            }
            (Inputs::Portion { portion }, []) => {
                let account = Account::of(portion.as_chunks().0);
                let held = OF_PORTIONS.into_iter().filter(|(_, has)| has(&account));
                held.for_each(|(name, _)| self.tally.met(function, Met::Figure(name)));
            }
            (Inputs::Accounts { left, right }, [] | [2]) => {
                if let (Some(left), Some(right)) = (Account::read(left), Account::read(right)) {
                    self.note_joined(&left, &right);
                }
            }
            _ => {}
        }
    }

    /// An order that names no book may be one of either but for that.
    fn note_bad(&mut self, function: Function, order: &[u8]) {
        let Ok(record) = <&[u8; ORDER]>::try_from(order) else {
            return;
        };
        let named = Book::named(record[BOOK]);
        for book in BOOKS
            .into_iter()
            .filter(|&one| named.is_none_or(|named| one == named))
        {
            if let [(field, value)] = out_of_range(book, record)[..] {
                self.tally.met(function, Met::Field(book, field, value));
            }
        }
    }

    fn note_done(&mut self, call: &Call, facts: &Facts, order: &Order) {
        if order.book == Book::CrossBorder {
            return;
        }
        let function = call.function();
        let length = facts.train_length;
        let class = CLASSES.iter().filter(|&&bound| length > bound).count();
        self.tally.met(function, Met::Class(order.asked, class));
        if order.asked <= 3 {
            self.tally.met(function, Met::Mark(order.asked, facts.long));
        }
        for category in order.book.categories() {
            self.note_bounds(function, category, facts, order);
        }
        if let Inputs::Engines { hauled, .. } = &call.inputs {
            let account = Account::read(hauled).unwrap_or(Account::EMPTY);
            let held = UNLISTED.into_iter().filter(|(_, has)| has(&account));
            held.for_each(|(name, _)| self.tally.met(function, Met::Unlisted(name)));
        }
    }

    fn note_bounds(
        &mut self,
        function: Function,
        category: &Category,
        facts: &Facts,
        order: &Order,
    ) {
        let first = order.book.rules().rule(category, facts, order);
        let number = category.number;
        for &rule in bounded(number) {
            match past_bound(rule, category, facts, order) {
                Some(0) if first == 0 || first > rule => {
                    self.tally.met(function, Met::AtBound(rule, number));
                }
                Some(1) if first == rule => {
                    self.tally.met(function, Met::PastBound(rule, number));
                }
                _ => {}
            }
        }
    }

    fn note_joined(&mut self, left: &Account, right: &Account) {
        let mut met = |name| self.tally.met(Function::Join, Met::Figure(name));
        for (sum, [both, at, past]) in SUMS {
            let [mut left, mut right] = [*left, *right];
            let [one, other] = [&mut left, &mut right].map(|account| std::mem::take(sum(account)));
            if left.join(&right).is_err() || one.min(other) == 0 {
                continue;
            }
            match one + other {
                joined if joined < CEILING => met(both),
                CEILING => met(at),
                joined if joined == CEILING + 1 => met(past),
                _ => {}
            }
        }
        if left.join(right).is_ok() {
            let [left, right] = [left, right].map(|account| usize::from(account.engine_not_in_m));
            met(MARKS[left][right]);
        }
    }

    pub fn add(&mut self, other: &Domestic) {
        self.tally.add(&other.tally);
    }

    pub fn missing(&self, scope: Scope) -> Vec<String> {
        let missing = self.tally.missing(scope, demanded).into_iter();
        let missing = missing.filter(|(_, met)| is_in(met, scope));
        let text = |(function, met): (Function, Met)| format!("{} {met:?}", function.name());
        missing.map(text).collect()
    }

    /// For each kind how many different ones there are, how often they came and how often the rarest.
    pub fn table(&self, scope: Scope) -> String {
        let mut text =
            String::from("both books' orders, the domestic book: how many such, all, the rarest\n");
        for (function, kind, counts) in self.tally.kinds(scope, demanded, Met::kind) {
            let all: u64 = counts.iter().sum();
            let rarest = counts.iter().min().copied().unwrap_or(0);
            let (name, different) = (function.name(), counts.len());
            let _ = writeln!(
                text,
                "  {name:<16} {kind:<69} {different:>3} {all:>9} {rarest:>9}"
            );
        }
        text
    }
}

#[cfg(test)]
mod tests {
    use super::*;
    use crate::gen::domestic_cases::b;

    #[test]
    fn what_is_not_met_is_missing() {
        let bounds = 2 * (10 + 10 + 9 + 3 * 9);
        let sheets = 2 * (39 + 6) + 6 * 7 + 3 * 2 + bounds;
        let missing = Domestic::default().missing(Scope::Functions);
        assert_eq!(missing.len(), 2 * sheets + 10 + 4 + 2 * 3 + 4);
        let in_lines = Domestic::default().missing(Scope::Lines);
        assert_eq!(in_lines.len(), sheets - 2 * 6 - bounds);
    }

    /// An order without a book counts for both as far as the rest lets it.
    #[test]
    fn a_field_out_of_range_is_counted_for_its_book() {
        let met = |changes: &[(usize, u8)]| {
            let mut order = b().order.write();
            for &(at, value) in changes {
                order[at] = value;
            }
            let mut domestic = Domestic::default();
            domestic.note_bad(Function::SheetOfTrain, &order);
            let missing = domestic.missing(Scope::Functions).len();
            Domestic::default().missing(Scope::Functions).len() - missing
        };
        assert_eq!(met(&[(16, 201)]), 1);
        assert_eq!(met(&[(16, 201), (5, 7)]), 0);
        assert_eq!(met(&[(7, 2)]), 1);
        assert_eq!(met(&[(7, 2), (16, 0)]), 2);
    }
}
