//! What the length that k counts has met: each begun 20 m, and calls on which a wrong reading of k would show.

use std::fmt::Write;

use self::Reading::{NotHeld, WagonsAlone, Whole, WithIsolated, WithM, WithR, WithWorking};
use crate::account::Account;
use crate::answer::route_answer;
use crate::book::Book;
use crate::call::{Call, Function, Inputs, FUNCTIONS};
use crate::category::{begun_20_m, deduction};
use crate::coverage::Scope;
use crate::facts::Facts;
use crate::gen::lengths::BOUNDS;
use crate::order::Order;
use crate::route::{granted, sections};
use crate::rules::common_rule;
use crate::sheet::sheet;
use crate::tally::Tally;
use crate::vehicle::{
    Record, Vehicle, ISOLATED, SET_TO_M, SET_TO_R, SET_TO_V, WAGON, WORKING_ENGINE,
};

/// A wrong reading of k, most of them of the length that it counts.
#[derive(Clone, Copy, Debug, PartialEq, Eq, PartialOrd, Ord)]
pub enum Reading {
    /// The whole hauled length.
    Whole,
    /// Hauled vehicles set to M counted in.
    WithM,
    WithIsolated,
    WithR,
    /// Working engines set to V counted in.
    WithWorking,
    /// Hauled engines set to V left out.
    WagonsAlone,
    /// The right length, and all the begun 20 m: k is not held at 10.
    NotHeld,
}

/// Those that the account of a portion can show.
const OF_PORTIONS: [Reading; 5] = [Whole, WithM, WithIsolated, WithR, WagonsAlone];
/// Those that what a train is granted can show.
const OF_TRAINS: [Reading; 5] = [Whole, WithM, WithIsolated, WithWorking, WagonsAlone];
/// Those that engines with an account can show.
const OF_ACCOUNTS: [Reading; 3] = [Whole, WithWorking, NotHeld];
/// Those that a sheet of a train can show, and nothing that it is granted: rule 16 or 22 is broken.
const OF_SHEETS: [Reading; 2] = [WithR, NotHeld];

impl Reading {
    fn counts(self, vehicle: &Vehicle) -> bool {
        let hauled = vehicle.kind != WORKING_ENGINE;
        let set_to = |setting: u8| hauled && vehicle.setting == setting;
        match self {
            Whole => hauled,
            WithM => set_to(SET_TO_V) || set_to(SET_TO_M),
            WithIsolated => set_to(SET_TO_V) || set_to(ISOLATED),
            WithR => set_to(SET_TO_V) || set_to(SET_TO_R),
            WithWorking => vehicle.setting == SET_TO_V,
            WagonsAlone => set_to(SET_TO_V) && vehicle.kind == WAGON,
            NotHeld => set_to(SET_TO_V),
        }
    }

    /// The length over records of any kind.
    pub fn of_records(self, records: &[Record]) -> u32 {
        let vehicles = records.iter().map(Vehicle::read);
        let counted = vehicles.filter(|vehicle| self.counts(vehicle));
        counted.map(|vehicle| u32::from(vehicle.length)).sum()
    }

    /// The length beside engines, as far as an account's figures give it.
    fn of_account(self, engines: &[Record], hauled: &Account) -> Option<u32> {
        match self {
            Whole => Some(hauled.length),
            WithWorking => Some(hauled.length_v + self.of_records(engines)),
            NotHeld => Some(hauled.length_v),
            _ => None,
        }
    }

    fn k(self, length: u32) -> i64 {
        match self {
            // There is no more than all to deduct.
            NotHeld => begun_20_m(length).min(100),
            _ => deduction(length),
        }
    }

    /// The facts of a call with k as it is read so.
    pub fn misread(self, inputs: &Inputs, facts: &Facts) -> Option<Facts> {
        let hauled_length_v = match inputs {
            Inputs::Train { vehicles, .. } | Inputs::TrainRoute { vehicles, .. } => {
                self.of_records(vehicles.as_chunks().0)
            }
            Inputs::Engines {
                engines, hauled, ..
            }
            | Inputs::AccountRoute {
                engines, hauled, ..
            } => self.of_account(engines.as_chunks().0, &Account::read(hauled)?)?,
            _ => return None,
        };
        Some(Facts {
            hauled_length_v,
            k: self.k(hauled_length_v),
            ..*facts
        })
    }

    fn name(self) -> &'static str {
        match self {
            Whole => "the whole hauled length",
            WithM => "M counted in",
            WithIsolated => "isolated counted in",
            WithR => "R counted in",
            WithWorking => "working engines set to V counted in",
            WagonsAlone => "hauled engines left out",
            NotHeld => "not held at 10",
        }
    }
}

/// What a call that is done answers and writes by these facts: a sheet, or a route's speeds.
pub fn done(inputs: &Inputs, facts: &Facts) -> Option<(u64, Vec<u8>)> {
    match inputs {
        Inputs::Train { order, .. } | Inputs::Engines { order, .. } => {
            Some((0, sheet(facts, &Order::read(order)?)))
        }
        Inputs::TrainRoute { orders, .. } | Inputs::AccountRoute { orders, .. } => {
            let route = granted(facts, &sections(orders).ok()?);
            Some((route_answer(Ok(route.category)), route.speeds))
        }
        _ => None,
    }
}

#[derive(Clone, Copy, Debug, PartialEq, Eq, PartialOrd, Ord)]
enum Met {
    /// Where one of 1 to 3 is asked, so that k is on the sheet: a begun 20 m, and how far the length stands above it.
    Bound(u32, i8),
    /// The same with no common rule broken, and another k by the whole hauled length.
    Apart(u32, i8),
    /// The reading would write another sheet, account or route.
    Shows(Reading),
    /// It would grant another category.
    Grants(Reading),
    /// No list has the account, this category is asked, and k not held at 10 would brake less.
    Held(u8),
    /// This category breaks no rule, and with k not held at 10 it would break 47.
    Breaks47(u8),
    Other(&'static str),
}

const ABOVE_LENGTH: &str = "a V length above the length";
const WITHOUT_AXLES: &str = "a V length without axles set to V";
const BOTH: &str = "joined, both above 0";
const AT_CEILING: &str = "joined at its ceiling";
const PAST_CEILING: &str = "joined one past its ceiling, and nothing else is";

/// A V length's ceiling in an account.
const CEILING: u32 = 200_000;

fn demanded(function: Function) -> Vec<Met> {
    match function {
        Function::SheetOfTrain => {
            let shows = OF_TRAINS.into_iter().chain(OF_SHEETS).map(Met::Shows);
            let grants = OF_TRAINS.map(Met::Grants);
            // Above 680 m the whole length has the same k, 10.
            let apart = bounds(Met::Apart).filter(|met| !matches!(met, Met::Apart(7_000, _)));
            let apart = apart.filter(|&met| met != Met::Apart(6_800, 1));
            let bounds = bounds(Met::Bound).chain(apart);
            bounds.chain(shows).chain(grants).collect()
        }
        Function::SheetOfAccount => {
            let both = bounds(Met::Bound).chain(bounds(Met::Apart));
            let readings = OF_ACCOUNTS.into_iter();
            let readings = readings.flat_map(|one| [Met::Shows(one), Met::Grants(one)]);
            let others = [ABOVE_LENGTH, WITHOUT_AXLES].map(Met::Other);
            let held = (1..=3).flat_map(|one| [Met::Held(one), Met::Breaks47(one)]);
            let held = held.chain(others);
            both.chain(readings).chain(held).collect()
        }
        Function::AccountOf => OF_PORTIONS.map(Met::Shows).to_vec(),
        Function::Join => [BOTH, AT_CEILING, PAST_CEILING].map(Met::Other).to_vec(),
        Function::RouteOfTrain => OF_TRAINS.map(Met::Shows).to_vec(),
        Function::RouteOfAccount => OF_ACCOUNTS.map(Met::Shows).to_vec(),
        Function::HoldsTheSpeed => vec![],
    }
}

/// Every wrong reading with the functions that have to show it.
pub fn shown_by_function() -> Vec<(Function, Reading)> {
    let mut shown = vec![];
    for function in FUNCTIONS {
        for met in demanded(function) {
            if let Met::Shows(reading) = met {
                shown.push((function, reading));
            }
        }
    }
    shown
}

fn bounds(met: fn(u32, i8) -> Met) -> impl Iterator<Item = Met> {
    let all = BOUNDS.into_iter();
    all.flat_map(move |bound| [-1, 0, 1].map(|above| met(bound, above)))
}

impl Met {
    fn kind(self) -> String {
        match self {
            Met::Bound(..) => "V length about 5,000, 5,200 ... 7,000".to_owned(),
            Met::Apart(..) => "the same, the whole hauled length has another k".to_owned(),
            Met::Shows(reading) => format!("would show: {}", reading.name()),
            Met::Grants(reading) => format!("would grant another: {}", reading.name()),
            Met::Held(_) => "no list's V length, k held at 10, by the asked one".to_owned(),
            Met::Breaks47(_) => "no rule, but 47 with k not held at 10, by category".to_owned(),
            Met::Other(name) => name.to_owned(),
        }
    }
}

#[derive(Clone, Default)]
pub struct Lengths {
    tally: Tally<Met>,
}

impl Lengths {
    /// The facts are those of a train, or of engines with an account, that is not refused.
    pub fn note(&mut self, call: &Call, refusals: &[u8], facts: Option<&Facts>) {
        match (&call.inputs, refusals, facts) {
            (Inputs::Portion { portion }, [], _) => self.note_portion(portion.as_chunks().0),
            (Inputs::Accounts { left, right }, [] | [2], _) => {
                self.note_joined(left, right);
            }
            (inputs, [], Some(facts)) if Book::of(inputs.orders()) == Book::CrossBorder => {
                self.note_facts(call.function(), inputs, facts);
            }
            _ => {}
        }
    }

    fn note_portion(&mut self, records: &[Record]) {
        let length_v = Account::of(records).length_v;
        for reading in OF_PORTIONS {
            if reading.of_records(records) != length_v {
                self.tally.met(Function::AccountOf, Met::Shows(reading));
            }
        }
    }

    /// Of two good accounts.
    fn note_joined(&mut self, left: &[u8], right: &[u8]) {
        let (Some(left), Some(right)) = (Account::read(left), Account::read(right)) else {
            return;
        };
        let without = |account: Account| Account {
            length_v: 0,
            ..account
        };
        let rest = without(left).join(&without(right)).is_ok();
        let sum = left.length_v + right.length_v;
        if rest && left.length_v.min(right.length_v) > 0 {
            let others = [
                (BOTH, sum <= CEILING),
                (AT_CEILING, sum == CEILING),
                (PAST_CEILING, sum == CEILING + 1),
            ];
            for (name, _) in others.into_iter().filter(|(_, holds)| *holds) {
                self.tally.met(Function::Join, Met::Other(name));
            }
        }
    }

    fn note_facts(&mut self, function: Function, inputs: &Inputs, facts: &Facts) {
        let Some(right) = done(inputs, facts) else {
            return;
        };
        let is_sheet = matches!(inputs, Inputs::Train { .. } | Inputs::Engines { .. });
        for reading in OF_TRAINS.into_iter().chain(OF_SHEETS) {
            let wrong = reading.misread(inputs, facts);
            let Some(wrong) = wrong.and_then(|wrong| done(inputs, &wrong)) else {
                continue;
            };
            if wrong != right {
                self.tally.met(function, Met::Shows(reading));
            }
            // Byte 1 of a sheet is the granted category.
            if is_sheet && wrong.1[1] != right.1[1] {
                self.tally.met(function, Met::Grants(reading));
            }
            if is_sheet && reading == NotHeld {
                self.note_held(function, facts, &wrong.1, &right.1);
            }
        }
        if is_sheet && matches!(right.1[0], 1..=3) {
            self.note_bounds(function, facts);
        }
        if let Inputs::Engines { hauled, .. } = inputs {
            self.note_unlisted(function, hauled);
        }
    }

    fn note_bounds(&mut self, function: Function, facts: &Facts) {
        let (length_v, whole) = (facts.hauled_length_v, facts.hauled_length);
        let apart = common_rule(facts) == 0 && deduction(whole) != deduction(length_v);
        for bound in BOUNDS {
            let above = i64::from(length_v) - i64::from(bound);
            if let above @ -1..=1 = above {
                self.tally.met(function, Met::Bound(bound, above as i8));
                if apart {
                    self.tally.met(function, Met::Apart(bound, above as i8));
                }
            }
        }
    }

    /// Of the sheet with k not held at 10 and the right one.
    fn note_held(&mut self, function: Function, facts: &Facts, wrong: &[u8], right: &[u8]) {
        let braked = |sheet: &[u8]| sheet[24..28].to_vec();
        if facts.hauled_length_v > facts.hauled_length && braked(wrong) != braked(right) {
            self.tally.met(function, Met::Held(right[0]));
        }
        for (category, rules) in (1..).zip(wrong[4..9].iter().zip(&right[4..9])) {
            if rules == (&47, &0) {
                self.tally.met(function, Met::Breaks47(category));
            }
        }
    }

    /// Accounts that no list has.
    fn note_unlisted(&mut self, function: Function, hauled: &[u8]) {
        let Some(account) = Account::read(hauled) else {
            return;
        };
        if account.length_v > account.length {
            self.tally.met(function, Met::Other(ABOVE_LENGTH));
        }
        if account.length_v > 0 && account.axles_v == 0 {
            self.tally.met(function, Met::Other(WITHOUT_AXLES));
        }
    }

    pub fn add(&mut self, other: &Lengths) {
        self.tally.add(&other.tally);
    }

    pub fn missing(&self, scope: Scope) -> Vec<String> {
        let missing = self.tally.missing(scope, demanded).into_iter();
        let text = |(function, met): (Function, Met)| format!("{} {met:?}", function.name());
        missing.map(text).collect()
    }

    /// For each kind how many different ones there are, how often they came and how often the rarest.
    pub fn table(&self, scope: Scope) -> String {
        let mut text = String::from("the length that k counts: how many such, all, the rarest\n");
        for (function, kind, counts) in self.tally.kinds(scope, demanded, Met::kind) {
            let all: u64 = counts.iter().sum();
            let rarest = counts.iter().min().copied().unwrap_or(0);
            let _ = writeln!(
                text,
                "  {:<16} {kind:<58} {:>3} {all:>9} {rarest:>9}",
                function.name(),
                counts.len()
            );
        }
        text
    }
}

#[cfg(test)]
mod tests {
    use super::*;
    use crate::gen::cases::case_a;
    use crate::vehicle::HAULED_ENGINE;

    /// A working and a hauled engine set to V, then wagons isolated, in M, in V and in R.
    fn records() -> Vec<Record> {
        let wagon = case_a().hauled[0];
        let parts = [
            (WORKING_ENGINE, SET_TO_V, 1),
            (HAULED_ENGINE, SET_TO_V, 10),
            (WAGON, ISOLATED, 20),
            (WAGON, SET_TO_M, 40),
            (WAGON, SET_TO_V, 80),
            (WAGON, SET_TO_R, 160),
        ];
        let vehicles = parts.map(|(kind, setting, length)| Vehicle {
            kind,
            setting,
            length,
            ..wagon
        });
        vehicles.iter().map(Vehicle::write).collect()
    }

    #[test]
    fn each_reading_counts_what_it_says() {
        let records = records();
        assert_eq!(Account::of(&records[1..]).length_v, 90);
        let lengths = [
            (Whole, 310),
            (WithM, 130),
            (WithIsolated, 110),
            (WithR, 250),
            (WithWorking, 91),
            (WagonsAlone, 80),
            (NotHeld, 90),
        ];
        for (reading, length) in lengths {
            assert_eq!(reading.of_records(&records), length, "{reading:?}");
        }
    }

    #[test]
    fn k_not_held_goes_on_to_all() {
        let lengths = [
            (6_801, 10),
            (7_000, 10),
            (7_001, 11),
            (7_201, 12),
            (25_000, 100),
            (25_001, 100),
        ];
        for (length, k) in lengths {
            assert_eq!(NotHeld.k(length), k, "{length}");
            assert_eq!(Whole.k(length), 10, "{length}");
        }
    }

    #[test]
    fn what_is_not_met_is_missing() {
        let missing = Lengths::default().missing(Scope::Functions);
        let sheets = (33 + 29 + 7 + 5) + (33 + 33 + 2 * 3 + 3 + 3 + 2);
        assert_eq!(missing.len(), sheets + 5 + 3 + 5 + 3);
    }
}
