//! What vehicle numbers have met: another digit in every place, every two neighbours exchanged, the ends of the range, at every seat.

use std::collections::BTreeMap;
use std::fmt::Write;

use crate::call::{Call, Function, Inputs, FUNCTIONS};
use crate::coverage::Scope;
use crate::gen::draft::Draft;
use crate::gen::numbers::{changed, exchanged, ENDS, GREATEST, LEAST, PAST};
use crate::precedence::refusals;
use crate::vehicle::{digits, first_bad, Record, Vehicle, DIGITS};

/// The record of a train whose number is tried.
#[derive(Clone, Copy, Debug, PartialEq, Eq, PartialOrd, Ord)]
pub enum Part {
    FirstEngine,
    SecondEngine,
    FirstHauled,
    InnerHauled,
    LastHauled,
}

pub const PARTS: [Part; 5] = [
    Part::FirstEngine,
    Part::SecondEngine,
    Part::FirstHauled,
    Part::InnerHauled,
    Part::LastHauled,
];

/// A function with one of the parts that it reads.
#[derive(Clone, Copy, Debug, PartialEq, Eq, PartialOrd, Ord)]
pub struct Seat {
    pub function: Function,
    pub part: Part,
}

pub fn seats() -> Vec<Seat> {
    let mut seats = vec![];
    for function in FUNCTIONS {
        let parts = match function {
            Function::SheetOfTrain | Function::RouteOfTrain | Function::HoldsTheSpeed => &PARTS[..],
            Function::SheetOfAccount | Function::RouteOfAccount => &PARTS[..2],
            Function::AccountOf => &PARTS[2..],
            Function::Join => &[],
        };
        seats.extend(parts.iter().map(|&part| Seat { function, part }));
    }
    seats
}

impl Part {
    /// The vehicle of a train of two engines and at least three hauled.
    pub fn vehicle(self, draft: &mut Draft) -> &mut Vehicle {
        let last = draft.hauled.len() - 1;
        match self {
            Part::FirstEngine => &mut draft.working[0],
            Part::SecondEngine => &mut draft.working[1],
            Part::FirstHauled => &mut draft.hauled[0],
            Part::InnerHauled => &mut draft.hauled[last / 2],
            Part::LastHauled => &mut draft.hauled[last],
        }
    }
}

impl Seat {
    /// The vehicle's place among the records that the function reads.
    fn place(self, draft: &Draft) -> u64 {
        let last = draft.hauled.len() as u64 - 1;
        let engines = match self.function {
            Function::AccountOf => 0,
            _ => draft.working.len() as u64,
        };
        match self.part {
            Part::FirstEngine => 0,
            Part::SecondEngine => 1,
            Part::FirstHauled => engines,
            Part::InnerHauled => engines + last / 2,
            Part::LastHauled => engines + last,
        }
    }

    /// Whether an answer is the one that a good or a bad number asks for, everything else being good.
    pub fn is_due(self, draft: &Draft, good: bool, answer: u64) -> bool {
        match (good, self.function) {
            (true, function) => function.is_done(answer),
            (false, Function::HoldsTheSpeed) => answer == 0,
            (false, _) => answer == 3 + 256 * self.place(draft),
        }
    }
}

/// How a number came about; places are counted from 1 and from the left.
#[derive(Clone, Copy, Debug, PartialEq, Eq, PartialOrd, Ord)]
pub enum Met {
    /// It closes, and without leading zeros it has so many digits.
    Closes(usize),
    /// In this place of a number that closes the second digit stands for the first.
    Changed(usize, u64, u64),
    /// In this place and the next of a number that closes these two digits are exchanged.
    Exchanged(usize, u64, u64),
    /// One of the numbers about the ends of the range.
    End(u64),
}

impl Met {
    fn kind(self) -> &'static str {
        match self {
            Met::Closes(_) => "a number that closes, of 2 to 12 digits",
            Met::Changed(DIGITS, ..) => "another last digit",
            Met::Changed(..) => "another digit in places 1 to 11",
            Met::Exchanged(_, 0, 9) | Met::Exchanged(_, 9, 0) => "0 and 9 exchanged, still good",
            Met::Exchanged(..) => "two other neighbours exchanged",
            Met::End(0) => "0",
            Met::End(LEAST) => "the least that closes, 18",
            Met::End(GREATEST) => "the greatest that closes, 999,999,999,991",
            Met::End(999_999_999_999) => "999,999,999,999, which does not close",
            Met::End(PAST..) => "past twelve digits",
            Met::End(_) => "next to the least or the greatest",
        }
    }
}

/// A number to be tried, and whether it is good.
pub struct Attempt {
    pub met: Met,
    pub number: u64,
    pub good: bool,
}

/// A number that closes, all that one slip makes of it, and the ends of the range.
pub fn attempts(number: u64) -> Vec<Attempt> {
    let digits = digits(number);
    let zeros = digits.iter().take_while(|&&digit| digit == 0).count();
    let mut attempts = vec![];
    let mut add = |met, number, good| attempts.push(Attempt { met, number, good });
    add(Met::Closes(DIGITS - zeros), number, true);
    for (place, from) in (1..).zip(digits) {
        for to in (0..10).filter(|&to| to != from) {
            let met = Met::Changed(place, from, to);
            add(met, changed(number, place, to), false);
        }
    }
    for (place, pair) in (1..).zip(digits.windows(2)) {
        if let [left, right] = *pair {
            // 0 and 9 count the same doubled or not; of any other two the exchange moves the sum.
            let good = [(0, 9), (9, 0)].contains(&(left, right));
            if left != right {
                let met = Met::Exchanged(place, left, right);
                add(met, exchanged(number, place), good);
            }
        }
    }
    for (end, good) in ENDS {
        add(Met::End(end), end, good);
    }
    attempts
}

/// What a run has to meet.
fn demanded() -> Vec<Met> {
    let mut demanded: Vec<Met> = (2..=DIGITS).map(Met::Closes).collect();
    for one in 0..10 {
        for other in (0..10).filter(|&other| other != one) {
            demanded.extend((1..=DIGITS).map(|place| Met::Changed(place, one, other)));
            demanded.extend((1..DIGITS).map(|place| Met::Exchanged(place, one, other)));
        }
    }
    demanded.extend(ENDS.map(|(end, _)| Met::End(end)));
    demanded.sort_unstable();
    demanded
}

/// What a call that is refused by 3 alone has for the first bad number, and what one that is done has among its numbers.
const SEEN: [&str; 7] = [
    "0",
    "does not close",
    "past twelve digits",
    "done with 18",
    "with 999999999991",
    "with leading zeros",
    "with twelve digits",
];

#[derive(Clone, Default)]
pub struct Numbers {
    seen: [[u64; SEEN.len()]; FUNCTIONS.len()],
    tried: BTreeMap<Met, u64>,
    seated: BTreeMap<(Seat, &'static str), u64>,
}

impl Numbers {
    pub fn note(&mut self, call: &Call, refusals: &[u8]) {
        let seen = &mut self.seen[call.function() as usize];
        let records = records(call);
        match refusals {
            [3] => {
                let bad = first_bad(records).map(|place| Vehicle::read(&records[place]));
                if let Some(bad) = bad.filter(bad_by_number) {
                    seen[refused_as(bad.number)] += 1;
                }
            }
            [] => {
                let has = |held: fn(u64) -> bool| {
                    let mut numbers = records.iter().map(|one| Vehicle::read(one).number);
                    u64::from(numbers.any(held))
                };
                seen[3] += has(|number| number == LEAST);
                seen[4] += has(|number| number == GREATEST);
                seen[5] += has(|number| number < PAST / 10);
                seen[6] += has(|number| number >= PAST / 10);
            }
            _ => {}
        }
    }

    /// Counts what was tried and got the answer that is due.
    pub fn tried(&mut self, seat: Seat, met: Met) {
        *self.tried.entry(met).or_default() += 1;
        *self.seated.entry((seat, met.kind())).or_default() += 1;
    }

    pub fn add(&mut self, other: &Numbers) {
        let ours = self.seen.as_flattened_mut().iter_mut();
        for (count, more) in ours.zip(other.seen.as_flattened()) {
            *count += more;
        }
        for (met, more) in &other.tried {
            *self.tried.entry(*met).or_default() += more;
        }
        for (seat, more) in &other.seated {
            *self.seated.entry(*seat).or_default() += more;
        }
    }

    pub fn missing(&self, scope: Scope) -> Vec<String> {
        let mut missing = vec![];
        for function in reading(scope) {
            for (what, _) in self.row(function).filter(|&(_, count)| count == 0) {
                missing.push(format!("{} vehicle number {what}", function.name()));
            }
        }
        if scope == Scope::Functions {
            let untried = demanded().into_iter();
            let untried = untried.filter(|met| !self.tried.contains_key(met));
            missing.extend(untried.map(|met| format!("vehicle number {met:?}")));
            for seat in seats() {
                let unseated = kinds().into_iter();
                let unseated = unseated.filter(|&kind| self.at(seat, kind) == 0);
                missing.extend(unseated.map(|kind| format!("vehicle number {seat:?} {kind}")));
            }
        }
        missing
    }

    fn row(&self, function: Function) -> impl Iterator<Item = (&'static str, u64)> + '_ {
        SEEN.into_iter().zip(self.seen[function as usize])
    }

    fn at(&self, seat: Seat, kind: &'static str) -> u64 {
        self.seated.get(&(seat, kind)).copied().unwrap_or(0)
    }

    pub fn table(&self, scope: Scope) -> String {
        let mut text = String::from(
            "vehicle numbers: the first bad one where 3 alone applies; done with such\n",
        );
        for function in reading(scope) {
            let row = self.row(function);
            let row: Vec<String> = row
                .map(|(what, count)| format!("{what}: {count}"))
                .collect();
            let _ = writeln!(text, "  {:<17} {}", function.name(), row.join("  "));
        }
        if scope == Scope::Functions {
            text += &self.tried_table();
        }
        text
    }

    /// For each kind how many different ones there are, how often they came, how often the rarest, and how often at the rarest seat.
    fn tried_table(&self) -> String {
        let seats = seats();
        let mut text = format!(
            "vehicle numbers tried at {} seats: how many such, all, the rarest, at the rarest seat\n",
            seats.len()
        );
        for kind in kinds() {
            let of_kind = demanded().into_iter().filter(|met| met.kind() == kind);
            let count = |met| self.tried.get(&met).copied().unwrap_or(0);
            let counts: Vec<u64> = of_kind.map(count).collect();
            let all: u64 = counts.iter().sum();
            let rarest = counts.iter().min().copied().unwrap_or(0);
            let seat = seats.iter().map(|&seat| self.at(seat, kind)).min();
            let _ = writeln!(
                text,
                "  {kind:<42} {:>5} {all:>9} {rarest:>7} {:>7}",
                counts.len(),
                seat.unwrap_or(0)
            );
        }
        text
    }
}

fn kinds() -> Vec<&'static str> {
    let mut kinds = vec![];
    for kind in demanded().into_iter().map(Met::kind) {
        if !kinds.contains(&kind) {
            kinds.push(kind);
        }
    }
    kinds
}

/// The functions that give refusal 3.
fn reading(scope: Scope) -> impl Iterator<Item = Function> {
    let functions = scope.functions().iter().copied();
    functions.filter(|&function| refusals(function).contains(&3))
}

/// The vehicles of a call that can be refused by 3.
fn records(call: &Call) -> &[Record] {
    match &call.inputs {
        Inputs::Train { vehicles, .. } | Inputs::TrainRoute { vehicles, .. } => {
            vehicles.as_chunks().0
        }
        Inputs::Engines { engines, .. } | Inputs::AccountRoute { engines, .. } => {
            engines.as_chunks().0
        }
        Inputs::Portion { portion } => portion.as_chunks().0,
        Inputs::Accounts { .. } | Inputs::Portions { .. } => &[],
    }
}

/// With another number it would be good.
fn bad_by_number(vehicle: &Vehicle) -> bool {
    let number = LEAST;
    Vehicle { number, ..*vehicle }.is_good()
}

/// The place in the table of a number that is out of range.
fn refused_as(number: u64) -> usize {
    match number {
        0 => 0,
        1..PAST => 1,
        PAST.. => 2,
    }
}
