//! The page of ranges held against the model and the library: numbers about both ends of every field, in every record that is read.

use std::fmt::Write;
use std::fs;

use crate::answer::parts;
use crate::book::Book;
use crate::call::{Call, Function, Inputs, Side, FUNCTIONS};
use crate::diff::{shown, Case, Report};
use crate::gen::damage::Span;
use crate::gen::draft::Draft;
use crate::gen::numbers::{seated, two_engines};
use crate::numbers::{seats, Seat};
use crate::page::{rows, thousands, RecordOf, Row};
use crate::random::Random;
use crate::route::ASKED;
use crate::vehicle::{closes, Vehicle, NUMBERS};

/// The good trains that numbers are set in: so many, drawn from this seed.
const TRAINS: u64 = 4;
const SEED: u64 = 4;

/// A first section, an inner one and the last.
const SECTIONS: usize = 3;

/// What has to be met of a row, with the number that meets it if there is one.
type Edge = (&'static str, Option<u64>);

impl Row {
    fn is_vehicle_number(&self) -> bool {
        self.of == RecordOf::Vehicle && self.span.at == 0
    }

    /// Of vehicle numbers those count that close.
    fn counts(&self, value: u64) -> bool {
        !self.is_vehicle_number() || closes(value)
    }

    /// Whether the page lets a record have a number.
    fn takes(&self, value: u64) -> bool {
        self.span.has(value) && self.counts(value)
    }

    fn edges(&self) -> Vec<Edge> {
        let Span { low, high, .. } = self.span;
        let greatest = self.span.greatest();
        let counts = |value: &u64| self.counts(*value);
        let mut edges = vec![
            ("not refused at its low end", (low..=high).find(counts)),
            ("not refused at its high end", (low..=high).rfind(counts)),
        ];
        if low > 0 {
            edges.push(("refused below its low end", (0..low).rfind(counts)));
        }
        if high < greatest {
            let above = (high + 1..=greatest).find(counts);
            edges.push(("refused above its high end", above));
        }
        edges
    }

    /// The numbers that are tried: also those next to both ends, and each byte's lowest and highest bit alone.
    fn values(&self) -> Vec<u64> {
        let (span, greatest) = (self.span, self.span.greatest());
        let mut values = vec![0, greatest];
        values.extend(self.edges().iter().filter_map(|(_, value)| *value));
        for end in [span.low, span.high] {
            values.extend([end.saturating_sub(1), end, end.saturating_add(1)]);
        }
        for byte in 0..span.width {
            values.extend([1, 0x80].map(|bit: u64| bit << (8 * byte)));
        }
        values.retain(|&value| value <= greatest);
        values.sort_unstable();
        values.dedup();
        values
    }

    fn places(&self) -> Vec<Place> {
        if self.of == RecordOf::Vehicle {
            return seats().into_iter().map(Place::Vehicle).collect();
        }
        let mut places = vec![];
        for function in FUNCTIONS {
            let sections = match function {
                Function::SheetOfTrain | Function::SheetOfAccount => 1,
                // Later sections that ask for another category than the first are refused for that alone.
                Function::RouteOfTrain | Function::RouteOfAccount if self.span.at == ASKED => 1,
                Function::RouteOfTrain | Function::RouteOfAccount => SECTIONS,
                _ => 0,
            };
            places.extend((0..sections).map(|section| Place::Order(function, section)));
        }
        places
    }
}

/// Where a number is set.
#[derive(Clone, Copy, Debug)]
enum Place {
    Vehicle(Seat),
    /// In the order of a sheet, or of this section and all behind it.
    Order(Function, usize),
}

impl Place {
    fn call(self, draft: &Draft, span: &Span, value: u64) -> Call {
        match self {
            Place::Vehicle(seat) => {
                let mut draft = draft.clone();
                let vehicle = seat.part.vehicle(&mut draft);
                let mut record = vehicle.write();
                span.write(&mut record, value);
                *vehicle = Vehicle::read(&record);
                seated(seat.function, &draft)
            }
            Place::Order(function, first) => {
                let mut sections = [draft.order.write(); SECTIONS];
                for section in &mut sections[first..] {
                    span.write(section, value);
                }
                let mut call = seated(function, draft);
                match &mut call.inputs {
                    Inputs::Train { order, .. } | Inputs::Engines { order, .. } => {
                        *order = sections[0].to_vec();
                    }
                    Inputs::TrainRoute { orders, .. } | Inputs::AccountRoute { orders, .. } => {
                        *orders = sections.as_flattened().to_vec();
                    }
                    _ => {}
                }
                call
            }
        }
    }

    /// Whether an answer is the one that the page asks for. A number that it takes may still be refused for something else.
    fn is_due(self, draft: &Draft, taken: bool, answer: u64) -> bool {
        let (number, _, _) = parts(answer);
        match self {
            Place::Vehicle(seat) if taken => number != 3 && !seat.is_due(draft, false, answer),
            Place::Vehicle(seat) => seat.is_due(draft, false, answer),
            Place::Order(..) if taken => number != 4,
            Place::Order(_, section) => answer == 4 + 256 * section as u64,
        }
    }
}

/// A row with what its trials have met.
struct Tally {
    row: Row,
    /// Trials that were refused by 3 or 4, as is due, and those that were not.
    counts: [u64; 2],
    unmet: Vec<Edge>,
}

/// What holding a page has given.
#[derive(Default)]
pub struct Held {
    tallies: Vec<Tally>,
    report: Report,
}

/// Reads a page from its file and holds it.
pub fn hold_file<S: Side>(library: &S, file: &str) -> Result<Held, String> {
    let page = fs::read_to_string(file).map_err(|error| error.to_string());
    let rows = page.and_then(|page| rows(&page));
    let rows = rows.map_err(|fault| format!("{file}: {fault}"))?;
    Ok(hold(library, rows))
}

pub fn hold<S: Side>(library: &S, rows: Vec<Row>) -> Held {
    let mut held = Held::default();
    for row in rows {
        let trains: Vec<Draft> = (0..TRAINS).map(|index| train(row.of, index)).collect();
        if row.is_vehicle_number() && (row.span.low..=row.span.high) != NUMBERS {
            // Most numbers next to its ends do not close, so that no answer would tell.
            let wrong = format!("  the model has {NUMBERS:?}\n");
            held.report.close(format_args!("{}", row.field), &[wrong]);
        }
        let (counts, unmet) = ([0; 2], row.edges());
        let mut tally = Tally { row, counts, unmet };
        for place in tally.row.places() {
            for draft in &trains {
                tally.try_values(library, place, draft, &mut held.report);
            }
        }
        held.tallies.push(tally);
    }
    held
}

/// A good train whose order is none of the other book: byte 6 or 16 keeps it from that.
fn train(of: RecordOf, index: u64) -> Draft {
    let book = match of {
        RecordOf::Vehicle | RecordOf::Order => Book::CrossBorder,
        RecordOf::Domestic => Book::Domestic,
    };
    let mut draft = two_engines(&mut Random::for_case(SEED, index), book);
    let order = &mut draft.order;
    match book {
        Book::CrossBorder => order.percentage = order.percentage.max(1),
        Book::Domestic => order.me140 = order.me140.max(1),
    }
    draft
}

impl Tally {
    /// Sets all the numbers of a row at one place of one train.
    fn try_values<S: Side>(
        &mut self,
        library: &S,
        place: Place,
        draft: &Draft,
        report: &mut Report,
    ) {
        let row = &self.row;
        for value in row.values() {
            let taken = row.takes(value);
            let call = place.call(draft, &row.span, value);
            let mut case = Case::new(library, report);
            let (answer, _) = case.compare(&call);
            if place.is_due(draft, taken, answer) {
                self.counts[usize::from(taken)] += 1;
                self.unmet.retain(|&(_, edge)| edge != Some(value));
            } else {
                let text = format!("  not what the page asks for: {}\n", shown(answer));
                case.wrong.push(text + &call.describe());
            }
            let wrong = case.wrong;
            report.close(format_args!("{} {value}, {place:?}", row.field), &wrong);
        }
    }
}

impl Held {
    pub fn is_good(&self) -> bool {
        self.report.differences == 0 && self.missing().is_empty()
    }

    fn missing(&self) -> Vec<String> {
        let mut missing = vec![];
        for Tally { row, unmet, .. } in &self.tallies {
            let unmet = unmet.iter();
            missing.extend(unmet.map(|(edge, _)| format!("{:?} {} {edge}", row.of, row.bytes())));
        }
        missing
    }

    pub fn text(&self) -> String {
        let mut text = String::from("ranges: bytes, low, high; trials refused by 3 or 4, others\n");
        for Tally { row, counts, .. } in &self.tallies {
            let (of, field, bytes) = (format!("{:?}", row.of), &row.field, row.bytes());
            let [low, high] = [row.span.low, row.span.high].map(thousands);
            let _ = write!(text, "  {of:<9}{field:<50}{bytes:>6}{low:>4}{high:>17}");
            let _ = writeln!(text, "{:>7}{:>7}", counts[0], counts[1]);
        }
        for what in self.missing() {
            let _ = writeln!(text, "never met: {what}");
        }
        text += &self.report.shown.concat();
        let (trials, ranges) = (self.report.calls, self.tallies.len());
        let differences = self.report.differences;
        text + &format!("{trials} trials of {ranges} ranges, {differences} differences\n")
    }
}

#[cfg(test)]
mod tests {
    use super::*;
    use crate::call::Model;
    use crate::numbers::Part;
    use crate::page::tests::{page_rows, replaced, PAGE};

    #[test]
    fn the_page_is_the_model_s() {
        let held = hold(&Model, page_rows());
        assert!(held.is_good(), "{}", held.text());
        let counts: Vec<u64> = held.tallies.iter().flat_map(|one| one.counts).collect();
        assert!(!counts.contains(&0), "{}", held.text());
        let trials: u64 = counts.iter().sum();
        let closing = format!("\n{trials} trials of 38 ranges, 0 differences\n");
        assert!(held.text().ends_with(&closing), "{}", held.text());
    }

    /// Every function with every part or section that it reads; what is asked changes on all sections at once.
    #[test]
    fn every_place_is_tried() {
        for row in page_rows() {
            let places = match (row.of, row.span.at) {
                (RecordOf::Vehicle, _) => 3 * 5 + 2 * 2 + 3,
                (_, 5) => 4,
                (_, _) => 2 + 2 * 3,
            };
            assert_eq!(row.places().len(), places, "{}", row.line());
        }
    }

    #[test]
    fn numbers_about_both_ends_are_tried() {
        let mass = [0, 1, 2, 128, 256, 2_499, 2_500, 2_501, 32_768, 65_535];
        assert_eq!(page_rows()[1].values(), mass);
        let number = page_rows()[0].values();
        let ends = [0, 18, 999_999_999_991, 1_000_000_000_000];
        assert!(ends.iter().all(|end| number.contains(end)));
    }

    #[test]
    fn a_refusal_is_due_with_its_place() {
        let draft = two_engines(&mut Random::new(SEED), Book::CrossBorder);
        let (function, part) = (Function::SheetOfTrain, Part::SecondEngine);
        let engine = Place::Vehicle(Seat { function, part });
        let section = Place::Order(Function::RouteOfTrain, 2);
        for (place, refused) in [(engine, 3 + 256), (section, 4 + 2 * 256)] {
            let answers = [0, refused, refused - 256];
            let due = |taken| answers.map(|answer| place.is_due(&draft, taken, answer));
            assert_eq!(due(false), [false, true, false], "{place:?}");
            assert_eq!(due(true), [true, false, false], "{place:?}");
        }
    }

    /// On the page with other ends for some of its rows, if it is not refused.
    fn differences(slips: &[(&Row, Row)]) -> Result<u64, String> {
        let mut page = PAGE.to_owned();
        for (row, slipped) in slips {
            page = replaced(&page, row, slipped);
        }
        Ok(hold(&Model, rows(&page)?).report.differences)
    }

    #[test]
    fn an_end_moved_by_one_shows() {
        let mut planted = 0;
        for row in &page_rows() {
            for slipped in row.moved() {
                let line = slipped.line();
                let found = differences(&[(row, slipped)]).expect("the page stays well-formed");
                assert!(found > 0, "{line}");
                planted += 1;
            }
        }
        assert_eq!(planted, 42 + 32 + 36);
    }

    /// Where the other's bytes cannot hold an end the page is refused.
    #[test]
    fn ends_of_two_neighbours_exchanged_show() {
        let mut planted = 0;
        for pair in page_rows().windows(2) {
            let [one, other] = pair else { continue };
            let [ends, others] = [one, other].map(|row| (row.span.low, row.span.high));
            if one.of == other.of && ends != others {
                let exchanged = [(one, one.with(others)), (other, other.with(ends))];
                assert_ne!(differences(&exchanged), Ok(0), "{}", one.line());
                planted += 1;
            }
        }
        assert_eq!(planted, 10 + 5 + 6);
    }

    #[test]
    fn an_end_that_is_not_met_is_told() {
        let mass = &page_rows()[1];
        let missing = |low, high| hold(&Model, vec![mass.with((low, high))]).missing();
        assert!(missing(1, 2_500).is_empty());
        let moved = [(0, 2_500), (2, 2_500), (1, 2_499), (1, 2_501)];
        let told = moved.map(|(low, high)| missing(low, high).join(", "));
        let edges = [
            "Vehicle 8-9 not refused at its low end",
            "Vehicle 8-9 refused below its low end",
            "Vehicle 8-9 refused above its high end",
            "Vehicle 8-9 not refused at its high end",
        ];
        assert_eq!(told, edges);
    }
}
