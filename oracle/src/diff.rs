//! The library against the model: answers and every byte of the lent buffers.

use std::fmt::Arguments;
use std::sync::atomic::{AtomicU64, Ordering};

use crate::account::ACCOUNT;
use crate::answer::parts;
use crate::book::{Book, BOOKS};
use crate::call::{Call, Inputs, Model, Side, BUFFER};
use crate::coverage::Coverage;
use crate::gen::draft::bytes;
use crate::gen::mixture::{
    cut, engines_call, join_call, order_call, portion_call, speed_call, train_call, Cut,
};
use crate::gen::numbers::{case_number, seated, two_engines};
use crate::gen::routes::{account_route_call, route_call, some_sections, swept_journey, written};
use crate::gen::trains::Size;
use crate::line::hex;
use crate::numbers::{attempts, seats};
use crate::order::ORDER;
use crate::random::Random;
use crate::routes::{swept, Met};
use crate::withdrawal::is_as_before;

/// Differences that are written out; the others are only counted.
const SHOWN: usize = 5;

pub const KINDS: [&str; 19] = [
    "whole trains",
    "portions",
    "joins",
    "cut and grouped lists",
    "engines with an account",
    "holds the speed",
    "routes of whole trains",
    "routes from an account",
    "routes of cut lists",
    "vehicle numbers",
    "domestic whole trains",
    "domestic portions",
    "domestic joins",
    "domestic cut lists",
    "domestic engines",
    "domestic speeds",
    "domestic train routes",
    "domestic account routes",
    "domestic cut routes",
];

/// Where those of the domestic book begin; they stand in the same order.
const DOMESTIC_KINDS: usize = 10;

#[derive(Clone, Default)]
pub struct Report {
    pub kinds: [u64; KINDS.len()],
    pub calls: u64,
    pub differences: u64,
    pub shown: Vec<String>,
    pub coverage: Coverage,
}

impl Report {
    pub fn compared(&self) -> u64 {
        self.kinds.iter().sum()
    }

    pub fn routes(&self) -> u64 {
        let of_books = [&self.kinds[6..9], &self.kinds[DOMESTIC_KINDS + 6..]];
        of_books.into_iter().flatten().sum()
    }

    /// Those of the domestic book.
    pub fn domestic(&self) -> u64 {
        self.kinds[DOMESTIC_KINDS..].iter().sum()
    }

    /// Counts a case that has something wrong, and writes out the first of it.
    pub(crate) fn close(&mut self, name: Arguments, wrong: &[String]) {
        if let Some(first) = wrong.first() {
            self.differences += 1;
            if self.shown.len() < SHOWN {
                self.shown.push(format!("difference: {name}\n{first}"));
            }
        }
    }

    pub fn add(&mut self, other: Report) {
        for (count, more) in self.kinds.iter_mut().zip(other.kinds) {
            *count += more;
        }
        self.calls += other.calls;
        self.differences += other.differences;
        self.shown.extend(other.shown);
        self.shown.truncate(SHOWN);
        self.coverage.add(&other.coverage);
    }
}

/// Every so manieth route is one of those that are swept.
fn swept_each(book: Book) -> u64 {
    match book {
        Book::CrossBorder => 4,
        Book::Domestic => 2,
    }
}

/// Set the seeds of routes, of numbers and of domestic cases apart from that of trains.
const ROUTES: u64 = 0x0064_0064_0064_0064;
const NUMBERS: u64 = 0x0012_0012_0012_0012;
const DOMESTIC: u64 = 0x0006_0006_0006_0006;

/// How many cases of each sort a run has: trains, joins and routes of both books, and vehicle numbers.
#[derive(Clone, Copy, Debug, Default, PartialEq, Eq)]
pub struct Sizes {
    pub trains: [u64; 2],
    pub joins: [u64; 2],
    pub routes: [u64; 2],
    pub numbers: u64,
}

impl Sizes {
    /// Trains, joins, routes and numbers, then domestic trains, joins and routes.
    pub fn of(counts: [u64; 7]) -> Sizes {
        let [trains, joins, routes, numbers, more_trains, more_joins, more_routes] = counts;
        Sizes {
            trains: [trains, more_trains],
            joins: [joins, more_joins],
            routes: [routes, more_routes],
            numbers,
        }
    }

    pub fn cases(&self) -> u64 {
        let of_books = [self.trains, self.joins, self.routes];
        of_books.as_flattened().iter().sum::<u64>() + self.numbers
    }
}

/// A run over cases by their index; joins, routes and numbers have seeds of their own, and so has the domestic book.
pub struct Run<'a, S: Side> {
    pub library: &'a S,
    pub seed: u64,
    pub done: &'a AtomicU64,
}

impl<S: Side> Run<'_, S> {
    pub fn cases(&self, sizes: &Sizes) -> Report {
        self.every(sizes, 0, 1)
    }

    /// The cases whose index leaves this rest, so that several threads can share a run.
    pub fn every(&self, sizes: &Sizes, rest: usize, step: usize) -> Report {
        let some = |end: u64| (0..end).skip(rest).step_by(step);
        let mut report = Report::default();
        for book in BOOKS {
            let of = usize::from(book.byte());
            self.trains(&mut report, book, some(sizes.trains[of]));
            self.joins(&mut report, book, some(sizes.joins[of]));
            self.routes(&mut report, book, some(sizes.routes[of]));
        }
        for index in some(sizes.numbers) {
            let mut random = Random::for_case(self.seed ^ NUMBERS, index);
            let mut case = Case::new(self.library, &mut report);
            case.number_case(&mut random, index);
            let wrong = case.wrong;
            self.close(&mut report, 9, "number", index, wrong);
        }
        report
    }

    fn seed(&self, book: Book) -> u64 {
        match book {
            Book::CrossBorder => self.seed,
            Book::Domestic => self.seed ^ DOMESTIC,
        }
    }

    pub(crate) fn trains(
        &self,
        report: &mut Report,
        book: Book,
        indices: impl Iterator<Item = u64>,
    ) {
        for index in indices {
            let mut random = Random::for_case(self.seed(book), index);
            let mut case = Case::new(self.library, report);
            case.check(&match order_turn(book, index) {
                Some(turn) => order_call(&mut random, turn, false),
                None => train_call(&mut random, book, Size::Any),
            });
            let wrong = case.wrong;
            self.close(report, kind(book, 0), "train", index, wrong);
        }
    }

    pub(crate) fn joins(
        &self,
        report: &mut Report,
        book: Book,
        indices: impl Iterator<Item = u64>,
    ) {
        for index in indices {
            let mut random = Random::for_case(!self.seed(book), index);
            let mut case = Case::new(self.library, report);
            let of = match order_turn(book, index) {
                Some(turn) => {
                    case.check(&order_call(&mut random, turn, true));
                    ENGINES
                }
                None => case.join_case(&mut random, book),
            };
            let wrong = case.wrong;
            self.close(report, kind(book, of), "join", index, wrong);
        }
    }

    pub(crate) fn routes(
        &self,
        report: &mut Report,
        book: Book,
        indices: impl Iterator<Item = u64>,
    ) {
        let swept = swept(book);
        for index in indices {
            let mut random = Random::for_case(self.seed(book) ^ ROUTES, index);
            let mut case = Case::new(self.library, report);
            let of = case.route_case(&mut random, book, &swept, index);
            let wrong = case.wrong;
            self.close(report, kind(book, of), "route", index, wrong);
        }
    }

    fn close(&self, report: &mut Report, kind: usize, name: &str, index: u64, wrong: Vec<String>) {
        report.kinds[kind] += 1;
        self.done.fetch_add(1, Ordering::Relaxed);
        let seed = self.seed;
        let kind = KINDS[kind];
        report.close(
            format_args!("seed {seed}, {kind}, {name} index {index}"),
            &wrong,
        );
    }
}

/// Every fiftieth domestic case has an order with one field out of range, in turn.
fn order_turn(book: Book, index: u64) -> Option<u64> {
    let due = book == Book::Domestic && index.is_multiple_of(50);
    due.then_some(index / 50)
}

/// The place among the kinds of engines with an account.
const ENGINES: usize = 4;

/// The place among the kinds of a case that is of a book.
fn kind(book: Book, of: usize) -> usize {
    match book {
        Book::CrossBorder => of,
        Book::Domestic => DOMESTIC_KINDS + of,
    }
}

/// The calls that belong to one index.
pub(crate) struct Case<'a, S: Side> {
    library: &'a S,
    report: &'a mut Report,
    pub(crate) wrong: Vec<String>,
}

impl<'a, S: Side> Case<'a, S> {
    pub(crate) fn new(library: &'a S, report: &'a mut Report) -> Case<'a, S> {
        Case {
            library,
            report,
            wrong: vec![],
        }
    }

    fn join_case(&mut self, random: &mut Random, book: Book) -> usize {
        let (kind, call) = match random.below(100) {
            0..20 => (1, portion_call(random, book)),
            20..50 if book == Book::CrossBorder => (2, join_call(random)),
            20..25 => (2, join_call(random)),
            50..70 => {
                let cut = cut(random, book);
                let hauled = self.grouped(random, &cut);
                self.both_sheets(&cut, hauled);
                return 3;
            }
            90..100 if book == Book::CrossBorder => (5, speed_call(random)),
            _ => (ENGINES, engines_call(random, book)),
        };
        self.check(&call);
        kind
    }

    /// What is swept comes in turn, first for whole trains and then for accounts.
    fn route_case(&mut self, random: &mut Random, book: Book, swept: &[Met], index: u64) -> usize {
        if index.is_multiple_of(swept_each(book)) {
            let turn = (index / swept_each(book)) as usize;
            let journey = swept_journey(random, book, swept[turn % swept.len()]);
            let fill = random.draw() as u8;
            return match (turn / swept.len()).is_multiple_of(2) {
                true => self.route(6, &journey.of_train(fill)),
                false => self.route(7, &journey.of_account(fill)),
            };
        }
        match random.below(100) {
            0..45 => self.route(6, &route_call(random, book, Size::Any)),
            45..80 => self.route(7, &account_route_call(random, book)),
            _ => {
                let cut = cut(random, book);
                let hauled = self.grouped(random, &cut);
                let orders = written(&some_sections(random, &cut.draft));
                self.both_routes(&cut, hauled, orders);
                8
            }
        }
    }

    /// A number that closes with every slip of one digit or of two neighbours, and the ends of the range, at one seat.
    fn number_case(&mut self, random: &mut Random, index: u64) {
        let seats = seats();
        let seat = seats[index as usize % seats.len()];
        let mut draft = two_engines(random, Book::CrossBorder);
        for attempt in attempts(case_number(random, index)) {
            seat.part.vehicle(&mut draft).number = attempt.number;
            let call = seated(seat.function, &draft);
            let (answer, _) = self.compare(&call);
            if seat.is_due(&draft, attempt.good, answer) {
                self.report.coverage.tried(seat, attempt.met);
            } else {
                let (number, met) = (attempt.number, attempt.met);
                let text = format!("  {seat:?}: not the answer for {number}, {met:?}\n");
                self.wrong.push(text + &call.describe());
            }
        }
    }

    /// A route; one of a single section is held against the sheet too.
    fn route(&mut self, kind: usize, call: &Call) -> usize {
        let (answer, speeds) = self.check(call);
        if call.writes() == 1 && call.function().is_done(answer) {
            let (_, sheet) = self.check(&sheet_call(call));
            if (parts(answer).2, speeds[0]) != (u64::from(sheet[1]), sheet[2]) {
                let text = format!(
                    "  a route of one section is not its sheet\n{}",
                    call.describe()
                );
                self.wrong.push(text);
            }
        }
        kind
    }

    /// Compares both sides, and counts what the model met and gave.
    fn check(&mut self, call: &Call) -> (u64, [u8; BUFFER]) {
        let (model, expected) = self.compare(call);
        self.report.coverage.note(call, model, &expected);
        (model, expected)
    }

    /// Runs both sides, and hands back what the model gave.
    pub(crate) fn compare(&mut self, call: &Call) -> (u64, [u8; BUFFER]) {
        let (model, expected) = call.outcome(&Model);
        let (library, found) = call.outcome(self.library);
        self.report.calls += 1;
        if (model, &expected) != (library, &found) {
            self.wrong.push(format!(
                "  {}\n{}  model   {} {}\n  library {} {}\n",
                call.function().name(),
                call.describe(),
                shown(model),
                hex(&expected),
                shown(library),
                hex(&found),
            ));
        }
        self.check_writing(call, library, &found);
        if !is_as_before(call, model, &expected) {
            let name = call.function().name();
            let text = format!("  {name}: not as under the former list\n");
            self.wrong.push(text + &call.describe());
        }
        (model, expected)
    }

    /// A refused call leaves the buffer as it was, a done one what stands behind the bytes it writes.
    fn check_writing(&mut self, call: &Call, answer: u64, found: &[u8; BUFFER]) {
        let function = call.function();
        let written = match function.is_done(answer) {
            true => call.writes(),
            false => 0,
        };
        if found[written..] != call.buffer()[written..] {
            self.wrong.push(format!(
                "  {}: bytes written that are not to be\n{}  answer {answer}\n  buffer {}\n",
                function.name(),
                call.describe(),
                hex(found),
            ));
        }
    }

    /// The account joined in some grouping, which is the uncut list's.
    fn grouped(&mut self, random: &mut Random, cut: &Cut) -> Vec<u8> {
        let mut accounts: Vec<Vec<u8>> = vec![];
        for portion in &cut.portions {
            accounts.push(self.account_of(portion.clone()));
        }
        while accounts.len() > 1 {
            let place = random.below(accounts.len() - 1);
            let right = accounts.remove(place + 1);
            let left = std::mem::take(&mut accounts[place]);
            accounts[place] = self.joined(left, right);
        }
        let hauled = accounts.remove(0);
        let uncut = self.account_of(bytes(&cut.draft.hauled));
        if hauled != uncut {
            self.wrong.push(format!(
                "  joined account is not the uncut list's\n  joined {}\n  uncut  {}\n",
                hex(&hauled),
                hex(&uncut)
            ));
        }
        hauled
    }

    fn account_of(&mut self, portion: Vec<u8>) -> Vec<u8> {
        self.account(Inputs::Portion { portion })
    }

    fn joined(&mut self, left: Vec<u8>, right: Vec<u8>) -> Vec<u8> {
        self.account(Inputs::Accounts { left, right })
    }

    fn account(&mut self, inputs: Inputs) -> Vec<u8> {
        let call = Call {
            inputs,
            room: ACCOUNT,
            fill: 0x5a,
        };
        let (answer, buffer) = self.check(&call);
        if answer != 0 {
            let name = call.function().name();
            let text = format!("  {name} refused a portion of a list: {}\n", shown(answer));
            self.wrong.push(text + &call.describe());
        }
        buffer[..ACCOUNT].to_vec()
    }

    /// The account gives the sheet of the whole train.
    fn both_sheets(&mut self, cut: &Cut, hauled: Vec<u8>) {
        let draft = &cut.draft;
        self.both(draft.of_train(), draft.of_account(hauled), 40);
    }

    /// And its route.
    fn both_routes(&mut self, cut: &Cut, hauled: Vec<u8>, orders: Vec<u8>) {
        let of_train = Inputs::TrainRoute {
            vehicles: cut.draft.vehicles(),
            orders: orders.clone(),
        };
        let of_account = Inputs::AccountRoute {
            engines: bytes(&cut.draft.working),
            hauled,
            orders,
        };
        self.both(of_train, of_account, 70);
    }

    fn both(&mut self, of_train: Inputs, of_account: Inputs, room: usize) {
        let fill = 0xa5;
        let [train, account] =
            [of_train, of_account].map(|inputs| self.check(&Call { inputs, room, fill }));
        if train != account {
            self.wrong.push(format!(
                "  the account's answer is not the train's\n  train   {} {}\n  account {} {}\n",
                shown(train.0),
                hex(&train.1[..room]),
                shown(account.0),
                hex(&account.1[..room]),
            ));
        }
    }
}

/// The sheet on a route's first section.
fn sheet_call(route: &Call) -> Call {
    let first = |orders: &[u8]| orders[..ORDER].to_vec();
    let inputs = match route.inputs.clone() {
        Inputs::TrainRoute { vehicles, orders } => Inputs::Train {
            vehicles,
            order: first(&orders),
        },
        Inputs::AccountRoute {
            engines,
            hauled,
            orders,
        } => Inputs::Engines {
            engines,
            hauled,
            order: first(&orders),
        },
        other => other,
    };
    Call {
        inputs,
        room: 40,
        fill: route.fill,
    }
}

pub(crate) fn shown(answer: u64) -> String {
    let (number, place, category) = parts(answer);
    format!("number {number} place {place} category {category}")
}

#[cfg(test)]
mod tests {
    use super::*;
    use crate::answer::route_answer;
    use crate::book::CROSS_BORDER;
    use crate::call::{Function, FUNCTIONS};
    use crate::category::Category;
    use crate::facts::Facts;
    use crate::former_list::{former_route, former_sheet};
    use crate::gen::damage::Span;
    use crate::gen::numbers::{LEAST, PAST};
    use crate::lengths::{done, shown_by_function, Reading};
    use crate::order::Order;
    use crate::page::tests::page_rows;
    use crate::page::RecordOf;
    use crate::precedence::refusals;
    use crate::ranges::hold;
    use crate::route::{sections, speeds};
    use crate::vehicle::{digits, is_number, is_working, Vehicle};

    /// The model with one slip of the page's list, or with a write where none is allowed.
    #[derive(Clone, Copy, PartialEq)]
    enum Slip {
        None,
        MarginTowardZero,
        LongestByTheGreater,
        PlaceOffByOne,
        WritesBehind,
        WritesWhenRefused,
        ReadsTwoBytes,
        TakesUnusedBytes,
        TakesLonger,
        RouteByFastest,
        RouteTieByGreater,
        RouteLastLeftOut,
        RoutePlaceOffByOne,
        RouteFiveBeforeFour,
        RouteWritesBehind,
        RouteWritesWhenRefused,
        NumberUnchecked(Function),
        NumberDoublesEven,
        NumberAddsNoDigits,
        NumberWithoutZeros,
        NumberByItsTail,
        NumberTakesZero,
        Length(Function, Reading),
        LengthNotJoined,
        /// 46 still asked by this function, under this number.
        StillAsked(Function, u8),
        /// 47 under the number that is free.
        TakesTheNumber,
        /// A field's range as it is, and as this function reads it.
        Range(Function, RecordOf, [Span; 2]),
    }

    impl Slip {
        /// The bytes as a reader with this slip takes them.
        fn taken(self, account: &[u8]) -> Vec<u8> {
            let mut taken = account.to_vec();
            match self {
                Slip::ReadsTwoBytes if taken.len() == ACCOUNT => {
                    for figure in taken[..56].chunks_exact_mut(4) {
                        figure[2..].fill(0);
                    }
                }
                Slip::TakesUnusedBytes if taken.len() == ACCOUNT => taken[82..].fill(0),
                Slip::TakesLonger => taken.truncate(ACCOUNT),
                _ => {}
            }
            taken
        }

        /// Whether one with this slip takes a vehicle number.
        fn takes(self, function: Function, number: u64) -> bool {
            let in_range = (1..PAST).contains(&number);
            let closes = |digits: &[u64], doubled: usize, ten: u64| {
                let weighed = (1..)
                    .zip(digits)
                    .map(|(place, digit)| match place % 2 == doubled {
                        true => 2 * digit / ten + 2 * digit % ten,
                        false => *digit,
                    });
                in_range && weighed.sum::<u64>() % 10 == 0
            };
            let digits = digits(number);
            let zeros = digits.iter().take_while(|&&digit| digit == 0).count();
            match self {
                Slip::NumberUnchecked(one) if one == function => in_range,
                Slip::NumberDoublesEven => closes(&digits, 0, 10),
                // A double is below a hundred, so it stays as it is.
                Slip::NumberAddsNoDigits => closes(&digits, 1, 100),
                Slip::NumberWithoutZeros => closes(&digits[zeros..], 1, 10),
                Slip::NumberByItsTail => is_number(number % PAST),
                Slip::NumberTakesZero => number == 0 || is_number(number),
                _ => is_number(number),
            }
        }

        /// The vehicles, or the orders, as one with this slip judges a field of theirs.
        fn ranged(self, function: Function, vehicles: bool, records: &[u8]) -> Vec<u8> {
            let mut ranged = records.to_vec();
            let Slip::Range(one, whose, [right, wrong]) = self else {
                return ranged;
            };
            if (one, whose == RecordOf::Vehicle) == (function, vehicles) {
                for record in ranged.chunks_exact_mut(ORDER) {
                    let value = right.read(record);
                    match (wrong.has(value), right.has(value)) {
                        (true, false) => right.write(record, right.low),
                        (false, true) => right.write(record, right.greatest()),
                        _ => {}
                    }
                }
            }
            ranged
        }

        /// The vehicles as one with this slip judges their numbers.
        fn numbered(self, function: Function, vehicles: &[u8]) -> Vec<u8> {
            let mut numbered = self.ranged(function, true, vehicles);
            for record in numbered.as_chunks_mut().0 {
                let mut vehicle = Vehicle::read(record);
                match (
                    self.takes(function, vehicle.number),
                    is_number(vehicle.number),
                ) {
                    (true, false) => vehicle.number = LEAST,
                    (false, true) => vehicle.number = 0,
                    _ => {}
                }
                *record = vehicle.write();
            }
            numbered
        }

        /// A done call as one with this slip reads k, or lists the rules.
        fn misread(self, answer: u64, inputs: Inputs, room: &mut [u8]) -> u64 {
            let call = Call {
                inputs,
                room: 0,
                fill: 0,
            };
            let (function, inputs) = (call.function(), &call.inputs);
            if !function.is_done(answer) {
                return answer;
            }
            let facts = || inputs.facts().expect("a done call has facts");
            let given = match self {
                Slip::Length(one, reading) if one == function => {
                    let facts = reading.misread(inputs, &facts());
                    facts.and_then(|facts| done(inputs, &facts))
                }
                Slip::StillAsked(one, number) if one == function => {
                    still_asked(inputs, &facts(), number)
                }
                Slip::TakesTheNumber => {
                    if let Inputs::Train { .. } | Inputs::Engines { .. } = inputs {
                        renumber(&mut room[4..9], 47, 46);
                    }
                    None
                }
                _ => None,
            };
            let Some((answer, bytes)) = given else {
                return answer;
            };
            room[..bytes.len()].copy_from_slice(&bytes);
            answer
        }

        /// A done route as one with this slip chooses its category.
        fn chosen(self, vehicles: &[u8], orders: &[u8], room: &mut [u8]) -> u64 {
            let records = vehicles.as_chunks().0;
            let leading = records.iter().take_while(|one| is_working(one)).count();
            let facts = Facts::of_train(&records[..leading], &records[leading..]);
            let sections = sections(orders).expect("a done route has good sections");
            let seen = match self {
                Slip::RouteLastLeftOut if sections.len() > 1 => &sections[..sections.len() - 1],
                _ => &sections[..],
            };
            let key = |category: &&Category| {
                let speeds = speeds(&CROSS_BORDER, category, &facts, seen)?;
                let key = match self {
                    Slip::RouteByFastest => speeds.into_iter().max(),
                    _ => speeds.into_iter().min(),
                };
                let number = i16::from(category.number);
                let later = self == Slip::RouteTieByGreater;
                Some((key, if later { number } else { -number }))
            };
            let may_be = &CROSS_BORDER.categories[usize::from(sections[0].asked) - 1..];
            let standing = may_be.iter().filter(|one| key(one).is_some());
            let granted = standing.max_by_key(key);
            for (byte, section) in room.iter_mut().zip(&sections) {
                let speed = granted.and_then(|one| CROSS_BORDER.speed(one, &facts, section));
                *byte = speed.unwrap_or(0);
            }
            granted.map_or(0, |category| u64::from(category.number) << 32)
        }
    }

    impl Side for Slip {
        fn sheet_of_train(&self, vehicles: &[u8], order: &[u8], room: &mut [u8]) -> u64 {
            let vehicles = self.numbered(Function::SheetOfTrain, vehicles);
            let order = self.ranged(Function::SheetOfTrain, false, order);
            let answer = Model.sheet_of_train(&vehicles, &order, room);
            match self {
                Slip::MarginTowardZero if answer == 0 && room[10..13] == [255; 3] => {
                    room[10..13].fill(0);
                }
                Slip::PlaceOffByOne if answer > 256 => return answer - 256,
                Slip::WritesWhenRefused if answer == 14 => room[31] = 0,
                _ => {}
            }
            self.misread(answer, Inputs::Train { vehicles, order }, room)
        }

        fn account_of(&self, portion: &[u8], room: &mut [u8]) -> u64 {
            let portion = self.numbered(Function::AccountOf, portion);
            let answer = Model.account_of(&portion, room);
            match self {
                Slip::WritesBehind if answer == 0 && room.len() > ACCOUNT => room[ACCOUNT] = 0,
                Slip::Length(Function::AccountOf, reading) if answer == 0 => {
                    let length = reading.of_records(portion.as_chunks().0);
                    room[69..73].copy_from_slice(&length.to_le_bytes());
                }
                _ => {}
            }
            answer
        }

        fn join(&self, left: &[u8], right: &[u8], room: &mut [u8]) -> u64 {
            let answer = Model.join(left, &self.taken(right), room);
            if *self == Slip::LongestByTheGreater && answer == 0 {
                // Byte 52 holds the whole of a longest run.
                room[52] = left[52].max(right[52]);
            }
            if *self == Slip::LengthNotJoined && answer == 0 {
                room[69..73].copy_from_slice(&left[69..73]);
            }
            answer
        }

        fn sheet_of_account(
            &self,
            engines: &[u8],
            hauled: &[u8],
            order: &[u8],
            room: &mut [u8],
        ) -> u64 {
            let engines = self.numbered(Function::SheetOfAccount, engines);
            let hauled = self.taken(hauled);
            let order = self.ranged(Function::SheetOfAccount, false, order);
            let answer = Model.sheet_of_account(&engines, &hauled, &order, room);
            let inputs = Inputs::Engines {
                engines,
                hauled,
                order,
            };
            self.misread(answer, inputs, room)
        }

        fn holds_the_speed(&self, front: &[u8], back: &[u8], room: &mut [u8]) -> usize {
            let [front, back] =
                [front, back].map(|portion| self.numbered(Function::HoldsTheSpeed, portion));
            Model.holds_the_speed(&front, &back, room)
        }

        fn route_of_train(&self, vehicles: &[u8], orders: &[u8], room: &mut [u8]) -> u64 {
            let vehicles = &self.numbered(Function::RouteOfTrain, vehicles);
            let orders = &self.ranged(Function::RouteOfTrain, false, orders);
            let answer = Model.route_of_train(vehicles, orders, room);
            let (number, place, _) = parts(answer);
            let sections = orders.len() / ORDER;
            match self {
                Slip::RouteByFastest | Slip::RouteTieByGreater | Slip::RouteLastLeftOut
                    if number == 0 =>
                {
                    return self.chosen(vehicles, orders, room);
                }
                Slip::RoutePlaceOffByOne if number == 4 && place > 0 => return answer - 256,
                Slip::RouteFiveBeforeFour if number == 4 && room.len() < sections => return 5,
                Slip::RouteWritesBehind if number == 0 && room.len() > sections => {
                    room[sections] ^= 1;
                }
                Slip::RouteWritesWhenRefused if number == 12 => room[0] ^= 1,
                _ => {}
            }
            let inputs = Inputs::TrainRoute {
                vehicles: vehicles.to_vec(),
                orders: orders.to_vec(),
            };
            self.misread(answer, inputs, room)
        }

        fn route_of_account(
            &self,
            engines: &[u8],
            hauled: &[u8],
            orders: &[u8],
            room: &mut [u8],
        ) -> u64 {
            let engines = self.numbered(Function::RouteOfAccount, engines);
            let hauled = self.taken(hauled);
            let orders = self.ranged(Function::RouteOfAccount, false, orders);
            let answer = Model.route_of_account(&engines, &hauled, &orders, room);
            let inputs = Inputs::AccountRoute {
                engines,
                hauled,
                orders,
            };
            self.misread(answer, inputs, room)
        }
    }

    /// What engines with an account are given where 46 is still asked, under this number.
    fn still_asked(inputs: &Inputs, facts: &Facts, number: u8) -> Option<(u64, Vec<u8>)> {
        match inputs {
            Inputs::Engines { order, .. } => {
                let mut sheet = former_sheet(facts, &Order::read(order)?);
                renumber(&mut sheet[4..9], 46, number);
                Some((0, sheet.to_vec()))
            }
            Inputs::AccountRoute { orders, .. } => {
                let route = former_route(facts, &sections(orders).ok()?);
                Some((route_answer(Ok(route.category)), route.speeds))
            }
            _ => None,
        }
    }

    fn renumber(rules: &mut [u8], from: u8, to: u8) {
        for rule in rules.iter_mut().filter(|rule| **rule == from) {
            *rule = to;
        }
    }

    fn differences(slip: Slip) -> u64 {
        differences_in(slip, [3_000, 3_000, 3_000, 44])
    }

    /// Over so many trains, joins, routes and vehicle numbers; 22 of these have every seat.
    fn differences_in(slip: Slip, [trains, joins, routes, numbers]: [u64; 4]) -> u64 {
        let run = Run {
            library: &slip,
            seed: 3,
            done: &AtomicU64::new(0),
        };
        let sizes = Sizes {
            trains: [trains, 0],
            joins: [joins, 0],
            routes: [routes, 0],
            numbers,
        };
        run.cases(&sizes).differences
    }

    #[test]
    fn the_two_readings_of_the_model_agree() {
        assert_eq!(differences(Slip::None), 0);
    }

    #[test]
    fn slips_are_found() {
        assert!(differences(Slip::MarginTowardZero) > 0);
        assert!(differences(Slip::LongestByTheGreater) > 0);
        assert!(differences(Slip::PlaceOffByOne) > 0);
        assert!(differences(Slip::WritesBehind) > 0);
        assert!(differences(Slip::WritesWhenRefused) > 0);
        assert!(differences(Slip::ReadsTwoBytes) > 0);
        assert!(differences(Slip::TakesUnusedBytes) > 0);
        assert!(differences(Slip::TakesLonger) > 0);
    }

    #[test]
    fn slips_of_routes_are_found() {
        assert!(differences(Slip::RouteByFastest) > 0);
        assert!(differences(Slip::RouteTieByGreater) > 0);
        assert!(differences(Slip::RouteLastLeftOut) > 0);
        assert!(differences(Slip::RoutePlaceOffByOne) > 0);
        assert!(differences(Slip::RouteFiveBeforeFour) > 0);
        assert!(differences(Slip::RouteWritesBehind) > 0);
        assert!(differences(Slip::RouteWritesWhenRefused) > 0);
    }

    #[test]
    fn slips_of_numbers_are_found() {
        let found = |slip: Slip| differences_in(slip, [0, 0, 0, 22]) > 0;
        assert!(found(Slip::NumberDoublesEven));
        assert!(found(Slip::NumberAddsNoDigits));
        assert!(found(Slip::NumberWithoutZeros));
        assert!(found(Slip::NumberByItsTail));
        assert!(found(Slip::NumberTakesZero));
        for function in FUNCTIONS.into_iter().filter(|&one| one != Function::Join) {
            let name = function.name();
            assert!(found(Slip::NumberUnchecked(function)), "{name}");
        }
    }

    /// Each wrong reading of the length in each function that can show it.
    #[test]
    fn slips_of_lengths_are_found() {
        for (function, reading) in shown_by_function() {
            // A route shows no braked mass: the reading has to change its category.
            let cases = match function {
                Function::RouteOfTrain | Function::RouteOfAccount => [0, 0, 20_000, 0],
                _ => [3_000, 3_000, 0, 0],
            };
            let found = differences_in(Slip::Length(function, reading), cases) > 0;
            assert!(found, "{} {reading:?}", function.name());
        }
        assert!(differences(Slip::LengthNotJoined) > 0);
    }

    /// 46 still asked, under its number and under others, and 47 with its number.
    #[test]
    fn slips_of_the_withdrawal_are_found() {
        let found = |slip: Slip, cases: [u64; 4]| differences_in(slip, cases) > 0;
        for number in [45, 46, 48] {
            let slip = Slip::StillAsked(Function::SheetOfAccount, number);
            assert!(found(slip, [0, 3_000, 0, 0]), "{number}");
        }
        let route = Slip::StillAsked(Function::RouteOfAccount, 46);
        assert!(found(route, [0, 0, 3_000, 0]));
        assert!(found(Slip::TakesTheNumber, [300, 0, 0, 0]));
        assert!(found(Slip::TakesTheNumber, [0, 3_000, 0, 0]));
    }

    /// One end of a field moved by one in each function that reads it; the vehicle number has slips of its own.
    #[test]
    fn slips_of_ranges_are_found() {
        let mut planted = 0;
        for row in page_rows().into_iter().skip(1) {
            let reading = FUNCTIONS.into_iter().filter(|&function| match row.of {
                RecordOf::Vehicle => function != Function::Join,
                _ => refusals(function).contains(&4),
            });
            for function in reading {
                for wrong in row.moved() {
                    let slip = Slip::Range(function, row.of, [row.span, wrong.span]);
                    let held = hold(&slip, vec![row.clone()]);
                    assert!(!held.is_good(), "{} {}", function.name(), wrong.line());
                    planted += 1;
                }
            }
        }
        assert_eq!(planted, 6 * 38 + 4 * 32 + 4 * 36);
    }
}
