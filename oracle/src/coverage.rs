//! What a run has met: answers, rules, grants, boundaries and refusals that apply together.

use std::fmt::Write;

use crate::book::{Book, BOOKS};
use crate::boundaries::Boundaries;
use crate::call::{Call, Function, FUNCTIONS};
use crate::domestic::Domestic;
use crate::facts::Facts;
use crate::lengths::Lengths;
use crate::numbers::{self, Numbers, Seat};
use crate::offered::Offered;
use crate::order::Order;
use crate::precedence::{applying, excluded, refusals, shown, SECTION};
use crate::routes::Routes;
use crate::withdrawal::Withdrawal;

/// Rules that a sheet can name: no other number stands on one.
const COMMON_RULES: [u8; 9] = [15, 16, 17, 18, 19, 20, 21, 22, 23];
const P_RULES: [u8; 8] = [30, 31, 40, 41, 42, 43, 44, 47];
const G_RULES: [u8; 7] = [30, 31, 32, 33, 34, 35, 47];
const ME140_RULES: [u8; 18] = [
    60, 61, 62, 63, 64, 65, 66, 67, 68, 69, 70, 71, 72, 73, 74, 75, 76, 77,
];
const ME120_RULES: [u8; 17] = [
    60, 61, 62, 63, 65, 66, 67, 68, 69, 70, 71, 72, 73, 74, 75, 76, 77,
];
const ME100_RULES: [u8; 16] = [
    60, 61, 62, 63, 65, 66, 68, 69, 70, 71, 72, 73, 74, 75, 76, 77,
];
const MA_RULES: [u8; 16] = [
    60, 61, 62, 63, 65, 78, 79, 80, 81, 82, 83, 84, 85, 86, 87, 88,
];

/// The common rules of a book; the domestic one has none.
fn common_rules(book: Book) -> &'static [u8] {
    match book {
        Book::CrossBorder => &COMMON_RULES,
        Book::Domestic => &[],
    }
}

/// The rules of its own that a category can break first.
pub fn own_rules(book: Book, category: usize) -> &'static [u8] {
    match (book, category) {
        (Book::CrossBorder, 1..=3) => &P_RULES,
        (Book::CrossBorder, _) => &G_RULES,
        (Book::Domestic, 1) => &ME140_RULES,
        (Book::Domestic, 2) => &ME120_RULES,
        (Book::Domestic, 3) => &ME100_RULES,
        (Book::Domestic, _) => &MA_RULES,
    }
}

/// How many numbers a byte of a sheet can name.
const NUMBERS: usize = 256;

/// The most categories that a book has.
const MOST: usize = 6;

/// What the sheets of one function said under one book.
#[derive(Clone)]
struct Sheets {
    book: Book,
    whose: &'static str,
    common: [u64; NUMBERS],
    by_category: [[u64; NUMBERS]; MOST],
    granted: [[u64; MOST + 1]; MOST + 1],
    boundaries: Boundaries,
}

/// What was met under one book; the calls without an order are the first one's.
#[derive(Clone)]
struct Met {
    book: Book,
    numbers: [[u64; 32]; FUNCTIONS.len()],
    pairs: [[[u64; 16]; 16]; FUNCTIONS.len()],
    sheets: [Sheets; 2],
    routes: [Routes; 2],
}

#[derive(Clone)]
pub struct Coverage {
    books: [Met; 2],
    offered: Offered,
    vehicle_numbers: Numbers,
    lengths: Lengths,
    withdrawal: Withdrawal,
    domestic: Domestic,
}

/// What a run has to meet.
#[derive(Clone, Copy, PartialEq, Eq)]
pub enum Scope {
    /// All seven functions.
    Functions,
    /// SHEET and ROUTE alone: what they lend is never too short.
    Lines,
    /// The functions over domestic orders alone.
    Domestic,
}

impl Scope {
    pub fn functions(self) -> &'static [Function] {
        match self {
            Scope::Functions | Scope::Domestic => &FUNCTIONS,
            Scope::Lines => &[Function::SheetOfTrain, Function::RouteOfTrain],
        }
    }

    /// Those that a book is asked of: the domestic one of the functions that read an order.
    fn of_book(self, book: Book) -> impl Iterator<Item = Function> {
        let functions = self.functions().iter().copied();
        functions.filter(move |&one| book == Book::CrossBorder || refusals(one).contains(&4))
    }

    fn has_pair(self, (first, second): (u8, u8)) -> bool {
        let with_5 = first == 5 || second == 5;
        self == Scope::Functions || !(with_5 || (first, second) == (1, 2))
    }
}

impl Default for Coverage {
    fn default() -> Coverage {
        Coverage {
            books: BOOKS.map(Met::new),
            offered: Offered::default(),
            vehicle_numbers: Numbers::default(),
            lengths: Lengths::default(),
            withdrawal: Withdrawal::default(),
            domestic: Domestic::default(),
        }
    }
}

impl Coverage {
    pub fn note(&mut self, call: &Call, answer: u64, buffer: &[u8]) {
        let all = applying(call);
        self.offered.note(call, &all);
        self.vehicle_numbers.note(call, &all);
        let facts = match all[..] {
            [] => call.inputs.facts(),
            _ => None,
        };
        self.lengths.note(call, &all, facts.as_ref());
        self.domestic.note(call, &all, facts.as_ref());
        if let Some(facts) = &facts {
            self.withdrawal.note(call, facts);
        }
        let book = Book::of(call.inputs.orders());
        self.books[usize::from(book.byte())].note(call, answer, buffer, &all, facts.as_ref());
    }

    /// A number that was tried at a seat and got the answer that is due.
    pub fn tried(&mut self, seat: Seat, met: numbers::Met) {
        self.vehicle_numbers.tried(seat, met);
    }

    pub fn add(&mut self, other: &Coverage) {
        for (met, more) in self.books.iter_mut().zip(&other.books) {
            met.add(more);
        }
        self.offered.add(&other.offered);
        self.vehicle_numbers.add(&other.vehicle_numbers);
        self.lengths.add(&other.lengths);
        self.withdrawal.add(&other.withdrawal);
        self.domestic.add(&other.domestic);
    }

    /// What could have occurred and did not.
    pub fn missing(&self, scope: Scope) -> Vec<String> {
        let mut missing = self.domestic.missing(scope);
        if scope == Scope::Domestic {
            missing.extend(self.books[1].missing(Scope::Functions));
            return missing;
        }
        for met in &self.books {
            missing.extend(met.missing(scope));
        }
        missing.extend(self.vehicle_numbers.missing(scope));
        missing.extend(self.lengths.missing(scope));
        missing.extend(self.withdrawal.missing(scope));
        if scope == Scope::Functions {
            missing.extend(self.offered.missing());
        }
        missing
    }

    /// What cannot occur and did.
    pub fn impossible_met(&self) -> Vec<String> {
        let sheets = self.books.iter().flat_map(|met| &met.sheets);
        sheets.flat_map(Sheets::impossible_met).collect()
    }

    pub fn table(&self, scope: Scope) -> String {
        let mut text = String::new();
        for met in &self.books {
            text += &met.table(scope);
        }
        if scope == Scope::Functions {
            text += &self.offered.table();
        }
        text += &self.vehicle_numbers.table(scope);
        text += &self.lengths.table(scope);
        text += &self.withdrawal.table(scope);
        text += &self.domestic.table(scope);
        text + &impossible(scope)
    }
}

impl Met {
    fn new(book: Book) -> Met {
        Met {
            book,
            numbers: [[0; 32]; FUNCTIONS.len()],
            pairs: [[[0; 16]; 16]; FUNCTIONS.len()],
            sheets: ["trains", "accounts"].map(|whose| Sheets::new(book, whose)),
            routes: [Routes::new(book), Routes::new(book)],
        }
    }

    fn note(&mut self, call: &Call, answer: u64, buffer: &[u8], all: &[u8], facts: Option<&Facts>) {
        let function = call.function();
        self.numbers[function as usize][(answer % 256) as usize] += 1;
        for &first in all {
            for &second in all {
                self.pairs[function as usize][usize::from(first)][usize::from(second)] += 1;
            }
        }
        match function {
            Function::SheetOfTrain | Function::SheetOfAccount if answer == 0 => {
                let sheets = &mut self.sheets[usize::from(function == Function::SheetOfAccount)];
                sheets.note(buffer);
                if let (Some(facts), Some(order)) = (facts, Order::read(call.inputs.orders())) {
                    sheets.boundaries.note(facts, &order);
                }
            }
            Function::RouteOfTrain => self.routes[0].note(call, all, facts),
            Function::RouteOfAccount => self.routes[1].note(call, all, facts),
            _ => {}
        }
    }

    fn add(&mut self, other: &Met) {
        add(
            self.numbers.as_flattened_mut(),
            other.numbers.as_flattened(),
        );
        add(
            self.pairs.as_flattened_mut().as_flattened_mut(),
            other.pairs.as_flattened().as_flattened(),
        );
        for (sheets, more) in self.sheets.iter_mut().zip(&other.sheets) {
            sheets.add(more);
        }
        for (routes, more) in self.routes.iter_mut().zip(&other.routes) {
            routes.add(more);
        }
    }

    fn missing(&self, scope: Scope) -> Vec<String> {
        let mut missing = vec![];
        for function in scope.of_book(self.book) {
            for number in numbers(function) {
                let none = self.numbers[function as usize][usize::from(number)] == 0;
                if none && (scope == Scope::Functions || number != 5) {
                    let book = self.book.name();
                    missing.push(format!("{book} {} answer {number}", function.name()));
                }
            }
            if scope == Scope::Functions {
                self.missing_pairs(function, &mut missing);
            }
        }
        self.sheets[0].missing(scope, &mut missing);
        missing.extend(self.routes[0].missing(Function::RouteOfTrain, scope));
        if scope == Scope::Functions {
            self.sheets[1].missing(scope, &mut missing);
            missing.extend(self.routes[1].missing(Function::RouteOfAccount, scope));
        }
        missing
    }

    fn missing_pairs(&self, function: Function, missing: &mut Vec<String>) {
        let counts = self.pairs[function as usize];
        for (first, second) in pairs(function) {
            if counts[usize::from(first)][usize::from(second)] == 0 {
                let (first, second) = (shown(first), shown(second));
                let (book, name) = (self.book.name(), function.name());
                missing.push(format!("{book} {name} {first} with {second}"));
            }
        }
    }

    fn table(&self, scope: Scope) -> String {
        let book = self.book.name();
        let mut text = format!("answers, {book}\n");
        for function in scope.of_book(self.book) {
            let counts = self.numbers[function as usize];
            let row = numbers(function).into_iter();
            let row = row.map(|number| format!("{number}: {}", counts[usize::from(number)]));
            text += &rows(function, &row.collect::<Vec<_>>());
        }
        text += &format!("refusals that apply together, the one given first, {book}\n");
        for function in scope.of_book(self.book) {
            let counts = self.pairs[function as usize];
            let row = pairs(function).into_iter();
            let row = row.filter(|&pair| scope.has_pair(pair));
            let row = row.map(|(first, second)| {
                let count = counts[usize::from(first)][usize::from(second)];
                format!("{}+{}: {count}", shown(first), shown(second))
            });
            text += &rows(function, &row.collect::<Vec<_>>());
        }
        text += &self.sheets[0].table();
        text += &self.routes[0].table(Function::RouteOfTrain, scope);
        if scope == Scope::Functions {
            text += &self.sheets[1].table();
            text += &self.routes[1].table(Function::RouteOfAccount, scope);
        }
        text
    }
}

/// Counts of a function, so many to a line.
fn rows(function: Function, counts: &[String]) -> String {
    let lines = counts.chunks(10);
    let lines = lines.map(|some| format!("  {:<17} {}\n", function.name(), some.join("  ")));
    lines.collect()
}

/// The answers that a function can give.
fn numbers(function: Function) -> Vec<u8> {
    match function {
        Function::HoldsTheSpeed => vec![0, 24],
        _ => {
            let numbers = [&[0], refusals(function)].concat();
            let given = numbers.into_iter().filter(|&number| number != SECTION);
            given.collect()
        }
    }
}

/// The pairs of refusals that can apply together, in the order of the function.
fn pairs(function: Function) -> Vec<(u8, u8)> {
    let order = refusals(function);
    let mut pairs = vec![];
    for (place, &first) in order.iter().enumerate() {
        for &second in &order[place + 1..] {
            let mut out = excluded(function).iter();
            if !out.any(|&(one, other, _)| (one, other) == (first, second)) {
                pairs.push((first, second));
            }
        }
    }
    pairs
}

/// What cannot occur, and why.
fn impossible(scope: Scope) -> String {
    let mut text = String::from("cannot occur\n");
    for &function in scope.functions() {
        for (first, second, why) in excluded(function) {
            let _ = writeln!(text, "  {} {first} with {second}: {why}", function.name());
        }
    }
    if scope == Scope::Lines {
        text += "  refusal 5: SHEET lends itself 33 bytes, ROUTE 64\n";
        text += "  1 with 2: of a list above 200 records both look at 201 whole ones\n";
        text += "  4 of ROUTE for orders that are not whole: no vehicles are behind them, so 1\n";
    }
    text +=
        "  a cross-border tie of 3 and 4 with another slowest section: they share speed and column\n";
    text += "  refusals that are not in a function's row: the page gives it no such refusal\n";
    text += "  a rule that is not in the list, as 46: its number is no other rule's\n";
    text += "  another sheet of a train than under the former list: with more than 7,000 set to V it breaks 22, and 46 was asked behind that\n";
    text += "  a rule in a domestic category that does not ask it, as 64 in ME120 or 66 in MA100\n";
    text += "  a domestic route or sheet granted at 0 km/h: 66, 73, 78 and 83 come before, and 0 is a missing column\n";
    text += "  rules 40 to 44 in categories 4 and 5, 32 to 35 in 1 to 3: not asked there\n";
    text += "  a granted number below the asked one: not among the asked and greater ones\n";
    text
}

fn add(counts: &mut [u64], more: &[u64]) {
    for (count, more) in counts.iter_mut().zip(more) {
        *count += more;
    }
}

impl Sheets {
    fn new(book: Book, whose: &'static str) -> Sheets {
        Sheets {
            book,
            whose,
            common: [0; NUMBERS],
            by_category: [[0; NUMBERS]; MOST],
            granted: [[0; MOST + 1]; MOST + 1],
            boundaries: Boundaries::new(book),
        }
    }

    fn note(&mut self, sheet: &[u8]) {
        self.common[usize::from(sheet[3])] += 1;
        let rules = &sheet[4..4 + self.book.categories().len()];
        for (counts, &broken) in self.by_category.iter_mut().zip(rules) {
            counts[usize::from(broken)] += 1;
        }
        let [asked, granted] = [sheet[0], sheet[1]].map(|number| usize::from(number) % (MOST + 1));
        self.granted[asked][granted] += 1;
    }

    fn add(&mut self, other: &Sheets) {
        add(&mut self.common, &other.common);
        add(
            self.by_category.as_flattened_mut(),
            other.by_category.as_flattened(),
        );
        add(
            self.granted.as_flattened_mut(),
            other.granted.as_flattened(),
        );
        self.boundaries.add(&other.boundaries);
    }

    /// Whose sheets they are, and of which book.
    fn name(&self) -> String {
        format!("{} {}", self.book.name(), self.whose)
    }

    /// The categories with how often each number stood first.
    fn categories(&self) -> impl Iterator<Item = (usize, &[u64; NUMBERS])> {
        (1..).zip(&self.by_category[..self.book.categories().len()])
    }

    fn missing(&self, scope: Scope, missing: &mut Vec<String>) {
        let name = self.name();
        for &rule in common_rules(self.book) {
            if self.common[usize::from(rule)] == 0 {
                missing.push(format!("{name}: common rule {rule}"));
            }
        }
        for (category, rules) in self.categories() {
            for &rule in own_rules(self.book, category) {
                if rules[usize::from(rule)] == 0 {
                    missing.push(format!("{name}: category {category} rule {rule}"));
                }
            }
        }
        for (asked, granted) in grants(self.book) {
            if self.granted[asked][granted] == 0 {
                missing.push(format!("{name}: asked {asked} granted {granted}"));
            }
        }
        if scope == Scope::Functions {
            let boundaries = self.boundaries.missing().into_iter();
            missing.extend(boundaries.map(|bound| format!("{name}: all sides of {bound}")));
        }
    }

    /// Rules that a sheet named and cannot name.
    fn impossible_met(&self) -> Vec<String> {
        let name = self.name();
        let common = common_rules(self.book);
        let mut met = vec![];
        for rule in unlisted(&self.common, &[common]) {
            met.push(format!("{name}: common rule {rule}"));
        }
        for (category, rules) in self.categories() {
            for rule in unlisted(rules, &[common, own_rules(self.book, category)]) {
                met.push(format!("{name}: category {category} rule {rule}"));
            }
        }
        met
    }

    fn table(&self) -> String {
        let name = self.name();
        let mut text = format!("first rule broken, sheets of {name}\n  rule   common");
        for (category, _) in self.categories() {
            let _ = write!(text, " {:>8}", format!("cat {category}"));
        }
        text.push('\n');
        for rule in 0..NUMBERS {
            let of_categories = self.categories().map(|(_, counts)| counts[rule]);
            let counts: Vec<u64> = [self.common[rule]]
                .into_iter()
                .chain(of_categories)
                .collect();
            if counts.iter().any(|&count| count > 0) {
                let row: Vec<String> = counts.iter().map(|count| format!("{count:>8}")).collect();
                let _ = writeln!(text, "  {rule:>4} {}", row.join(" "));
            }
        }
        let _ = writeln!(text, "asked and granted, sheets of {name}");
        for (asked, _) in self.categories() {
            let row = grants(self.book).into_iter().filter(|one| one.0 == asked);
            let row: Vec<String> = row
                .map(|(_, granted)| format!("{granted}: {}", self.granted[asked][granted]))
                .collect();
            let _ = writeln!(text, "  asked {asked}  granted {}", row.join("  "));
        }
        let _ = writeln!(
            text,
            "boundaries, sheets of {name}: one below, at, one above"
        );
        text + &self.boundaries.table()
    }
}

/// The numbers that sheets named and that are in none of these lists.
fn unlisted(named: &[u64; NUMBERS], lists: &[&[u8]]) -> Vec<u8> {
    let numbers = (1..=u8::MAX).filter(|&number| named[usize::from(number)] > 0);
    let others = numbers.filter(|number| !lists.iter().any(|list| list.contains(number)));
    others.collect()
}

/// Every pair of asked and granted numbers that can occur; each category can be the fastest that is left.
fn grants(book: Book) -> Vec<(usize, usize)> {
    let last = usize::from(book.last());
    let all = (1..=last).flat_map(|asked| (0..=last).map(move |granted| (asked, granted)));
    all.filter(|&(asked, granted)| granted == 0 || granted >= asked)
        .collect()
}

#[cfg(test)]
mod tests {
    use super::*;
    use crate::call::Inputs;
    use crate::gen::accounts::account_of;
    use crate::gen::cases::case_a;
    use crate::gen::domestic_cases::b;
    use crate::gen::draft::Draft;

    /// What is impossible about a sheet that has this number in this byte.
    fn naming(inputs: &Inputs, byte: usize, number: u8) -> Vec<String> {
        let call = Call {
            inputs: inputs.clone(),
            room: 33,
            fill: 0,
        };
        let mut buffer = call.buffer();
        buffer[..33].fill(0);
        buffer[byte] = number;
        let mut coverage = Coverage::default();
        coverage.note(&call, 0, &buffer);
        coverage.impossible_met()
    }

    /// A draft as a train and as an account, each with its name in the lists.
    fn both(draft: &Draft) -> [(String, Inputs); 2] {
        let hauled = account_of(&draft.hauled).to_vec();
        let name = |whose: &str| format!("{} {whose}", draft.order.book.name());
        [
            (name("trains"), draft.of_train()),
            (name("accounts"), draft.of_account(hauled)),
        ]
    }

    #[test]
    fn no_sheet_names_a_number_that_is_not_in_the_list() {
        for draft in [case_a(), b()] {
            let others = match draft.order.book {
                Book::CrossBorder => [1, 14, 24, 29, 36, 39, 45, 46, 48, 60, 94, 255],
                Book::Domestic => [1, 15, 30, 46, 47, 59, 78, 79, 88, 89, 90, 255],
            };
            for (name, inputs) in both(&draft) {
                for number in others {
                    let own = naming(&inputs, 4, number);
                    assert_eq!(own, [format!("{name}: category 1 rule {number}")]);
                    let common = naming(&inputs, 3, number);
                    assert_eq!(common, [format!("{name}: common rule {number}")]);
                }
            }
        }
    }

    #[test]
    fn a_sheet_names_every_rule_of_the_list() {
        for draft in [case_a(), b()] {
            let book = draft.order.book;
            for (_, inputs) in both(&draft) {
                for &rule in common_rules(book) {
                    assert!(naming(&inputs, 3, rule).is_empty(), "{rule}");
                }
                for category in 1..=book.categories().len() {
                    for &rule in own_rules(book, category) {
                        assert!(naming(&inputs, 3 + category, rule).is_empty(), "{rule}");
                    }
                }
            }
        }
    }

    /// 60 to 88, each in the categories that the page gives it.
    #[test]
    fn every_domestic_rule_has_its_categories() {
        let having = |rule: u8| -> Vec<usize> {
            let all = 1..=6;
            all.filter(|&one| own_rules(Book::Domestic, one).contains(&rule))
                .collect()
        };
        for rule in 60..=88 {
            let expected: &[usize] = match rule {
                60..=63 | 65 => &[1, 2, 3, 4, 5, 6],
                64 => &[1],
                67 => &[1, 2],
                66..=77 => &[1, 2, 3],
                _ => &[4, 5, 6],
            };
            assert_eq!(having(rule), expected, "{rule}");
        }
    }
}
