//! What routes have met: every length, field, place and room of their orders, ties, and sections that decide alone.

use std::collections::BTreeMap;
use std::fmt::Write;

use crate::book::{Book, BOOK};
use crate::call::{Call, Function};
use crate::coverage::Scope;
use crate::facts::Facts;
use crate::gen::damage::{faults, order_fields, out_of_range};
use crate::order::{Order, ORDER};
use crate::precedence::SECTION;
use crate::route::{is_bad, ASKED, SECTIONS};

/// The rules that read an order, so that a section may break them alone.
pub fn order_rules(book: Book) -> &'static [u8] {
    match book {
        Book::CrossBorder => &[30, 35, 47],
        Book::Domestic => &[60, 61, 63],
    }
}

#[derive(Clone, Copy, Debug, PartialEq, Eq, PartialOrd, Ord)]
pub enum Met {
    /// Done over so many sections.
    Sections(usize),
    /// So many bytes of orders are refused, and nothing else is, save that 64 bytes are too few for more sections.
    Length(usize),
    /// The first bad section has this one field, by its place in the table, at this value; nothing else is refused.
    Field(usize, u64, usize),
    /// The first bad section asks for another category, and nothing else is refused.
    Asked(usize),
    /// What the first section asks for, and what that other one does.
    Asks(u8, u8),
    /// The first bad section is a good order of the other book with the same category asked, and nothing else is refused.
    Book(usize),
    /// So many sections and bytes lent, nothing else refused.
    Room(usize, usize),
    /// Asked and granted.
    Granted(u8, u8),
    /// But for this section, which breaks this rule or, by 0, is slow, another category would be granted.
    Decides(u8, usize),
    /// The granted category, and a later one as fast.
    Tie(u8, u8),
    /// The same, slowest on other sections.
    TieApart(u8, u8),
    Other(&'static str),
}

const ANOTHER_ALONE: &str = "each section alone is granted another category than the route";
const NONE_TOGETHER: &str = "each section alone is granted one, the route none";
const ASKED_STANDS: &str = "the asked one stands from end to end, another is granted";
const BY_FASTEST: &str = "the fastest sections would choose another";
const BY_SUM: &str = "the summed speeds would choose another";
const BY_FIRST: &str = "the first section's speeds would choose another";
const BY_LAST: &str = "the last section's speeds would choose another";
pub const ASKED_THEN_FIELD: &str = "a field out of range behind another asked category";
pub const FIELD_THEN_ASKED: &str = "another asked category behind a field out of range";
pub const BOOK_THEN_FIELD: &str = "a field out of range behind another book";
pub const FIELD_THEN_BOOK: &str = "another book behind a field out of range";
pub const BOOK_AND_ASKED: &str = "another book and another asked category on one section";
pub const BAD_BEHIND: &str = "a length that is refused, and a bad section behind the first";
const AT_ZERO: &str = "granted at 0 km/h";

/// Two faults in one route, brought about one by one.
const PAIRED: [&str; 6] = [
    ASKED_THEN_FIELD,
    FIELD_THEN_ASKED,
    BOOK_THEN_FIELD,
    FIELD_THEN_BOOK,
    BOOK_AND_ASKED,
    BAD_BEHIND,
];

const OTHERS: [&str; 7] = [
    ANOTHER_ALONE,
    NONE_TOGETHER,
    ASKED_STANDS,
    BY_FASTEST,
    BY_SUM,
    BY_FIRST,
    BY_LAST,
];

/// About a whole number of sections, and about the ends of what is taken.
const LENGTHS: [usize; 17] = [
    0, 1, 23, 25, 47, 49, 1_487, 1_489, 1_511, 1_513, 1_535, 1_537, 1_559, 1_560, 1_561, 1_583,
    1_584,
];

/// What is brought about one by one, so that chance leaves none of it out.
pub fn swept(book: Book) -> Vec<Met> {
    let mut swept: Vec<Met> = (1..=SECTIONS).map(Met::Sections).collect();
    // Orders too short for byte 7 are of no book.
    let shortest = if book == Book::Domestic { BOOK + 1 } else { 0 };
    let lengths = LENGTHS.into_iter().filter(|&length| length >= shortest);
    swept.extend(lengths.map(Met::Length));
    for (field, span) in order_fields(book).iter().enumerate() {
        for value in faults(span) {
            swept.extend((0..SECTIONS).map(|place| Met::Field(field, value, place)));
        }
    }
    swept.extend((1..SECTIONS).map(Met::Asked));
    swept.extend((1..SECTIONS).map(Met::Book));
    for first in 1..=book.last() {
        let others = (1..=book.last()).filter(|&other| other != first);
        swept.extend(others.map(|other| Met::Asks(first, other)));
    }
    for &rule in [0].iter().chain(order_rules(book)) {
        swept.extend((0..SECTIONS).map(|place| Met::Decides(rule, place)));
    }
    swept.extend(rooms());
    swept.extend(PAIRED.map(Met::Other));
    if book == Book::Domestic {
        swept.extend(grants(book));
    }
    swept
}

/// Asked and granted. Each domestic category has a column of its own, so that this alone can bring them all about.
fn grants(book: Book) -> Vec<Met> {
    let mut grants = vec![];
    for asked in 1..=book.last() {
        let granted = [0].into_iter().chain(asked..=book.last());
        grants.extend(granted.map(|granted| Met::Granted(asked, granted)));
    }
    grants
}

/// None, one too few, as many as sections, one more.
fn rooms() -> Vec<Met> {
    let mut rooms = vec![Met::Room(1, 0), Met::Room(1, 1), Met::Room(1, 2)];
    for sections in [2, 63, 64] {
        let lent = [0, sections - 1, sections, sections + 1];
        rooms.extend(lent.map(|room| Met::Room(sections, room)));
    }
    rooms
}

/// The places that a file of cases has of each kind.
const FEW_PLACES: [usize; 6] = [0, 1, 2, 31, 62, 63];

/// Those of the swept that a file of cases has.
pub fn swept_few(book: Book) -> Vec<Met> {
    let few = swept(book).into_iter().filter(|met| match met {
        Met::Sections(sections) => [1, 2, 3, 63, 64].contains(sections),
        Met::Field(field, _, place) => *place == field % 5,
        Met::Asked(place) | Met::Book(place) | Met::Decides(_, place) => FEW_PLACES.contains(place),
        // ROUTE takes orders that are not whole for the end of its input.
        Met::Length(length) => length.is_multiple_of(ORDER),
        Met::Room(..) => false,
        _ => true,
    });
    few.collect()
}

/// What a run has to meet.
fn demanded(book: Book, function: Function, scope: Scope) -> Vec<Met> {
    let mut demanded = match scope {
        Scope::Functions | Scope::Domestic => swept(book),
        Scope::Lines => swept_few(book),
    };
    if book == Book::CrossBorder {
        demanded.extend(grants(book));
    }
    let last = book.last();
    for first in 1..last {
        let later = first + 1..=last;
        demanded.extend(later.clone().map(|later| Met::Tie(first, later)));
        let share = book == Book::CrossBorder;
        let apart = later.filter(|&later| !share || (first, later) != (3, 4));
        demanded.extend(apart.map(|later| Met::TieApart(first, later)));
    }
    // 60 and 63 take all domestic categories at once, 61 all from one on, so that what stands on one section stands on the others.
    let others = OTHERS.into_iter();
    let others = others.filter(|&name| book == Book::CrossBorder || name != NONE_TOGETHER);
    demanded.extend(others.map(Met::Other));
    // A domestic rule holds the slowest record's speed against the category's own.
    if function == Function::RouteOfAccount && book == Book::CrossBorder {
        demanded.push(Met::Other(AT_ZERO));
    }
    demanded
}

impl Met {
    fn kind(self) -> String {
        let kind = match self {
            Met::Sections(_) => "sections of a done route",
            Met::Length(_) => "lengths refused",
            Met::Field(..) => "fields out of range, by section",
            Met::Asked(_) => "another asked, by section",
            Met::Asks(..) => "another asked, by category",
            Met::Book(_) => "another book, by section",
            Met::Room(..) => "rooms lent",
            Met::Granted(..) => "asked and granted",
            Met::Decides(0, _) => "a slow section decides",
            Met::Decides(rule, _) => return format!("rule {rule} on one section decides"),
            Met::Tie(..) => "ties",
            Met::TieApart(..) => "ties, other slowest sections",
            Met::Other(name) => name,
        };
        kind.to_owned()
    }
}

/// A category's speed on each section; none where it breaks a rule or its number is below the asked one.
type Row = Vec<Option<u8>>;

/// What alone makes a section bad.
#[derive(Clone, Copy, PartialEq, Eq)]
enum Fault {
    Asked,
    Book,
    BookAndAsked,
    /// A field by its place in the table, with its value.
    Field(usize, u64),
}

impl Fault {
    fn is_field(&self) -> bool {
        matches!(self, Fault::Field(..))
    }
}

/// A wrong reading of the request, by what it would have greatest.
type Reading = (&'static str, fn(&Row) -> Option<u32>);

/// Of the routes whose orders are of one book.
#[derive(Clone)]
pub struct Routes {
    book: Book,
    counts: BTreeMap<Met, u64>,
}

impl Routes {
    pub fn new(book: Book) -> Routes {
        let counts = BTreeMap::new();
        Routes { book, counts }
    }

    pub fn note(&mut self, call: &Call, refusals: &[u8], facts: Option<&Facts>) {
        let orders = call.inputs.orders();
        let records = orders.as_chunks::<ORDER>().0;
        match refusals {
            [] | [5] => self.met(Met::Room(records.len(), call.room)),
            [4] => self.met(Met::Length(orders.len())),
            [4, 5] if call.room == SECTIONS => self.met(Met::Length(orders.len())),
            [SECTION] => self.note_bad(records),
            [4, SECTION] | [4, SECTION, 5] if !is_bad(records, 0) => {
                self.met(Met::Other(BAD_BEHIND))
            }
            _ => {}
        }
        if let ([], Some(facts)) = (refusals, facts) {
            let sections: Vec<Order> = records.iter().filter_map(|one| Order::read(one)).collect();
            self.note_done(facts, &sections);
        }
    }

    fn met(&mut self, met: Met) {
        *self.counts.entry(met).or_default() += 1;
    }

    fn note_bad(&mut self, records: &[[u8; ORDER]]) {
        let bad: Vec<usize> = (0..records.len())
            .filter(|&one| is_bad(records, one))
            .collect();
        let [first, behind @ ..] = &bad[..] else {
            return;
        };
        let faults: Vec<Fault> = behind
            .iter()
            .filter_map(|&one| self.fault(records, one))
            .collect();
        match self.fault(records, *first) {
            Some(Fault::Asked) => {
                self.met(Met::Asked(*first));
                self.met(Met::Asks(records[0][ASKED], records[*first][ASKED]));
                self.note_behind(ASKED_THEN_FIELD, &faults, Fault::is_field);
            }
            Some(Fault::Book) => {
                self.met(Met::Book(*first));
                self.note_behind(BOOK_THEN_FIELD, &faults, Fault::is_field);
            }
            Some(Fault::BookAndAsked) => self.met(Met::Other(BOOK_AND_ASKED)),
            Some(Fault::Field(field, value)) => {
                self.met(Met::Field(field, value, *first));
                self.note_behind(FIELD_THEN_ASKED, &faults, |one| *one == Fault::Asked);
                self.note_behind(FIELD_THEN_BOOK, &faults, |one| *one == Fault::Book);
            }
            None => {}
        }
    }

    fn note_behind(&mut self, name: &'static str, faults: &[Fault], is: fn(&Fault) -> bool) {
        if faults.iter().any(is) {
            self.met(Met::Other(name));
        }
    }

    /// What alone makes a section bad; None where several things do.
    fn fault(&self, records: &[[u8; ORDER]], place: usize) -> Option<Fault> {
        let record = &records[place];
        let another = |at: usize| record[at] != records[0][at];
        if Order::read(record).is_some() {
            return match (another(BOOK), another(ASKED)) {
                (true, true) => Some(Fault::BookAndAsked),
                (true, false) => Some(Fault::Book),
                _ => Some(Fault::Asked),
            };
        }
        let named = Book::named(record[BOOK]).unwrap_or(self.book);
        match out_of_range(self.book, record)[..] {
            [(field, value)] if named == self.book => {
                let at = order_fields(self.book)[field].at;
                let alone = place == 0 || at == ASKED || !another(ASKED);
                alone.then_some(Fault::Field(field, value))
            }
            _ => None,
        }
    }

    fn note_done(&mut self, facts: &Facts, sections: &[Order]) {
        let asked = sections[0].asked;
        let rules = self.book.rules();
        let row = |category| -> Row {
            let speed = |section| rules.speed(category, facts, section);
            sections.iter().map(speed).collect()
        };
        let below = vec![None; sections.len()];
        let categories = rules.categories.iter();
        let rows: Vec<Row> = categories
            .map(|category| match category.number >= asked {
                true => row(category),
                false => below.clone(),
            })
            .collect();
        let granted = best(&rows, slowest);
        self.met(Met::Sections(sections.len()));
        self.met(Met::Granted(asked, granted));
        self.note_deciding(&rows, granted, facts, sections);
        self.note_ties(&rows, granted);
        self.note_readings(&rows, granted);
        if granted > asked && slowest(&rows[usize::from(asked) - 1]).is_some() {
            self.met(Met::Other(ASKED_STANDS));
        }
    }

    /// Sections without which the route would be granted another category.
    fn note_deciding(&mut self, rows: &[Row], granted: u8, facts: &Facts, sections: &[Order]) {
        for place in 0..sections.len() {
            let without = best(rows, |row| slowest_without(row, place));
            // What is left of a single section is no route.
            if sections.len() == 1 || [0, granted].contains(&without) {
                continue;
            }
            let rules = self.book.rules();
            let category = &rules.categories[usize::from(without) - 1];
            let rule = rules.rule(category, facts, &sections[place]);
            self.met(Met::Decides(rule, place));
        }
    }

    fn note_ties(&mut self, rows: &[Row], granted: u8) {
        let Some(first) = usize::from(granted).checked_sub(1) else {
            return;
        };
        let least = slowest(&rows[first]);
        let at_least = |row: &Row| -> Vec<bool> {
            row.iter().map(|one| one.map(u32::from) == least).collect()
        };
        if least == Some(0) {
            self.met(Met::Other(AT_ZERO));
        }
        for (later, row) in (1..).zip(rows).skip(first + 1) {
            if slowest(row) == least {
                self.met(Met::Tie(granted, later));
                if at_least(row) != at_least(&rows[first]) {
                    self.met(Met::TieApart(granted, later));
                }
            }
        }
    }

    /// Where another reading of the route, or of each section for itself, grants another category.
    fn note_readings(&mut self, rows: &[Row], granted: u8) {
        let readings: [Reading; 4] = [
            (BY_FASTEST, |row| all(row)?.into_iter().max()),
            (BY_SUM, |row| Some(all(row)?.into_iter().sum())),
            (BY_FIRST, |row| all(row)?.first().copied()),
            (BY_LAST, |row| all(row)?.last().copied()),
        ];
        for (name, key) in readings {
            if best(rows, key) != granted {
                self.met(Met::Other(name));
            }
        }
        let alone = |place: usize| best(rows, |row| row[place].map(u32::from));
        if (0..rows[0].len()).all(|place| ![0, granted].contains(&alone(place))) {
            let name = if granted == 0 {
                NONE_TOGETHER
            } else {
                ANOTHER_ALONE
            };
            self.met(Met::Other(name));
        }
    }

    pub fn add(&mut self, other: &Routes) {
        for (met, more) in &other.counts {
            *self.counts.entry(*met).or_default() += more;
        }
    }

    fn count(&self, met: &Met) -> u64 {
        self.counts.get(met).copied().unwrap_or(0)
    }

    pub fn missing(&self, function: Function, scope: Scope) -> Vec<String> {
        let demanded = demanded(self.book, function, scope).into_iter();
        let missing = demanded.filter(|met| self.count(met) == 0);
        missing
            .map(|met| format!("{} {} {met:?}", self.book.name(), function.name()))
            .collect()
    }

    /// For each kind how many different ones there are, how often they came and how often the rarest.
    pub fn table(&self, function: Function, scope: Scope) -> String {
        let (book, name) = (self.book.name(), function.name());
        let mut text = format!("{name}, {book}: how many such, all, the rarest\n");
        let mut kinds: Vec<(String, Vec<u64>)> = vec![];
        for met in demanded(self.book, function, scope) {
            match kinds.iter_mut().find(|(kind, _)| *kind == met.kind()) {
                Some((_, counts)) => counts.push(self.count(&met)),
                None => kinds.push((met.kind(), vec![self.count(&met)])),
            }
        }
        for (kind, counts) in kinds {
            let all: u64 = counts.iter().sum();
            let rarest = counts.iter().min().copied().unwrap_or(0);
            let _ = writeln!(
                text,
                "  {kind:<64} {:>5} {all:>9} {rarest:>9}",
                counts.len()
            );
        }
        text
    }
}

/// The speeds of a category that breaks no rule.
fn all(row: &Row) -> Option<Vec<u32>> {
    row.iter().map(|speed| speed.map(u32::from)).collect()
}

fn slowest(row: &Row) -> Option<u32> {
    slowest_without(row, row.len())
}

fn slowest_without(row: &Row, left_out: usize) -> Option<u32> {
    let mut least = u32::MAX;
    for (place, speed) in row.iter().enumerate() {
        if place != left_out {
            least = least.min(u32::from((*speed)?));
        }
    }
    Some(least)
}

/// The number of the category with the greatest key, the lowest at a tie; 0 where none has a key.
fn best(rows: &[Row], key: impl Fn(&Row) -> Option<u32>) -> u8 {
    let mut best = (None, 0);
    for (number, row) in (1..).zip(rows) {
        let key = key(row);
        if key > best.0 {
            best = (key, number);
        }
    }
    best.1
}
