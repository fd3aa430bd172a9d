//! Routes: sections that slow, that break a rule or that are bad, at every place.

use super::accounts::account_of;
use super::cases::case_a;
use super::damage::{
    cut_short, damage_records, flip_bytes, order_fields, random_bytes, spoil_kinds_and_count,
};
use super::domestic_cases::b;
use super::draft::{aim, bytes, Draft, BRAKED_V, MASS};
use super::mixture::{account_beside, call, engines_and_hauled, engines_apart, some_refusals};
use super::numbers::number;
use super::trains::{any_order, train, Size};
use crate::book::{Book, BOOK};
use crate::call::{Call, Function, Inputs};
use crate::facts::Facts;
use crate::order::{Order, ORDER};
use crate::precedence::{refusals, SECTION};
use crate::random::Random;
use crate::route::{ASKED, SECTIONS};
use crate::routes::{
    order_rules, Met, ASKED_THEN_FIELD, BAD_BEHIND, BOOK_AND_ASKED, BOOK_THEN_FIELD,
    FIELD_THEN_ASKED, FIELD_THEN_BOOK,
};
use crate::vehicle::SET_TO_M;

/// Few enough that categories tie.
pub const LIMITS: [u8; 7] = [60, 80, 90, 90, 100, 100, 120];

/// A train and the sections that it is to pass.
pub struct Journey {
    pub draft: Draft,
    pub orders: Vec<u8>,
    pub room: usize,
}

impl Journey {
    fn new(random: &mut Random, draft: Draft, sections: &[Order]) -> Journey {
        let room = sections.len() + random.pick(&[0, 0, 1, 6]);
        Journey {
            draft,
            orders: written(sections),
            room,
        }
    }

    /// The order of one section.
    fn section(&mut self, place: usize) -> &mut [u8] {
        &mut self.orders[place * ORDER..][..ORDER]
    }

    pub fn of_train(self, fill: u8) -> Call {
        Call {
            inputs: Inputs::TrainRoute {
                vehicles: self.draft.vehicles(),
                orders: self.orders,
            },
            room: self.room,
            fill,
        }
    }

    pub fn of_account(self, fill: u8) -> Call {
        Call {
            inputs: Inputs::AccountRoute {
                engines: bytes(&self.draft.working),
                hauled: account_of(&self.draft.hauled).to_vec(),
                orders: self.orders,
            },
            room: self.room,
            fill,
        }
    }
}

pub fn written(sections: &[Order]) -> Vec<u8> {
    sections.iter().flat_map(Order::write).collect()
}

/// A light train in which all categories of its book stand.
fn light_train(random: &mut Random, book: Book) -> Draft {
    match book {
        Book::CrossBorder => light_cross_border(random),
        Book::Domestic => light_domestic(random),
    }
}

/// The worked train B with fewer wagons, all fast enough for ME140.
fn light_domestic(random: &mut Random) -> Draft {
    let mut draft = b();
    draft.hauled.truncate(2 + random.below(9));
    for vehicle in draft.working.iter_mut().chain(&mut draft.hauled) {
        vehicle.number = number(random);
        vehicle.speed = random.pick(&[140, 140, 160, 200]);
    }
    draft.order.asked = random.pick(&[1, 1, 1, 2, 2, 3, 3, 4, 5, 6]);
    draft
}

/// Up to a timetable percentage of 100 they stand; above 193 none does.
fn light_cross_border(random: &mut Random) -> Draft {
    let mut draft = case_a();
    let engine = &mut draft.working[0];
    engine.number = number(random);
    engine.setting = SET_TO_M;
    engine.mass = random.between(800, 900) as u16;
    engine.braked_m = random.between(600, 800) as u16;
    engine.speed = random.pick(&[90, 100, 120, 140]);
    draft.hauled.truncate(1 + random.below(3));
    for wagon in &mut draft.hauled {
        wagon.number = number(random);
        wagon.axles = random.between(2, 4) as u8;
        wagon.speed = random.pick(&[90, 100, 120, 120, 160]);
    }
    aim(&mut draft.hauled, MASS, random.between(650, 900));
    aim(&mut draft.hauled, BRAKED_V, random.between(1_500, 2_000));
    draft.order.asked = random.pick(&[1, 1, 1, 2, 2, 3, 3, 4, 5]);
    draft
}

/// A section on which a light train's categories all stand.
fn easy_section(random: &mut Random, book: Book, asked: u8) -> Order {
    let mut limits = [0; 5].map(|_| random.pick(&LIMITS));
    for limit in &mut limits[..4] {
        if random.percent(10) {
            *limit = 0;
        }
    }
    // What its light trains have at most.
    let (percentage, me140, mass) = match book {
        Book::CrossBorder => (random.pick(&[0, 0, 50, 60, 77, 100]), 0, 900),
        Book::Domestic => (0, random.pick(&[0, 60, 80, 90, 100, 120, 140]), 6_000),
    };
    Order {
        book,
        limits,
        me140,
        asked,
        percentage,
        coupling: random.pick(&[mass, 100_000]),
        admissible: random.pick(&[mass, 100_000]),
    }
}

/// Makes a category, counted from 0, break a rule on a section that reads its order.
fn break_rule(random: &mut Random, rule: u8, category: usize, facts: &Facts, section: &mut Order) {
    let category = &section.book.categories()[category];
    let less = facts.hauled_mass.saturating_sub(1).clamp(1, 100_000);
    match rule {
        30 | 61 => section.fill_from(category.column(), 0),
        60 => section.coupling = less,
        63 => section.admissible = less,
        35 => match random.below(2) {
            0 => section.coupling = less,
            _ => section.admissible = less,
        },
        _ => {
            let short = |percentage: &u8| {
                let percentage = *percentage;
                let section = Order {
                    percentage,
                    ..*section
                };
                category.margin(facts, &section) < 0
            };
            section.percentage = (0..=200).find(short).unwrap_or(200);
        }
    }
}

/// Draws up a journey that has what is swept.
pub fn swept_journey(random: &mut Random, book: Book, met: Met) -> Journey {
    let mut draft = light_train(random, book);
    match met {
        Met::Sections(count) => easy_journey(random, draft, count),
        Met::Length(length) => {
            let mut journey = easy_journey(random, draft, length.div_ceil(ORDER));
            journey.orders.truncate(length);
            journey
        }
        Met::Room(count, room) => Journey {
            room,
            ..easy_journey(random, draft, count)
        },
        Met::Decides(rule, place) => decided_journey(random, draft, rule, place),
        Met::Field(_, _, place) | Met::Book(place) | Met::Asked(place) => {
            if met == Met::Book(place) {
                // The cross-border book has no sixth.
                draft.order.asked = draft.order.asked.min(5);
            }
            let mut journey = about(random, draft, place);
            spoil_section(random, book, met, &mut journey, place);
            journey
        }
        Met::Asks(first, other) => {
            draft.order.asked = first;
            let mut journey = easy_journey(random, draft, 3);
            journey.section(1 + random.below(2))[ASKED] = other;
            journey
        }
        Met::Granted(asked, granted) => granted_journey(random, draft, asked, granted),
        Met::Other(name) => faulty_journey(random, draft, name),
        _ => easy_journey(random, draft, 1),
    }
}

/// Makes one section bad: by a field, by what it asks or by its book.
fn spoil_section(random: &mut Random, book: Book, met: Met, journey: &mut Journey, place: usize) {
    match met {
        Met::Field(field, value, _) => {
            let span = order_fields(book)[field];
            if span.at == BOOK && journey.orders.len() == ORDER {
                // A section behind it says what book it is of.
                journey.orders.extend_from_within(..);
                journey.room += 1;
            }
            span.write(journey.section(place), value);
        }
        Met::Book(_) => name_another(random, journey.section(place)),
        _ => ask_another(random, book, journey.section(place)),
    }
}

/// The category's column is the first of the fastest, or there is none on the last section.
fn granted_journey(random: &mut Random, mut draft: Draft, asked: u8, granted: u8) -> Journey {
    draft.order.asked = asked;
    let book = draft.order.book;
    let mut section = easy_section(random, book, asked);
    section.fill_from(book.columns().start, 40);
    if let Some(place) = usize::from(granted).checked_sub(1) {
        section.fill_from(book.categories()[place].column(), 60);
    }
    let mut sections = vec![section; 1 + random.below(3)];
    if granted == 0 {
        section.fill_from(book.columns().start, 0);
        sections.push(section);
    }
    Journey::new(random, draft, &sections)
}

/// Two faults in one route, the first on its second section.
fn faulty_journey(random: &mut Random, mut draft: Draft, name: &str) -> Journey {
    // The cross-border book has no sixth.
    draft.order.asked = draft.order.asked.min(5);
    let book = draft.order.book;
    let count = if name == BAD_BEHIND { SECTIONS + 1 } else { 4 };
    let mut journey = easy_journey(random, draft, count);
    let [field, asked, other]: [fn(&mut Random, Book, &mut [u8]); 3] = [
        |random, book, record| {
            order_fields(book)[random.pick(&[0, 4, 8, 17])].write(record, u64::MAX)
        },
        |random, _, record| ask_another(random, Book::CrossBorder, record),
        |random, _, record| name_another(random, record),
    ];
    let (first, second) = match name {
        ASKED_THEN_FIELD => (asked, field),
        FIELD_THEN_ASKED => (field, asked),
        BOOK_THEN_FIELD => (other, field),
        FIELD_THEN_BOOK => (field, other),
        _ => (field, field),
    };
    if name == BOOK_AND_ASKED {
        other(random, book, journey.section(1));
        asked(random, book, journey.section(1));
    } else {
        first(random, book, journey.section(1));
        second(random, book, journey.section(2));
    }
    journey
}

/// A journey that has the place.
fn about(random: &mut Random, draft: Draft, place: usize) -> Journey {
    let count = random.pick(&[place + 1, (place + 2).min(SECTIONS), SECTIONS]);
    easy_journey(random, draft, count)
}

fn easy_journey(random: &mut Random, draft: Draft, count: usize) -> Journey {
    let Order { book, asked, .. } = draft.order;
    let sections = (0..count).map(|_| easy_section(random, book, asked));
    let sections: Vec<Order> = sections.collect();
    Journey::new(random, draft, &sections)
}

fn ask_another(random: &mut Random, book: Book, record: &mut [u8]) {
    let asked = record[ASKED];
    let others: Vec<u8> = (1..=book.last()).filter(|&one| one != asked).collect();
    record[ASKED] = random.pick(&others);
}

/// A good order of the other book, with the same category asked.
fn name_another(random: &mut Random, record: &mut [u8]) {
    let other = Book::of(record).other();
    let section = easy_section(random, other, record[ASKED]);
    record.copy_from_slice(&section.write());
}

/// One section takes the category that the others would be granted: it breaks a rule there, or by rule 0 it is slow there.
fn decided_journey(random: &mut Random, mut draft: Draft, rule: u8, place: usize) -> Journey {
    let book = draft.order.book;
    let last = book.categories().len();
    let category: usize = match rule {
        0 => random.below(last - 1),
        35 => random.pick(&[3, 4]),
        _ => random.below(last),
    };
    // Cross-border categories 3 and 4 share their column, so 4 comes to its right alone.
    let asked = match (book, category) {
        (Book::CrossBorder, 3) => 4,
        _ => 1 + random.below(category + 1) as u8,
    };
    draft.order.asked = asked;
    let facts = draft.facts();
    let own_speed = book.categories()[category].own_speed;
    let speed = random.pick(&[50, 70, 90]).min(own_speed);
    let mut section = easy_section(random, book, asked);
    let own = book.categories()[category].column();
    for column in book.columns() {
        *section.column(column) = if column < own { speed - 10 } else { speed };
    }
    section.percentage = 0;
    let count = random.pick(&[(place + 1).max(2), (place + 2).min(SECTIONS), SECTIONS]);
    let mut sections = vec![section; count];
    match rule {
        0 => *sections[place].column(own) = speed - 20,
        _ => break_rule(random, rule, category, &facts, &mut sections[place]),
    }
    Journey::new(random, draft, &sections)
}

/// A call for the route of a whole train.
pub fn route_call(random: &mut Random, book: Book, size: Size) -> Call {
    let draft = match random.below(10) {
        0..4 => light_train(random, book),
        _ => train(random, book, size),
    };
    let sections = some_sections(random, &draft);
    let wanted = some_refusals(random, refusals(Function::RouteOfTrain));
    refused_route(random, draft, &sections, &wanted)
}

/// In which all the given refusals apply as far as they can together.
fn refused_route(random: &mut Random, mut draft: Draft, sections: &[Order], wanted: &[u8]) -> Call {
    spoil_kinds_and_count(random, &mut draft, wanted);
    let mut vehicles = draft.vehicles();
    if wanted.contains(&3) {
        damage_records(random, &mut vehicles);
    }
    if wanted.contains(&1) {
        cut_short(random, &mut vehicles);
    }
    let orders = spoilt_orders(random, sections, wanted);
    let rooms = rooms(random, &orders, wanted);
    call(random, Inputs::TrainRoute { vehicles, orders }, &rooms)
}

/// A call for the route of engines with an account.
pub fn account_route_call(random: &mut Random, book: Book) -> Call {
    let wanted = some_refusals(random, refusals(Function::RouteOfAccount));
    let light = random.percent(40);
    let draft = match light {
        true => light_train(random, book),
        false => engines_and_hauled(random, book),
    };
    let sections = some_sections(random, &draft);
    let hauled = match light && !wanted.contains(&7) && !wanted.contains(&14) {
        true => account_of(&draft.hauled).to_vec(),
        false => account_beside(random, &draft, &wanted),
    };
    let engines = engines_apart(random, draft.working, &wanted);
    let orders = spoilt_orders(random, &sections, &wanted);
    let rooms = rooms(random, &orders, &wanted);
    let inputs = Inputs::AccountRoute {
        engines,
        hauled,
        orders,
    };
    call(random, inputs, &rooms)
}

/// Sections like the draft's own, easier, or such that a rule is broken on a few of them.
pub fn some_sections(random: &mut Random, draft: &Draft) -> Vec<Order> {
    let count = match random.below(20) {
        0..3 => 1,
        3..9 => 2,
        9..16 => random.between(3, 6) as usize,
        16..19 => random.between(7, 20) as usize,
        _ => random.between(21, 64) as usize,
    };
    let facts = draft.facts();
    let Order { book, asked, .. } = draft.order;
    let mut sections: Vec<Order> = (0..count).map(|_| like(random, &draft.order)).collect();
    for _ in 0..random.pick(&[0, 0, 1, 1, 2, 3]) {
        let section = &mut sections[random.below(count)];
        let category = random.below(book.categories().len());
        match random.below(8) {
            0 => {
                *section = Order {
                    asked,
                    ..any_order(random, book)
                }
            }
            1 => *section = easy_section(random, book, asked),
            2 if book == Book::CrossBorder => {
                section.percentage = random.pick(&[0, 50, 57, 60, 77, 78, 120]);
            }
            _ => {
                let rule = random.pick(order_rules(book));
                break_rule(random, rule, category, &facts, section);
            }
        }
    }
    sections
}

/// The same order on a line of other limits, or of the same.
fn like(random: &mut Random, order: &Order) -> Order {
    let Order { limits, me140, .. } = match random.below(4) {
        0 => *order,
        _ => easy_section(random, order.book, order.asked),
    };
    let percentage = match random.percent(20) {
        true => random.below(usize::from(order.percentage) + 1) as u8,
        false => order.percentage,
    };
    Order {
        limits,
        me140,
        percentage,
        ..*order
    }
}

/// The bytes of the orders, bad where that is wanted, and now and then in some other way.
fn spoilt_orders(random: &mut Random, sections: &[Order], wanted: &[u8]) -> Vec<u8> {
    let mut orders = written(sections);
    if wanted.contains(&SECTION) {
        for _ in 0..random.pick(&[1, 1, 2, 3]) {
            damage_section(random, &mut orders);
        }
    }
    if wanted.contains(&4) {
        damage_length(random, &mut orders);
    }
    if wanted.is_empty() && random.percent(5) {
        match random.below(3) {
            0 => flip_bytes(random, &mut orders),
            1 => {
                let place = random.below(sections.len());
                let record = &mut orders[place * ORDER..][..ORDER];
                let fields = order_fields(sections[place].book);
                random.pick(fields).write_edge(random, record);
            }
            _ => {
                let length = random.below(100);
                orders = random_bytes(random, length);
            }
        }
    }
    orders
}

/// Refusal 4 of a section.
fn damage_section(random: &mut Random, orders: &mut [u8]) {
    let place = random.below(orders.len() / ORDER);
    let record = &mut orders[place * ORDER..][..ORDER];
    let book = Book::of(record);
    match random.below(6) {
        0..2 => ask_another(random, book, record),
        2 => name_another(random, record),
        _ => random.pick(order_fields(book)).write_bad(random, record),
    }
}

/// Refusal 4 of the orders as a whole: none, not whole ones, or too many.
fn damage_length(random: &mut Random, orders: &mut Vec<u8>) {
    let odd = 1 + random.below(ORDER - 1);
    match random.below(6) {
        0 => orders.clear(),
        1 => orders.truncate(orders.len() - odd),
        2 => orders.extend_from_within(..odd),
        _ => {
            let most = ORDER * (SECTIONS + 1 + random.below(3));
            while orders.len() < most {
                orders.extend_from_within(..ORDER);
            }
        }
    }
}

fn rooms(random: &mut Random, orders: &[u8], wanted: &[u8]) -> [usize; 1] {
    let sections = orders.len() / ORDER;
    let short = [0, sections / 2, sections.saturating_sub(1)];
    let long = [sections, sections, sections + 1, sections.max(SECTIONS)];
    match wanted.contains(&5) {
        true => [random.pick(&short)],
        false => [random.pick(&long)],
    }
}
