//! Inputs of SHEET and ROUTE for files of cases: the page's first, slipped vehicle numbers, lengths that k counts, then random
//! ones, most of them short.

use super::cases::{case_a, cases, worked_route};
use super::damage::{faults, order_fields};
use super::domestic_cases::{b, domestic_cases, swept_classes};
use super::draft::Draft;
use super::lengths::swept_lengths;
use super::mixture::train_call;
use super::numbers::{closed, seated, two_engines};
use super::routes::{route_call, swept_journey, written};
use super::trains::Size;
use crate::book::{Book, BOOK};
use crate::call::{Call, Function, Inputs};
use crate::numbers::{attempts, Met, PARTS};
use crate::order::ORDER;
use crate::random::Random;
use crate::routes::swept_few;

/// The longest input of a frame.
const MOST_FRAME: usize = 5_000;

pub fn inputs(seed: u64, count: usize) -> Vec<Vec<u8>> {
    let mut inputs: Vec<Vec<u8>> = cases().iter().map(|case| case.draft.input()).collect();
    inputs.extend(odd_lengths());
    inputs.extend(numbered(seed).iter().map(Draft::input));
    inputs.extend(swept_lengths(seed).iter().map(Draft::input));
    filled_up(inputs, seed, Book::CrossBorder, count)
}

/// The same of domestic orders: the worked cases, orders of either book with one field out of range, each length at which p changes
/// with each category asked, then random ones.
pub fn domestic_inputs(seed: u64, count: usize) -> Vec<Vec<u8>> {
    let cases = domestic_cases();
    let mut inputs: Vec<Vec<u8>> = cases.iter().map(|case| case.draft.input()).collect();
    for draft in [case_a(), b()] {
        inputs.extend(bad_orders(&draft));
    }
    inputs.extend(swept_classes().iter().map(Draft::input));
    filled_up(inputs, seed ^ DOMESTIC, Book::Domestic, count)
}

/// Sets the seed of domestic inputs apart.
const DOMESTIC: u64 = 0x0006_0006_0006_0006;

/// With random inputs, so that there are so many.
fn filled_up(mut inputs: Vec<Vec<u8>>, seed: u64, book: Book, count: usize) -> Vec<Vec<u8>> {
    let random = inputs.len() as u64..count as u64;
    let random = random.map(|index| random_input(&mut Random::for_case(seed, index), book));
    inputs.extend(random);
    inputs.truncate(count);
    inputs
}

/// A train's input with each field of its order out of range, and with the other book's byte 7.
fn bad_orders(draft: &Draft) -> Vec<Vec<u8>> {
    let book = draft.order.book;
    let mut inputs = vec![];
    for span in order_fields(book) {
        for value in faults(span) {
            let mut input = draft.input();
            span.write(&mut input, value);
            inputs.push(input);
        }
    }
    let mut other = draft.input();
    other[BOOK] = book.other().byte();
    inputs.push(other);
    inputs
}

/// Stems of the numbers that are tried at a train's five parts: that of 21 81 2471 217-3, the least, and three with 0 and 9 beside
/// each other.
const STEMS: [u64; 5] = [21_812_471_217, 90_180_909_109, 37_809, 1, 9_099_999_999];

/// Trains with one number slipped: another digit in every place, every exchange, every end of the range.
fn numbered(seed: u64) -> Vec<Draft> {
    let mut drafts = vec![];
    for (part, stem) in PARTS.into_iter().zip(STEMS) {
        let mut draft = two_engines(&mut Random::for_case(seed, stem), Book::CrossBorder);
        let attempts = attempts(closed(stem)).into_iter();
        for attempt in attempts.filter(|attempt| is_in_file(attempt.met)) {
            part.vehicle(&mut draft).number = attempt.number;
            drafts.push(draft.clone());
        }
    }
    drafts
}

/// Of the nine other digits in a place a file of cases has one.
fn is_in_file(met: Met) -> bool {
    match met {
        Met::Changed(place, from, to) => to == (from + 1 + place as u64 % 9) % 10,
        _ => true,
    }
}

/// Shorter than an order, at the end of it, and about the 4,848 bytes that are read.
fn odd_lengths() -> Vec<Vec<u8>> {
    let mut longest = case_a();
    longest.hauled.resize(210, longest.hauled[0]);
    longest.renumber();
    let mut bytes = longest.input();
    bytes.truncate(MOST_FRAME);
    let lengths = [
        0, 1, 23, 24, 25, 47, 48, 49, 72, 4_800, 4_823, 4_824, 4_825, 4_847, 4_848, 4_849, 4_872,
        5_000,
    ];
    lengths.map(|length| bytes[..length].to_vec()).to_vec()
}

fn random_input(random: &mut Random, book: Book) -> Vec<u8> {
    let size = match random.below(100) {
        0..4 => Size::Any,
        4..6 => Size::Exactly(random.between(51, 198) as usize),
        _ => Size::Few,
    };
    let call = train_call(random, book, size);
    let Inputs::Train { vehicles, order } = call.inputs else {
        return vec![];
    };
    let mut input = [order, vehicles].concat();
    // Lists that are too long would fill the file; some of them are enough.
    if input.len() > 4_824 && random.percent(80) {
        input.truncate(24 * (1 + random.below(20)));
    }
    input.truncate(MOST_FRAME);
    input
}

/// Inputs of ROUTE: the worked one, odd ones, what is swept, slipped numbers, lengths that k counts, then random ones up to the
/// count.
pub fn route_inputs(seed: u64, count: usize) -> Vec<Vec<u8>> {
    let mut inputs = vec![worked_route()];
    inputs.extend(odd_routes());
    inputs.extend(swept_routes(!seed, Book::CrossBorder));
    for draft in numbered(!seed) {
        inputs.extend(route_input(seated(Function::RouteOfTrain, &draft)));
    }
    for (draft, more) in swept_lengths(!seed).iter().zip([0, 1, 2].iter().cycle()) {
        let orders = written(&vec![draft.order; 1 + more]);
        inputs.push([&[1 + *more as u8], &orders[..], &draft.vehicles()].concat());
    }
    filled_up_routes(inputs, !seed, Book::CrossBorder, count)
}

/// Inputs of ROUTE whose sections are domestic, or of both books: what is swept, then random ones up to the count.
pub fn domestic_route_inputs(seed: u64, count: usize) -> Vec<Vec<u8>> {
    let seed = !seed ^ DOMESTIC;
    let mut inputs = swept_routes(seed, Book::Domestic);
    let mut too_many = b();
    too_many.hauled.resize(200, too_many.hauled[9]);
    inputs.push([&[1], &too_many.input()[..]].concat());
    filled_up_routes(inputs, seed, Book::Domestic, count)
}

fn swept_routes(seed: u64, book: Book) -> Vec<Vec<u8>> {
    let mut inputs = vec![];
    for (index, met) in (0..).zip(swept_few(book)) {
        let journey = swept_journey(&mut Random::for_case(seed, index), book, met);
        inputs.extend(route_input(journey.of_train(0)));
    }
    inputs
}

fn filled_up_routes(mut inputs: Vec<Vec<u8>>, seed: u64, book: Book, count: usize) -> Vec<Vec<u8>> {
    let mut index = 1_000_000;
    while inputs.len() < count {
        index += 1;
        let call = route_call(&mut Random::for_case(seed, index), book, Size::Few);
        inputs.extend(route_input(call).filter(|input| input.len() <= MOST_ROUTE));
    }
    inputs.truncate(count);
    inputs
}

/// Random routes above this would fill the file; longer ones are among the odd and the swept.
const MOST_ROUTE: usize = 1_200;

/// The input that lends ROUTE the same vehicles and orders; none where the orders are not whole records.
fn route_input(call: Call) -> Option<Vec<u8>> {
    let Inputs::TrainRoute { vehicles, orders } = call.inputs else {
        return None;
    };
    let whole = orders.len().is_multiple_of(ORDER);
    let sections = u8::try_from(orders.len().div_ceil(ORDER)).ok()?;
    // Orders that are cut short have nothing behind them.
    let behind = if whole { vehicles } else { vec![] };
    Some([vec![sections], orders, behind].concat())
}

/// Inputs that end in a count, in an order or in a vehicle, and counts that are no count of sections.
fn odd_routes() -> Vec<Vec<u8>> {
    let draft = case_a();
    let vehicles = draft.vehicles();
    let route = |sections: u8, there: usize, vehicles: &[u8]| {
        let orders = written(&vec![draft.order; there]);
        [&[sections], &orders[..], vehicles].concat()
    };
    let short = route(2, 2, &vehicles);
    let lengths = [0, 1, 2, 24, 25, 26, 48, 49, 50, 72, 73, 74, 97, 312, 313];
    let mut inputs: Vec<Vec<u8>> = lengths.map(|length| short[..length].to_vec()).to_vec();
    for sections in [0, 1, 2, 3, 63, 64, 65, 66, 255] {
        inputs.push(route(sections, usize::from(sections), &vehicles));
        inputs.push(route(sections, usize::from(sections), &vehicles[..23]));
        inputs.push(route(sections, 1, &vehicles));
    }
    let mut too_many = route(65, 65, &vehicles);
    too_many[1 + 2 * ORDER + 6] = 201;
    inputs.push(too_many);
    let mut longest = draft.clone();
    longest.hauled.resize(210, longest.hauled[0]);
    for (sections, length) in [
        (1, 4_800),
        (1, 4_823),
        (1, 4_824),
        (1, 4_825),
        (64, 4_800),
        (255, 4_800),
        (255, 4_824),
        (255, 4_900),
    ] {
        let vehicles = &longest.vehicles()[..length];
        inputs.push(route(sections, usize::from(sections), vehicles));
    }
    inputs
}
