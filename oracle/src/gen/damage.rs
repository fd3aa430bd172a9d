//! Trains and orders that are to be refused, one refusal or several at once.

use super::draft::Draft;
use super::numbers::refused;
use crate::book::Book;
use crate::call::{Call, Inputs};
use crate::order::ORDER;
use crate::random::Random;
use crate::vehicle::{HAULED_ENGINE, VEHICLE, WAGON, WORKING_ENGINE};

/// The offset, width and range of a field.
#[derive(Clone, Copy, Debug, PartialEq, Eq)]
pub struct Span {
    pub at: usize,
    pub width: usize,
    pub low: u64,
    pub high: u64,
}

const fn span(at: usize, width: usize, low: u64, high: u64) -> Span {
    Span {
        at,
        width,
        low,
        high,
    }
}

/// The fields of a vehicle but its number, which slips are made in.
pub const VEHICLE_FIELDS: [Span; 12] = [
    span(8, 2, 1, 2_500),
    span(10, 2, 0, 2_500),
    span(12, 2, 0, 2_500),
    span(14, 2, 1, 1_000),
    span(16, 1, 1, 24),
    span(17, 1, 0, 2),
    span(18, 1, 0, 3),
    span(19, 1, 0, 1),
    span(20, 1, 1, 200),
    span(21, 1, 0, 1),
    span(22, 1, 0, 1),
    span(23, 1, 0, 0),
];

/// The fields of an order; byte 7 has the number of either book, and another book than the first section's is apart.
pub fn order_fields(book: Book) -> &'static [Span] {
    match book {
        Book::CrossBorder => &CROSS_BORDER_FIELDS,
        Book::Domestic => &DOMESTIC_FIELDS,
    }
}

const CROSS_BORDER_FIELDS: [Span; 18] = fields(5, 200, 0);
const DOMESTIC_FIELDS: [Span; 18] = fields(6, 0, 200);

/// By the greatest category asked, percentage and limit for ME140.
const fn fields(asked: u64, percentage: u64, me140: u64) -> [Span; 18] {
    [
        span(0, 1, 0, 200),
        span(1, 1, 0, 200),
        span(2, 1, 0, 200),
        span(3, 1, 0, 200),
        span(4, 1, 0, 200),
        span(5, 1, 1, asked),
        span(6, 1, 0, percentage),
        span(7, 1, 0, 1),
        span(8, 4, 1, 100_000),
        span(12, 4, 1, 100_000),
        span(16, 1, 0, me140),
        span(17, 1, 0, 0),
        span(18, 1, 0, 0),
        span(19, 1, 0, 0),
        span(20, 1, 0, 0),
        span(21, 1, 0, 0),
        span(22, 1, 0, 0),
        span(23, 1, 0, 0),
    ]
}

/// The fields that keep an order from being a good one of this book, by their places in the table, with their values.
pub fn out_of_range(book: Book, record: &[u8; ORDER]) -> Vec<(usize, u64)> {
    let fields = order_fields(book).iter().enumerate();
    let values = fields.map(|(field, span)| (field, span, span.read(record)));
    let out = values.filter(|(_, span, value)| !span.has(*value));
    out.map(|(field, _, value)| (field, value)).collect()
}

/// The values out of range that are tried: one below, one above, the greatest that the bytes hold.
pub fn faults(span: &Span) -> Vec<u64> {
    let below = span.low.checked_sub(1);
    let above = [span.high + 1, span.greatest()];
    below.into_iter().chain(above).collect()
}

impl Span {
    pub fn write(&self, record: &mut [u8], value: u64) {
        let bytes = value.to_le_bytes();
        record[self.at..self.at + self.width].copy_from_slice(&bytes[..self.width]);
    }

    pub fn read(&self, record: &[u8]) -> u64 {
        let mut bytes = [0; 8];
        bytes[..self.width].copy_from_slice(&record[self.at..self.at + self.width]);
        u64::from_le_bytes(bytes)
    }

    pub fn has(&self, value: u64) -> bool {
        (self.low..=self.high).contains(&value)
    }

    pub fn greatest(&self) -> u64 {
        u64::MAX >> (64 - 8 * self.width)
    }

    /// At either end of the range, one beyond it, or at the end of what the bytes can hold.
    pub fn write_edge(&self, random: &mut Random, record: &mut [u8]) {
        let below = self.low.checked_sub(1).unwrap_or(self.low);
        let edges = [below, self.low, self.high, self.high + 1, self.greatest()];
        self.write(record, random.pick(&edges));
    }

    pub fn write_bad(&self, random: &mut Random, record: &mut [u8]) {
        let above = self.high + 1;
        let below = self.low.checked_sub(1).unwrap_or(above);
        let far = above + random.draw() % (self.greatest() - self.high);
        self.write(record, random.pick(&[below, above, far, self.greatest()]));
    }
}

/// The refusals of a whole train.
pub const REFUSALS: [u8; 9] = [1, 2, 3, 4, 5, 11, 12, 13, 14];

/// Draws up the call for a train in which all the given refusals apply as far as they can together.
pub fn refused_train(random: &mut Random, mut draft: Draft, refusals: &[u8]) -> Call {
    let has = |number: u8| refusals.contains(&number);
    spoil_kinds_and_count(random, &mut draft, refusals);
    let mut vehicles = draft.vehicles();
    let mut order = draft.order.write().to_vec();
    if has(3) {
        damage_records(random, &mut vehicles);
    }
    let book = draft.order.book;
    if has(4) {
        damage_order(random, book, &mut order);
    }
    if has(1) {
        cut_short(random, &mut vehicles);
    }
    let least = book.sheet();
    let room = match has(5) {
        true => random.pick(&[0, 1, 24, 31, least - 1]),
        false => sheet_room(random, book),
    };
    Call {
        inputs: Inputs::Train { vehicles, order },
        room,
        fill: random.draw() as u8,
    }
}

/// Refusals 2 and 11 to 14.
pub fn spoil_kinds_and_count(random: &mut Random, draft: &mut Draft, refusals: &[u8]) {
    let has = |number: u8| refusals.contains(&number);
    let wagon = draft.hauled[0];
    if has(13) {
        let engine = draft.working[0];
        draft.working.resize(random.pick(&[3, 3, 4, 10]), engine);
    }
    if has(11) {
        draft.working.clear();
    }
    if has(14) {
        draft.hauled.clear();
    }
    if has(2) {
        let more = random.pick(&[201, 201, 202, 230]) - draft.working.len();
        let filler = match draft.working.first() {
            Some(&engine) if has(14) => engine,
            _ => wagon,
        };
        draft.hauled.resize(more, filler);
    }
    if has(12) && !draft.hauled.is_empty() {
        put_worker_behind(random, draft);
    }
}

/// Refusal 12: some record behind the first hauled one becomes a working engine.
fn put_worker_behind(random: &mut Random, draft: &mut Draft) {
    if draft.hauled.len() == 1 {
        draft.hauled.push(draft.hauled[0]);
    }
    draft.hauled[0].kind = random.pick(&[WAGON, HAULED_ENGINE]);
    let place = 1 + random.below(draft.hauled.len() - 1);
    draft.hauled[place].kind = WORKING_ENGINE;
}

/// Refusal 3: one or two records with a field out of range.
pub fn damage_records(random: &mut Random, vehicles: &mut [u8]) {
    let count = vehicles.len() / VEHICLE;
    if count == 0 {
        return;
    }
    for _ in 0..random.pick(&[1, 1, 2]) {
        let place = match random.below(4) {
            0 => 0,
            1 => count - 1,
            _ => random.below(count),
        };
        let record = &mut vehicles[place * VEHICLE..][..VEHICLE];
        match random.below(2) {
            0 => slip_number(random, record, refused),
            _ => VEHICLE_FIELDS[random.below(VEHICLE_FIELDS.len())].write_bad(random, record),
        }
    }
}

/// Puts in the place of a record's number what a slip makes of it.
pub fn slip_number(random: &mut Random, record: &mut [u8], slip: fn(&mut Random, u64) -> u64) {
    let number = record.first_chunk_mut().expect("a record has its number");
    *number = slip(random, u64::from_le_bytes(*number)).to_le_bytes();
}

/// Refusal 4: a length of its own, or a field out of range.
pub fn damage_order(random: &mut Random, book: Book, order: &mut Vec<u8>) {
    if random.percent(25) {
        order.resize(random.pick(&[0, 1, 23, 25, 48]), 0);
    } else {
        random.pick(order_fields(book)).write_bad(random, order);
    }
}

/// Refusal 1: bytes cut off or added, or none at all.
pub fn cut_short(random: &mut Random, vehicles: &mut Vec<u8>) {
    let odd = 1 + random.below(VEHICLE - 1);
    match random.below(4) {
        0 => vehicles.clear(),
        1 => vehicles.truncate(vehicles.len().saturating_sub(odd)),
        _ => vehicles.extend_from_within(..odd.min(vehicles.len())),
    }
}

/// As long as the book's sheet, or longer.
pub fn sheet_room(random: &mut Random, book: Book) -> usize {
    let least = book.sheet();
    random.pick(&[least, least, least, least + 1, 34, 64])
}

pub fn flip_bytes(random: &mut Random, bytes: &mut [u8]) {
    if bytes.is_empty() {
        return;
    }
    for _ in 0..random.pick(&[1, 1, 2, 5]) {
        let place = random.below(bytes.len());
        bytes[place] ^= 1 << random.below(8);
    }
}

pub fn random_bytes(random: &mut Random, length: usize) -> Vec<u8> {
    (0..length).map(|_| random.draw() as u8).collect()
}
