//! The mixture of calls that is compared: good, at boundaries, damaged and random.

use super::accounts::{
    account_of, any_account, bad_account, good_account, longer_in_v, pair_at_ceiling, plausible,
    probed_account,
};
use super::damage::{
    cut_short, damage_order, damage_records, faults, flip_bytes, order_fields, random_bytes,
    refused_train, sheet_room, slip_number, REFUSALS, VEHICLE_FIELDS,
};
use super::domestic::ease;
use super::domestic_accounts::plausible_domestic;
use super::draft::{bytes, Draft};
use super::numbers::slipped;
use super::trains::{any_engine, any_order, plain_train, train, Size};
use crate::account::Account;
use crate::book::{Book, BOOKS};
use crate::call::{Call, Function, Inputs};
use crate::precedence::refusals;
use crate::random::Random;
use crate::vehicle::{Vehicle, HAULED_ENGINE, VEHICLE, WAGON, WORKING_ENGINE};

/// A call with a whole train.
pub fn train_call(random: &mut Random, book: Book, size: Size) -> Call {
    let draft = train(random, book, size);
    match random.below(100) {
        0..70 => refused_train(random, draft, &[]),
        70..78 => {
            let one = random.pick(&REFUSALS);
            refused_train(random, draft, &[one])
        }
        78..88 => {
            let pair = [random.pick(&REFUSALS), random.pick(&REFUSALS)];
            refused_train(random, draft, &pair)
        }
        88..90 => {
            let several: Vec<u8> = REFUSALS
                .into_iter()
                .filter(|_| random.percent(40))
                .collect();
            refused_train(random, draft, &several)
        }
        _ => spoilt_train(random, &draft),
    }
}

/// Single fields at the ends of their ranges, flipped bits, wrong kinds, other counts, random bytes.
fn spoilt_train(random: &mut Random, draft: &Draft) -> Call {
    let mut vehicles = draft.vehicles();
    let mut order = draft.order.write().to_vec();
    let book = draft.order.book;
    match random.below(12) {
        0..4 => one_field(random, &mut vehicles),
        4..6 => random
            .pick(order_fields(book))
            .write_edge(random, &mut order),
        6 => flip_bytes(random, &mut vehicles),
        7 => flip_bytes(random, &mut order),
        8 => order.resize(random.pick(&[0, 23, 24, 25]), 0),
        9 => vehicles = filled_up(random, draft),
        10 => vehicles = shuffled_kinds(random, draft),
        _ => {
            let length = random.pick(&[0, 1, 23, 24, 25, 48, 240]);
            vehicles = random_bytes(random, length);
        }
    }
    Call {
        inputs: Inputs::Train { vehicles, order },
        room: sheet_room(random, book),
        fill: random.draw() as u8,
    }
}

fn one_field(random: &mut Random, vehicles: &mut [u8]) {
    let records = vehicles.as_chunks_mut::<VEHICLE>().0;
    if records.is_empty() {
        return;
    }
    let place = random.below(records.len());
    let record = &mut records[place];
    match random.below(3) {
        0 => slip_number(random, record, slipped),
        _ => VEHICLE_FIELDS[random.below(VEHICLE_FIELDS.len())].write_edge(random, record),
    }
}

/// 199 to 202 records.
fn filled_up(random: &mut Random, draft: &Draft) -> Vec<u8> {
    let mut longer = draft.clone();
    let light = Vehicle {
        mass: 1,
        length: 1,
        axles: 1,
        kind: WAGON,
        matrossow: 0,
        ..draft.hauled[0]
    };
    let count = random.pick(&[199, 200, 200, 201, 202]);
    longer.hauled.resize(count - draft.working.len(), light);
    longer.vehicles()
}

/// Working engines, hauled engines and wagons in any order: refusals 11 to 14 and rule 15.
fn shuffled_kinds(random: &mut Random, draft: &Draft) -> Vec<u8> {
    let mut records: Vec<Vehicle> = [&draft.working[..], &draft.hauled[..]].concat();
    records.truncate(1 + random.below(6));
    for record in &mut records {
        record.kind = random.pick(&[WAGON, HAULED_ENGINE, WORKING_ENGINE, WORKING_ENGINE]);
    }
    bytes(&records)
}

pub fn call(random: &mut Random, inputs: Inputs, rooms: &[usize]) -> Call {
    Call {
        inputs,
        room: random.pick(rooms),
        fill: random.draw() as u8,
    }
}

/// Three of four are long enough.
const ACCOUNT_ROOMS: [usize; 16] = [
    128, 128, 128, 128, 128, 128, 128, 128, 128, 129, 129, 160, 127, 64, 63, 0,
];

/// A call with a portion offered as hauled.
pub fn portion_call(random: &mut Random, book: Book) -> Call {
    let mut draft = train(random, book, Size::Any);
    let wanted = some_refusals(random, refusals(Function::AccountOf));
    let has = |number: u8| wanted.contains(&number);
    let first = draft.hauled[0];
    match random.below(20) {
        _ if has(2) => draft.hauled.resize(random.pick(&[201, 202, 300]), first),
        0 => draft.hauled.resize(200, first),
        _ => {}
    }
    if has(6) {
        let place = random.below(draft.hauled.len());
        draft.hauled[place].kind = WORKING_ENGINE;
    }
    if wanted.is_empty() && random.percent(5) {
        draft.hauled.clear();
    }
    let mut portion = bytes(&draft.hauled);
    if has(3) {
        damage_records(random, &mut portion);
    }
    if has(1) {
        cut_short(random, &mut portion);
    }
    if !portion.is_empty() && random.percent(30) {
        spoil_some(random, &mut portion);
    }
    let rooms: &[usize] = match has(5) {
        true => &[0, 63, 64, 127],
        false => &[128, 128, 129, 160],
    };
    call(random, Inputs::Portion { portion }, rooms)
}

/// Leaves four of five lists as they are.
fn spoil_some(random: &mut Random, vehicles: &mut Vec<u8>) {
    match random.below(50) {
        0..3 => damage_records(random, vehicles),
        3..6 => cut_short(random, vehicles),
        6..9 => one_field(random, vehicles),
        9 => flip_bytes(random, vehicles),
        _ => {}
    }
}

/// A call that joins two accounts of any make.
pub fn join_call(random: &mut Random) -> Call {
    let (left, right) = match random.below(20) {
        0..7 => {
            let (left, right) = pair_at_ceiling(random);
            (left.to_vec(), right.to_vec())
        }
        7..12 => (good_account(random).to_vec(), good_account(random).to_vec()),
        12..14 => (probed_account(random), good_account(random).to_vec()),
        14..16 => (good_account(random).to_vec(), probed_account(random)),
        _ => (any_account(random), any_account(random)),
    };
    call(random, Inputs::Accounts { left, right }, &ACCOUNT_ROOMS)
}

/// A call with engines lent apart and an account.
pub fn engines_call(random: &mut Random, book: Book) -> Call {
    let wanted = some_refusals(random, refusals(Function::SheetOfAccount));
    let has = |number: u8| wanted.contains(&number);
    let mut draft = engines_and_hauled(random, book);
    if book == Book::Domestic && random.percent(50) {
        ease(&mut draft);
    }
    let hauled = account_beside(random, &draft, &wanted);
    let engines = engines_apart(random, draft.working, &wanted);
    let mut order = draft.order.write().to_vec();
    if has(4) {
        damage_order(random, book, &mut order);
    }
    let inputs = Inputs::Engines {
        engines,
        hauled,
        order,
    };
    let least = book.sheet();
    let rooms = match has(5) {
        true => [0, 31, least - 1, least - 1],
        false => [least, least + 1, 34, 40],
    };
    call(random, inputs, &rooms)
}

/// Good calls but for one field of the order, in turn for every fault of either book.
pub fn order_call(random: &mut Random, turn: u64, of_account: bool) -> Call {
    let mut faulty = vec![];
    for book in BOOKS {
        for span in order_fields(book) {
            faulty.extend(faults(span).into_iter().map(|value| (book, span, value)));
        }
    }
    let (book, span, value) = faulty[turn as usize % faulty.len()];
    let draft = plain_train(random, book, Size::Few);
    let mut order = draft.order.write().to_vec();
    span.write(&mut order, value);
    let vehicles = draft.vehicles();
    let inputs = match of_account {
        false => Inputs::Train { vehicles, order },
        true => Inputs::Engines {
            engines: bytes(&draft.working),
            hauled: account_of(&draft.hauled).to_vec(),
            order,
        },
    };
    call(random, inputs, &[33, 40])
}

/// The engines lent apart, with refusals 1, 2, 3, 11 and 13 where they are wanted.
pub fn engines_apart(random: &mut Random, working: Vec<Vehicle>, wanted: &[u8]) -> Vec<u8> {
    let mut engines = engines(random, working, wanted);
    if wanted.contains(&3) {
        damage_records(random, &mut engines);
    }
    if wanted.contains(&1) {
        cut_short(random, &mut engines);
    }
    engines
}

/// The account beside them, of the hauled vehicles or any other, with refusals 7 and 14 where they are wanted.
pub fn account_beside(random: &mut Random, draft: &Draft, wanted: &[u8]) -> Vec<u8> {
    match random.below(20) {
        _ if wanted.contains(&7) => bad_account(random),
        _ if wanted.contains(&14) => empty_account(random),
        0..7 => account_of(&draft.hauled).to_vec(),
        7..14 if draft.order.book == Book::Domestic => {
            plausible_domestic(random, draft).write().to_vec()
        }
        7..12 => plausible(random).write().to_vec(),
        12..14 => longer_in_v(random, &draft.working, &draft.order)
            .write()
            .to_vec(),
        14..16 => good_account(random).to_vec(),
        16..19 => probed_account(random),
        _ => any_account(random),
    }
}

/// A train at a boundary, or engines and an order that have nothing to do with what is hauled.
pub fn engines_and_hauled(random: &mut Random, book: Book) -> Draft {
    let mut draft = train(random, book, Size::Any);
    if random.percent(40) {
        draft.order = any_order(random, book);
        for engine in &mut draft.working {
            *engine = any_engine(random);
        }
    }
    draft
}

/// None, one or two of a function's refusals, most often none.
pub fn some_refusals(random: &mut Random, all: &[u8]) -> Vec<u8> {
    let wanted = random.pick(&[0, 0, 0, 0, 0, 0, 0, 1, 2, 2]);
    (0..wanted).map(|_| random.pick(all)).collect()
}

/// The engines lent apart, too many or of another kind where that is wanted.
fn engines(random: &mut Random, mut engines: Vec<Vehicle>, wanted: &[u8]) -> Vec<u8> {
    if wanted.contains(&2) {
        engines.resize(random.pick(&[199, 200, 201, 202]), engines[0]);
    } else if wanted.contains(&13) {
        engines.resize(random.pick(&[3, 3, 4]), engines[0]);
    }
    if wanted.contains(&11) {
        let place = random.below(engines.len());
        engines[place].kind = random.pick(&[WAGON, HAULED_ENGINE]);
    }
    bytes(&engines)
}

/// Refusal 14: a count of 0, also with figures that no empty list has.
fn empty_account(random: &mut Random) -> Vec<u8> {
    let account = match random.below(2) {
        0 => Account::EMPTY,
        _ => Account {
            count: 0,
            ..plausible(random)
        },
    };
    account.write().to_vec()
}

/// A call for the vehicle that holds the speed.
pub fn speed_call(random: &mut Random) -> Call {
    let draft = train(random, Book::CrossBorder, Size::Any);
    let mut records: Vec<Vehicle> = [&draft.working[..], &draft.hauled[..]].concat();
    // Few speeds, so that ties are common.
    if random.percent(50) {
        for record in &mut records {
            record.speed = random.pick(&[80, 90, 100]);
        }
    }
    if random.percent(4) {
        records.resize(random.pick(&[200, 201, 202]), records[0]);
    }
    let cut = match random.below(10) {
        0 => 0,
        1 => records.len(),
        _ => random.below(records.len() + 1),
    };
    let mut front = bytes(&records[..cut]);
    let mut back = bytes(&records[cut..]);
    if random.percent(3) {
        front.clear();
        back.clear();
    }
    for portion in [&mut front, &mut back] {
        if !portion.is_empty() && random.percent(50) {
            spoil_some(random, portion);
        }
    }
    let rooms = [24, 24, 24, 24, 24, 25, 48, 128, 23, 0];
    call(random, Inputs::Portions { front, back }, &rooms)
}

/// A hauled list cut into portions, with the engines and the order that go with it.
pub struct Cut {
    pub draft: Draft,
    pub portions: Vec<Vec<u8>>,
}

pub fn cut(random: &mut Random, book: Book) -> Cut {
    let mut draft = match random.below(4) {
        0 => plain_train(random, book, Size::Any),
        _ => train(random, book, Size::Any),
    };
    if random.percent(30) {
        long_runs(random, &mut draft);
    }
    let pieces = random.pick(&[1, 2, 2, 3, 3, 4, 5, 8]);
    let mut cuts: Vec<usize> = (1..pieces)
        .map(|_| random.below(draft.hauled.len() + 1))
        .collect();
    cuts.extend([0, draft.hauled.len()]);
    cuts.sort_unstable();
    let portions = cuts
        .windows(2)
        .map(|ends| bytes(&draft.hauled[ends[0]..ends[1]]))
        .collect();
    Cut { draft, portions }
}

/// Runs of isolated vehicles that the cuts will cross.
fn long_runs(random: &mut Random, draft: &mut Draft) {
    let mut isolated = random.percent(50);
    for vehicle in &mut draft.hauled {
        if random.percent(15) {
            isolated = !isolated;
        }
        if isolated {
            vehicle.setting = 0;
        }
    }
}

/// A plain train of one engine and so many hauled, every record and the order good.
pub fn good_train(random: &mut Random, hauled: usize) -> Draft {
    let mut draft = plain_train(random, Book::CrossBorder, Size::Exactly(hauled));
    draft.working.truncate(1);
    draft
}
