//! Accounts that lists have, and accounts at and around every ceiling that no list has.

use super::damage::{flip_bytes, Span};
use super::draft::bytes;
use super::lengths::BOUNDS;
use super::trains::{plain_train, train, Size};
use crate::account::{Account, ACCOUNT, NO_SETTING};
use crate::book::Book;
use crate::category::CROSS_BORDER_CATEGORIES;
use crate::facts::Facts;
use crate::offered::probes;
use crate::order::Order;
use crate::random::Random;
use crate::vehicle::{Vehicle, ISOLATED, SET_TO_M, SET_TO_V};

const fn figure(at: usize, width: usize, high: u64) -> Span {
    Span {
        at,
        width,
        low: 0,
        high,
    }
}

/// Every figure, mark and setting of the 128-byte record with its ceiling.
pub const FIGURES: [Span; 28] = [
    figure(0, 4, 200),
    figure(4, 4, 500_000),
    figure(8, 4, 500_000),
    figure(12, 4, 500_000),
    figure(16, 4, 200_000),
    figure(20, 4, 4_800),
    figure(24, 4, 4_800),
    figure(28, 4, 200),
    figure(32, 4, 200),
    figure(36, 4, 200),
    figure(40, 4, 200),
    figure(44, 4, 200),
    figure(48, 4, 200),
    figure(52, 4, 200),
    figure(56, 1, 1),
    figure(57, 1, 1),
    figure(58, 1, 1),
    figure(59, 1, 1),
    figure(60, 4, 200),
    figure(64, 1, 4),
    figure(65, 1, 4),
    figure(66, 1, 4),
    figure(67, 1, 4),
    figure(68, 1, 4),
    figure(69, 4, 200_000),
    figure(73, 4, 500_000),
    figure(77, 4, 500_000),
    figure(81, 1, 1),
];

/// The first byte that no figure has; it and those behind it are 0.
pub const UNUSED: usize = 82;

/// The figures that joining adds up, by their places in the table; runs may be added too.
const SUMS: [usize; 17] = [0, 1, 2, 3, 4, 5, 6, 7, 8, 9, 10, 11, 12, 13, 24, 25, 26];

pub type AccountBytes = [u8; ACCOUNT];

/// An account within its ceilings.
pub fn good_account(random: &mut Random) -> AccountBytes {
    match random.below(10) {
        0..4 => listed(random),
        4..7 => plausible(random).write(),
        7 => nearly_listed(random),
        8 => at_ceilings(random),
        _ => anywhere(random),
    }
}

/// Of a list that a train could haul.
fn listed(random: &mut Random) -> AccountBytes {
    let hauled = match random.below(10) {
        0 => vec![],
        1..3 => train(random, Book::CrossBorder, Size::Any).hauled,
        3..5 => train(random, Book::Domestic, Size::Any).hauled,
        _ => plain_train(random, Book::CrossBorder, Size::Few).hauled,
    };
    account_of(&hauled)
}

/// The account of good hauled vehicles.
pub fn account_of(hauled: &[Vehicle]) -> AccountBytes {
    Account::of(bytes(hauled).as_chunks().0).write()
}

/// Of a list, with one figure that is not the list's.
fn nearly_listed(random: &mut Random) -> AccountBytes {
    let mut account = listed(random);
    let span = &FIGURES[random.below(FIGURES.len())];
    span.write(&mut account, random.draw() % (span.high + 1));
    account
}

/// Some figures at their ceilings or one below, the others 0 or anywhere.
fn at_ceilings(random: &mut Random) -> AccountBytes {
    let mut account = [0; ACCOUNT];
    for span in &FIGURES {
        let inside = random.draw() % (span.high + 1);
        let value = random.pick(&[0, inside, span.high, span.high - 1]);
        span.write(&mut account, value);
    }
    account
}

fn anywhere(random: &mut Random) -> AccountBytes {
    let mut account = [0; ACCOUNT];
    for span in &FIGURES {
        span.write(&mut account, random.draw() % (span.high + 1));
    }
    account
}

/// Figures about the rules' boundaries, mostly such that a category stands; no list need have them.
pub fn plausible(random: &mut Random) -> Account {
    let near = |random: &mut Random, at: &[i64]| (random.pick(at) + random.around()) as u32;
    let mark = |random: &mut Random| random.percent(2);
    let mass = near(random, &[2_000, 6_000, 8_000, 12_000, 16_000]);
    let (braked_v, braked_m) = plausible_brakes(random, mass);
    let first = plausible_settings(random, mass > 12_000);
    let in_m = first.iter().filter(|&&setting| setting == SET_TO_M).count() as u32;
    let length = near(random, &[1_500, 4_000, 5_000, 5_200, 6_800, 7_000]);
    Account {
        count: random.pick(&[1, 2, 4, 5, 6, 20, 100, 198, 199]),
        mass,
        braked_v,
        braked_m,
        length,
        axles: near(random, &[40, 200, 246]),
        axles_v: near(random, &[4, 8, 12]),
        engines: random.pick(&[0, 0, 0, 1, 2, 3, 5, 6]),
        set_to_m: random.pick(&[0, 0, in_m, in_m, in_m + 1]),
        isolated: random.pick(&[0, 1, 10, 200]),
        d_loads: random.pick(&[0, 1, 199, 200]),
        leading: u32::from(mark(random)),
        trailing: u32::from(mark(random)),
        longest: random.pick(&[0, 0, 9, 10, 11]),
        engine_behind_wagon: mark(random),
        rule_16: mark(random),
        rule_17: mark(random),
        rule_18: mark(random),
        slowest: random.pick(&[0, 1, 80, 90, 91, 100, 100, 120, 120, 200]),
        first,
        length_v: plausible_length_v(random, length),
        engines_m: random.pick(&[0, 0, braked_m, 500_000]),
        wagons_v: random.pick(&[0, 0, braked_v, 500_000]),
        engine_not_in_m: random.percent(20),
    }
}

/// What no list has: about 700 m set to V, or far more, in at most 700 m; one of categories 1 to 3 is just short or just not.
pub fn longer_in_v(random: &mut Random, working: &[Vehicle], order: &Order) -> Account {
    let all_in_m = working.iter().all(|engine| engine.setting == SET_TO_M);
    // With engines in M it may be a long locomotive.
    let (mass, setting, in_m) = match all_in_m && random.percent(50) {
        true => (random.between(12_001, 16_000), SET_TO_M, 5),
        false => (random.between(500, 8_000), SET_TO_V, 0),
    };
    let length_v = random.pick(&[7_000, 7_000, 7_200, 20_000, 199_999]) + random.around();
    let mut account = Account {
        count: random.pick(&[5, 20, 198]),
        mass: mass as u32,
        braked_m: 200 * in_m,
        length: random.pick(&[150, 5_000, 6_999, 7_000]),
        axles: 40,
        axles_v: random.pick(&[12, 40]),
        set_to_m: in_m,
        slowest: random.pick(&[90, 100, 120]),
        first: [setting; 5],
        length_v: length_v as u32,
        ..Account::EMPTY
    };
    let facts = Facts::of_account(bytes(working).as_chunks().0, &account);
    let short = -CROSS_BORDER_CATEGORIES[random.below(3)].margin(&facts, order);
    let missing = short.div_euclid(4 * (100 - facts.k));
    account.braked_v = (missing + random.around()).clamp(0, 500_000) as u32;
    account
}

/// All of the length, about a begun 20 m, or what no train has.
fn plausible_length_v(random: &mut Random, length: u32) -> u32 {
    match random.below(8) {
        0..2 => length,
        2..4 => random.pick(&[0, 7_200, 7_201, 20_000, 199_999, 200_000]),
        _ => (i64::from(random.pick(&BOUNDS)) + random.around()) as u32,
    }
}

/// V and M masses for categories 1 to 3, or for 4 and 5.
fn plausible_brakes(random: &mut Random, mass: u32) -> (u32, u32) {
    match random.below(10) {
        0..6 => (
            mass * random.pick(&[50, 60, 80, 100, 120]) / 100,
            random.pick(&[0, 1, 2, 3, 1_000, 5_000]),
        ),
        _ => (
            random.pick(&[0, 1, 1_000, 1_999, 2_000, 2_001]),
            mass * random.pick(&[45, 60, 80, 100]) / 100,
        ),
    }
}

fn plausible_settings(random: &mut Random, heavy: bool) -> [u8; 5] {
    let in_m = if heavy { 70 } else { 25 };
    std::array::from_fn(|_| match random.percent(in_m) {
        true => SET_TO_M,
        false => random.pick(&[ISOLATED, SET_TO_V, NO_SETTING, NO_SETTING]),
    })
}

/// Refusal 7: a figure above its ceiling, a mark of 2, an unused byte, another length.
pub fn bad_account(random: &mut Random) -> Vec<u8> {
    let mut account = good_account(random).to_vec();
    match random.below(10) {
        0..2 => account.resize(random.pick(&[0, 63, 64, 65, 127, 129, 192]), 0),
        2..4 => account[UNUSED + random.below(ACCOUNT - UNUSED)] = random.pick(&[1, 255]),
        _ => FIGURES[random.below(FIGURES.len())].write_bad(random, &mut account),
    }
    account
}

/// A good account but for one figure, mark, setting, unused byte or its length.
pub fn probed_account(random: &mut Random) -> Vec<u8> {
    let mut account = good_account(random).to_vec();
    let probes = probes();
    let other_than_0 = random.pick(&[1, 128, 255]);
    random.pick(&probes).put(&mut account, other_than_0);
    account
}

/// Good or bad, as it comes.
pub fn any_account(random: &mut Random) -> Vec<u8> {
    match random.below(20) {
        0..2 => bad_account(random),
        2 => {
            let mut account = good_account(random);
            FIGURES[random.below(FIGURES.len())].write_edge(random, &mut account);
            account.to_vec()
        }
        3 => {
            let mut account = good_account(random);
            flip_bytes(random, &mut account);
            account.to_vec()
        }
        _ => good_account(random).to_vec(),
    }
}

/// Two accounts whose joined figure stands at its ceiling, one below or one above.
pub fn pair_at_ceiling(random: &mut Random) -> (AccountBytes, AccountBytes) {
    let mut left = account_of(&plain_train(random, Book::CrossBorder, Size::Few).hauled);
    let mut right = account_of(&plain_train(random, Book::CrossBorder, Size::Few).hauled);
    if random.percent(30) {
        fill_with_runs(random, &mut left);
        fill_with_runs(random, &mut right);
    }
    for _ in 0..random.pick(&[1, 1, 1, 2]) {
        let span = &FIGURES[random.pick(&SUMS)];
        let one = random.draw() % (span.high + 1);
        let other = span.high - one + random.pick(&[0, 0, 1]);
        span.write(&mut left, one.saturating_sub(u64::from(random.percent(20))));
        span.write(&mut right, other.min(span.high));
    }
    (left, right)
}

/// Leading, trailing and count as runs that may go on into the neighbour.
fn fill_with_runs(random: &mut Random, account: &mut AccountBytes) {
    let count = random.pick(&[0, 1, 99, 100, 101]);
    for place in [0, 11, 12, 13] {
        let value = random.pick(&[count, count, count, 0, 100, 101]);
        FIGURES[place].write(account, value);
    }
}
