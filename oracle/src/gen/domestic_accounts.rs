//! Accounts about the domestic book's bounds; no list need have them.

use super::draft::{bytes, Draft};
use crate::account::{Account, NO_SETTING};
use crate::facts::Facts;
use crate::random::Random;
use crate::vehicle::{ISOLATED, SET_TO_M, SET_TO_R, SET_TO_V};

/// Beside the draft's engines and order, mostly such that a category stands.
pub fn plausible_domestic(random: &mut Random, draft: &Draft) -> Account {
    let mut account = figures(random, draft);
    match random.below(100) {
        0..70 => aim_margin(random, draft, &mut account),
        70..73 => set_braked(&mut account, 500_000, 1),
        73..76 => set_braked(&mut account, 0, 500_000),
        _ => {}
    }
    account
}

/// Every braked mass the same, for the greatest and the least margin.
fn set_braked(account: &mut Account, braked: u32, mass: u32) {
    (account.braked_v, account.braked_m) = (braked, braked);
    (account.engines_m, account.wagons_v) = (braked, braked);
    account.mass = mass;
}

fn figures(random: &mut Random, draft: &Draft) -> Account {
    let rare = |random: &mut Random| random.percent(2);
    let mass = (random.pick(&[2_000, 6_000, 8_000, 12_000, 16_000]) + random.around()) as u32;
    let engines = random.pick(&[0, 0, 0, 0, 0, 0, 0, 1, 2, 3, 5, 6, 7]);
    let first = first_settings(random);
    let in_m = first.iter().filter(|&&setting| setting == SET_TO_M).count() as u32;
    let share = |random: &mut Random| mass * random.pick(&[0, 50, 100, 150, 200]) / 100;
    Account {
        count: match random.below(3) {
            0 => engines + random.pick(&[1, 1, 2, 3]),
            _ => random.pick(&[1, 2, 5, 6, 20, 100, 198]),
        },
        mass,
        braked_v: random.pick(&[0, 1_000, 1_999, 2_000, 2_001, mass, 2 * mass]),
        braked_m: share(random),
        length: length(random, draft),
        axles: random.pick(&[4, 40, 250]),
        axles_v: random.pick(&[0, 4, 40]),
        engines,
        set_to_m: random.pick(&[0, in_m, in_m, in_m, in_m + 1]),
        isolated: random.pick(&[0, 1, 10, 200]),
        d_loads: random.pick(&[0, 0, 0, 0, 0, 0, 0, 1, 200]),
        leading: u32::from(rare(random)),
        trailing: u32::from(rare(random)),
        longest: random.pick(&[0, 0, 0, 0, 9, 10, 10, 11]),
        engine_behind_wagon: rare(random),
        rule_16: rare(random),
        rule_17: rare(random),
        rule_18: rare(random),
        slowest: match random.below(3) {
            0 => random.pick(&SLOWEST),
            _ => random.pick(&[140, 160, 200]),
        },
        first,
        length_v: random.pick(&[0, 5_001, 7_001]),
        engines_m: share(random),
        wagons_v: share(random),
        engine_not_in_m: random.percent(5),
    }
}

/// About the speeds of the six, and none at all.
const SLOWEST: [u32; 16] = [
    0, 79, 80, 81, 89, 90, 91, 99, 100, 101, 119, 120, 121, 139, 140, 141,
];

/// With the engines about a length at which p changes or rules 68 and 79 are broken.
fn length(random: &mut Random, draft: &Draft) -> u32 {
    let bounds = [1_500, 5_500, 6_500, 7_500, 8_000, 9_000, 10_000];
    let working: i64 = draft.working.iter().map(|one| i64::from(one.length)).sum();
    let length = random.pick(&bounds) + random.around() - working;
    length.clamp(0, 200_000) as u32
}

/// A long locomotive's, all in V, or any.
fn first_settings(random: &mut Random) -> [u8; 5] {
    match random.below(4) {
        0..2 => std::array::from_fn(|_| {
            random.pick(&[SET_TO_M, SET_TO_M, SET_TO_M, ISOLATED, NO_SETTING])
        }),
        2 => [SET_TO_V; 5],
        _ => std::array::from_fn(|_| {
            random.pick(&[ISOLATED, SET_TO_M, SET_TO_M, SET_TO_V, SET_TO_R, NO_SETTING])
        }),
    }
}

/// A figure that the braked mass of a category counts, with how often Q counts it.
type Counted = (i64, fn(&mut Account) -> &mut u32);

const IN_ME: [Counted; 3] = [
    (4, |account| &mut account.braked_v),
    (4, |account| &mut account.engines_m),
    (3, |account| &mut account.wagons_v),
];
const IN_MA: [Counted; 2] = [
    (4, |account| &mut account.braked_v),
    (4, |account| &mut account.braked_m),
];

/// Brings a category's margin to 0, one step below or one above, as far as the ceilings let it.
fn aim_margin(random: &mut Random, draft: &Draft, account: &mut Account) {
    let order = &draft.order;
    let number = random.pick(&[1, 1, 1, 2, 2, 2, 3, 3, 3, 4, 5, 6]);
    let category = &order.book.categories()[number - 1];
    let (weight, figure) = match category.is_1_to_3() {
        true => random.pick(&IN_ME),
        false => random.pick(&IN_MA),
    };
    let off = random.pick(&[-400, -200, -20, -4, -4, -4, 0, 0, 0, 4, 20, 400]);
    let working = bytes(&draft.working);
    for _ in 0..100 {
        let facts = Facts::of_account(working.as_chunks().0, account);
        let short = off - category.margin(&facts, order);
        let counted = i64::from(*figure(account)) + short / (100 * weight);
        if short % (100 * weight) == 0 && (0..=500_000).contains(&counted) {
            *figure(account) = counted as u32;
            return;
        }
        account.mass += 1;
    }
}
