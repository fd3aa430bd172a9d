//! Trains whose hauled vehicles set to V have a length at a begun 20 m, with metres beside that k does not count, or pass 700 m.

use super::draft::{aim, Draft, LENGTH, MASS};
use super::margins::{aim_margin, set_to};
use super::trains::{plain_train, Size};
use crate::book::Book;
use crate::random::Random;
use crate::vehicle::{Vehicle, HAULED_ENGINE, ISOLATED, SET_TO_M, SET_TO_R, SET_TO_V, WAGON};

/// Where k begins, and each begun 20 m behind.
pub const BOUNDS: [u32; 11] = [
    5_000, 5_200, 5_400, 5_600, 5_800, 6_000, 6_200, 6_400, 6_600, 6_800, 7_000,
];

/// The common rules that may be the first broken by a train with more than 700 m set to V, which breaks 22.
pub const PAST_700_M: [u8; 8] = [15, 16, 17, 18, 19, 20, 21, 22];

/// What stands beside the hauled vehicles set to V.
#[derive(Clone, Copy, Debug, PartialEq, Eq)]
pub enum Beside {
    Nothing,
    Isolated,
    /// The first five of a long locomotive.
    InM,
    /// One that breaks rule 16.
    InR,
    /// Working engines, set to V as well.
    Working,
}

pub const BESIDE: [Beside; 5] = [
    Beside::Nothing,
    Beside::Isolated,
    Beside::InM,
    Beside::InR,
    Beside::Working,
];

/// The fewest vehicles that pass 700 m.
const ENOUGH_IN_V: usize = 8;

/// An edge: k about any bound, often with a margin that one percent decides; past the last one, with each rule that may be first.
pub fn v_length(random: &mut Random, draft: &mut Draft) {
    let length = i64::from(random.pick(&BOUNDS)) + random.around();
    let beside = random.pick(&BESIDE);
    if length > 7_000 {
        let rule = random.pick(&PAST_700_M);
        pass_700_m(random, draft, rule);
    } else {
        stand(random, draft, length, beside);
    }
    if random.percent(60) {
        decide(random, draft);
    }
}

/// Asks for one of 1 to 3, and brings its margin, or a later category's, near a whole tonne.
fn decide(random: &mut Random, draft: &mut Draft) {
    draft.order.asked = random.pick(&[1, 2, 3]);
    aim_margin(random, draft);
}

/// Brings the length of the hauled vehicles set to V to a value, and puts other metres beside them, within 700 m where that leaves room.
fn stand(random: &mut Random, draft: &mut Draft, length: i64, beside: Beside) {
    let others = match beside {
        Beside::Nothing | Beside::Working => 0,
        Beside::Isolated => 1 + random.below(3),
        Beside::InM => 5,
        Beside::InR => 1,
    };
    fill_up(draft, ENOUGH_IN_V + others);
    set_all(draft, beside, others);
    load(random, draft, beside);
    aim(set_to(&mut draft.hauled, SET_TO_V), LENGTH, length);
    let least = others as i64;
    let room = (7_000 - length).max(least);
    let some = random.between(least, room);
    let metres = random.pick(&[400.min(room), room, some]);
    let hauled = draft.hauled.iter_mut();
    aim(
        hauled.filter(|vehicle| vehicle.setting != SET_TO_V),
        LENGTH,
        metres,
    );
}

/// Brings the length of the hauled vehicles set to V past 700 m, where this is the first common rule that the hauled part breaks.
fn pass_700_m(random: &mut Random, draft: &mut Draft, rule: u8) {
    let beside = match rule {
        16 => Beside::InR,
        19 | 20 => Beside::Isolated,
        _ => random.pick(&[Beside::Nothing, Beside::InM, Beside::Working]),
    };
    for vehicle in &mut draft.hauled {
        (vehicle.kind, vehicle.joined, vehicle.matrossow) = (WAGON, 1, 0);
    }
    stand(random, draft, 7_001, beside);
    let hauled: i64 = draft.hauled.iter().map(LENGTH.get).sum();
    let train = if rule == 21 { 7_401 } else { 7_400 };
    aim(&mut draft.working, LENGTH, train - hauled);
    let last = draft.hauled.len() - 1;
    match rule {
        15 => draft.hauled[last].kind = HAULED_ENGINE,
        17 => draft.hauled[last].joined = 0,
        18 => draft.hauled[last].matrossow = 1,
        19 => draft.hauled.swap(0, 1),
        20 => draft.hauled.swap(1, last),
        _ => {}
    }
}

/// Wagons like the last vehicle, so that there are so many hauled.
pub fn fill_up(draft: &mut Draft, count: usize) {
    let filler = Vehicle {
        kind: WAGON,
        matrossow: 0,
        ..draft.hauled[draft.hauled.len() - 1]
    };
    while draft.hauled.len() < count {
        draft.hauled.push(filler);
    }
}

/// All in V, save those beside: the first five, or some from the second on.
fn set_all(draft: &mut Draft, beside: Beside, others: usize) {
    for vehicle in &mut draft.hauled {
        vehicle.setting = SET_TO_V;
    }
    let (from, setting) = match beside {
        Beside::InM => (0, SET_TO_M),
        Beside::InR => (1, SET_TO_R),
        _ => (1, ISOLATED),
    };
    for vehicle in &mut draft.hauled[from..from + others] {
        vehicle.setting = setting;
    }
}

/// A hauled mass at which rules 40 to 44 are met, with the engines' settings that go with it.
fn load(random: &mut Random, draft: &mut Draft, beside: Beside) {
    let (low, high) = match beside {
        Beside::InM => (12_001, 15_800),
        Beside::Working => (2_000, 8_000),
        _ => random.pick(&[(2_000, 8_000), (8_001, 12_000)]),
    };
    aim(&mut draft.hauled, MASS, random.between(low, high));
    for engine in &mut draft.working {
        engine.setting = match high {
            8_000 => SET_TO_V,
            _ => SET_TO_M,
        };
    }
}

/// A train at every bound, one below and one above, with each of what can stand beside, and one past 700 m for each common rule
/// that it may break first; one of categories 1 to 3 is asked.
pub fn swept_lengths(seed: u64) -> Vec<Draft> {
    let mut drafts = vec![];
    for bound in BOUNDS {
        for above in [-1, 0, 1] {
            for beside in BESIDE {
                let mut random = Random::for_case(seed, drafts.len() as u64);
                let mut draft = plain_train(&mut random, Book::CrossBorder, Size::Few);
                stand(&mut random, &mut draft, i64::from(bound) + above, beside);
                decide(&mut random, &mut draft);
                drafts.push(draft);
            }
        }
    }
    for rule in PAST_700_M {
        let mut random = Random::for_case(seed, drafts.len() as u64);
        let mut draft = plain_train(&mut random, Book::CrossBorder, Size::Few);
        pass_700_m(&mut random, &mut draft, rule);
        decide(&mut random, &mut draft);
        drafts.push(draft);
    }
    drafts
}
