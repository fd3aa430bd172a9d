//! Changes that bring a train to a boundary: at it, one below or one above.

use super::domestic_edges::DOMESTIC_EDGES;
use super::draft::{aim, Draft, AXLES, BRAKED_M, BRAKED_V, LENGTH, MASS};
use super::{lengths, margins};
use crate::book::Book;
use crate::random::Random;
use crate::vehicle::{Vehicle, HAULED_ENGINE, ISOLATED, SET_TO_M, SET_TO_R, SET_TO_V, WAGON};

pub type Edge = fn(&mut Random, &mut Draft);

/// Those that decide most stand more than once.
const EDGES: [Edge; 32] = [
    margins::aim_odd_margin,
    margins::aim_odd_margin,
    margins::aim_margin,
    margins::aim_margin,
    margins::aim_margin,
    hauled_mass,
    hauled_mass,
    lengths::v_length,
    lengths::v_length,
    lengths::v_length,
    lengths::v_length,
    hauled_length,
    train_length,
    axles,
    v_masses,
    v_masses,
    v_axles,
    v_axles,
    isolated_run,
    isolated_run,
    engines,
    engines,
    limits,
    columns,
    percentage,
    fifth_and_sixth,
    fifth_and_sixth,
    one_mark,
    one_speed,
    own_speed,
    end_isolated,
    engine_behind_wagon,
];

pub fn apply(random: &mut Random, draft: &mut Draft) {
    let edges: &[Edge] = match draft.order.book {
        Book::CrossBorder => &EDGES,
        Book::Domestic => &DOMESTIC_EDGES,
    };
    random.pick(edges)(random, draft);
}

/// Rules 40 to 44 and byte 14.
fn hauled_mass(random: &mut Random, draft: &mut Draft) {
    let mass = random.pick(&[8_000, 8_000, 12_000, 12_000, 16_000]) + random.around();
    aim(&mut draft.hauled, MASS, mass);
}

/// Rule 22.
fn hauled_length(random: &mut Random, draft: &mut Draft) {
    aim(&mut draft.hauled, LENGTH, 7_000 + random.around());
}

/// Rule 21, most often with a hauled part that does not break 22.
fn train_length(random: &mut Random, draft: &mut Draft) {
    let train = 7_400 + random.around();
    let working = random.between(380, 480);
    aim(&mut draft.working, LENGTH, working);
    let working: i64 = draft.working.iter().map(LENGTH.get).sum();
    aim(&mut draft.hauled, LENGTH, train - working);
}

/// Rule 23.
fn axles(random: &mut Random, draft: &mut Draft) {
    let working: i64 = draft.working.iter().map(AXLES.get).sum();
    aim(&mut draft.hauled, AXLES, 250 + random.around() - working);
}

/// Leaves V to a few vehicles, as categories 4 and 5 ask.
fn few_in_v(random: &mut Random, draft: &mut Draft) {
    let kept = 1 + random.below(3);
    let in_v = draft
        .hauled
        .iter_mut()
        .filter(|vehicle| vehicle.setting == SET_TO_V);
    for vehicle in in_v.skip(kept) {
        vehicle.setting = SET_TO_M;
    }
    if !draft.hauled.iter().any(|one| one.setting == SET_TO_V) {
        let place = random.below(draft.hauled.len());
        draft.hauled[place].setting = SET_TO_V;
    }
    for engine in &mut draft.working {
        if random.percent(70) {
            engine.setting = SET_TO_M;
        }
    }
}

pub fn all_in_v(draft: &mut Draft) -> impl Iterator<Item = &mut Vehicle> {
    let records = draft.working.iter_mut().chain(&mut draft.hauled);
    records.filter(|vehicle| vehicle.setting == SET_TO_V)
}

/// Rule 32, and the domestic 84.
pub fn v_masses(random: &mut Random, draft: &mut Draft) {
    few_in_v(random, draft);
    aim(all_in_v(draft), BRAKED_V, 2_000 + random.around());
}

/// Rule 34, with 32 unbroken.
fn v_axles(random: &mut Random, draft: &mut Draft) {
    few_in_v(random, draft);
    aim(all_in_v(draft), AXLES, 12 + random.around());
    aim(all_in_v(draft), BRAKED_V, random.between(0, 2_000));
}

/// Rule 33, and the domestic 87: nine to twelve isolated in a row, the braked mass of the others made good.
pub fn isolated_run(random: &mut Random, draft: &mut Draft) {
    let run = random.pick(&[9, 10, 10, 11, 11, 12]);
    let few = if random.percent(80) { 2 } else { 0 };
    if random.percent(70) {
        few_in_v(random, draft);
        aim(all_in_v(draft), BRAKED_V, random.between(0, 2_000));
        aim(all_in_v(draft), AXLES, random.between(1, 12));
    }
    let filler = draft.hauled[0];
    while draft.hauled.len() < run + few && draft.hauled.len() < 190 {
        draft.hauled.push(filler);
    }
    let room = draft.hauled.len() - run.min(draft.hauled.len());
    let start = random.below(room + 1).max(usize::from(few > 0 && room > 0));
    for vehicle in draft.hauled.iter_mut().skip(start).take(run) {
        vehicle.setting = ISOLATED;
    }
    if few > 0 {
        brake_ends(draft);
    }
    let in_m = draft
        .hauled
        .iter_mut()
        .filter(|one| one.setting == SET_TO_M);
    aim(in_m, BRAKED_M, random.between(3_000, 12_000));
}

/// Rules 19 and 20 unbroken, and their like.
fn brake_ends(draft: &mut Draft) {
    let last = draft.hauled.len() - 1;
    for place in [0, last] {
        if draft.hauled[place].setting == ISOLATED {
            draft.hauled[place].setting = SET_TO_M;
        }
    }
}

/// Rule 31: three or four engines, six or seven.
fn engines(random: &mut Random, draft: &mut Draft) {
    let wanted = random.pick(&[2, 3, 4, 5, 6, 7]);
    let hauled = wanted - draft.working.len().min(wanted);
    for (place, vehicle) in draft.hauled.iter_mut().enumerate() {
        vehicle.kind = if place < hauled { HAULED_ENGINE } else { WAGON };
        vehicle.matrossow = 0;
    }
}

/// Rule 35, by either limit; the domestic 60 and 63.
pub fn limits(random: &mut Random, draft: &mut Draft) {
    let mass: i64 = draft.hauled.iter().map(MASS.get).sum();
    let mut limit = || (mass + random.around()).clamp(1, 100_000) as u32;
    let (one, other) = (limit(), limit());
    match random.below(3) {
        0 => draft.order.coupling = one,
        1 => draft.order.admissible = one,
        _ => (draft.order.coupling, draft.order.admissible) = (one, other),
    }
}

/// Rule 30 and the fallback to the right.
fn columns(random: &mut Random, draft: &mut Draft) {
    match random.below(4) {
        0 => draft.order.limits[random.below(5)] = 0,
        1 => draft.order.limits[random.below(5)..].fill(0),
        2 => draft.order.limits[..random.below(5) + 1].fill(0),
        _ => draft.order.limits = std::array::from_fn(|_| random.pick(&[0, 1, 50, 90, 199, 200])),
    }
}

fn percentage(random: &mut Random, draft: &mut Draft) {
    let table = random.pick(&[50, 57, 60, 77]);
    draft.order.percentage = match random.below(8) {
        0 => random.pick(&[0, 1, 199, 200]),
        _ => (table + random.around()) as u8,
    };
}

/// Rules 41, 43 and 44 at the fifth and the sixth hauled vehicle.
fn fifth_and_sixth(random: &mut Random, draft: &mut Draft) {
    let place = random.pick(&[0, 3, 4, 4, 5, 5, 6]);
    let setting = random.pick(&[SET_TO_M, SET_TO_V]);
    if let Some(vehicle) = draft.hauled.get_mut(place) {
        vehicle.setting = setting;
    }
    for engine in &mut draft.working {
        engine.setting = SET_TO_M;
    }
    if random.percent(70) {
        let mass = random.pick(&[12_000, 12_001, 13_000, 16_000]);
        aim(&mut draft.hauled, MASS, mass);
    }
    if random.percent(50) {
        aim(all_in_v(draft), BRAKED_V, 15_000);
        draft.order.percentage = 0;
    }
}

/// Rules 16 to 18, one record each, and D loads; the domestic 64 and 65.
pub fn one_mark(random: &mut Random, draft: &mut Draft) {
    let count = draft.working.len() + draft.hauled.len();
    let mut records = draft.working.iter_mut().chain(&mut draft.hauled);
    let Some(vehicle) = records.nth(random.below(count)) else {
        return;
    };
    match random.below(5) {
        0 => vehicle.setting = SET_TO_R,
        1 => vehicle.joined = 0,
        2 => vehicle.matrossow = 1,
        3 => (vehicle.matrossow, vehicle.setting) = (1, random.below(4) as u8),
        _ => records.for_each(|vehicle| vehicle.d_load = 1),
    }
}

/// One slow record decides the speed.
fn one_speed(random: &mut Random, draft: &mut Draft) {
    let speed = random.pick(&[1, 79, 80, 81, 89, 90, 91, 99, 100, 101, 119, 120, 121]);
    if random.percent(30) {
        draft.working[0].speed = speed;
    } else {
        let place = random.below(draft.hauled.len());
        draft.hauled[place].speed = speed;
    }
}

/// Line and records about 120, so that the category's own speed may decide.
fn own_speed(random: &mut Random, draft: &mut Draft) {
    let around_120 = [119, 120, 121, 121, 140, 200];
    draft.order.limits = [random.pick(&around_120); 5];
    let slowest = random.pick(&around_120);
    for vehicle in draft.working.iter_mut().chain(&mut draft.hauled) {
        vehicle.speed = vehicle.speed.max(slowest);
    }
}

/// Rules 19 and 20, or the same one vehicle further in; the domestic 75, 76, 85 and 86.
pub fn end_isolated(random: &mut Random, draft: &mut Draft) {
    let last = draft.hauled.len() - 1;
    let place = random.pick(&[0, 1, last, last.saturating_sub(1)]);
    draft.hauled[place.min(last)].setting = ISOLATED;
    if random.percent(30) {
        draft.working[0].setting = ISOLATED;
    }
}

/// Rule 15, also with several wagons between; the domestic 70 and 81.
pub fn engine_behind_wagon(random: &mut Random, draft: &mut Draft) {
    let place = random.below(draft.hauled.len());
    draft.hauled[place].kind = HAULED_ENGINE;
}
