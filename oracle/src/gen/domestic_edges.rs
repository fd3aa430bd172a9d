//! Changes that bring a domestic train to a bound of its book: at it, one below or one above.

use super::draft::{aim, Draft, BRAKED_V, LENGTH, MASS};
use super::edges::{
    all_in_v, end_isolated, engine_behind_wagon, isolated_run, limits, one_mark, v_masses, Edge,
};
use super::lengths::fill_up;
use super::margins::aim_margin;
use crate::order::{MA80, ME140};
use crate::random::Random;
use crate::vehicle::{Vehicle, HAULED_ENGINE, ISOLATED, SET_TO_M, SET_TO_R, SET_TO_V, WAGON};

/// Those that decide most stand more than once.
pub const DOMESTIC_EDGES: [Edge; 32] = [
    aim_margin,
    aim_margin,
    aim_margin,
    aim_margin,
    aim_margin,
    hauled_mass,
    hauled_mass,
    hauled_mass,
    limits,
    limits,
    columns,
    train_length,
    train_length,
    train_length,
    train_length,
    hauled_speed,
    hauled_speed,
    working_speed,
    working_speed,
    working_setting,
    working_setting,
    wagons,
    hauled_engines,
    hauled_engines,
    v_masses,
    isolated_run,
    first_five,
    first_five,
    first_five,
    end_isolated,
    engine_behind_wagon,
    one_mark,
];

/// Rules 62 and 69, as a long locomotive or not.
fn hauled_mass(random: &mut Random, draft: &mut Draft) {
    let mass = random.pick(&[8_000, 12_000, 12_000, 16_000]) + random.around();
    fill_up(draft, 7);
    aim(&mut draft.hauled, MASS, mass);
    if random.percent(50) {
        let setting = random.pick(&[SET_TO_M, SET_TO_V]);
        set_first_five(draft, setting);
        aim(all_in_v(draft), BRAKED_V, mass + 2_000);
    }
}

/// Working engines in M and the first five hauled in a setting, the others in V.
fn set_first_five(draft: &mut Draft, setting: u8) {
    for engine in &mut draft.working {
        engine.setting = SET_TO_M;
    }
    for (place, vehicle) in draft.hauled.iter_mut().enumerate() {
        vehicle.setting = if place < 5 { setting } else { SET_TO_V };
    }
}

/// Rule 61 and the fallback to the right.
fn columns(random: &mut Random, draft: &mut Draft) {
    let order = &mut draft.order;
    let column = random.below(MA80 + 1);
    match random.below(4) {
        0 => *order.column(column) = 0,
        1 => order.fill_from(column, 0),
        2 => (ME140..=column).for_each(|column| *order.column(column) = 0),
        _ => {
            for column in ME140..=MA80 {
                *order.column(column) = random.pick(&[0, 1, 50, 90, 199, 200]);
            }
        }
    }
}

/// Rules 68 and 79, and the lengths at which p changes.
fn train_length(random: &mut Random, draft: &mut Draft) {
    let bounds = [5_500, 6_500, 7_500, 7_500, 8_000, 9_000, 10_000];
    let length = random.pick(&bounds) + random.around();
    fill_up(draft, 11);
    let working: i64 = draft.working.iter().map(LENGTH.get).sum();
    aim(&mut draft.hauled, LENGTH, length - working);
}

/// About the speeds of the six.
const SPEEDS: [u8; 16] = [
    1, 79, 80, 81, 89, 90, 91, 99, 100, 101, 119, 120, 121, 139, 140, 141,
];

/// Rules 66 and 78.
fn hauled_speed(random: &mut Random, draft: &mut Draft) {
    slow_one(random, &mut draft.hauled);
}

/// Rules 73 and 83.
fn working_speed(random: &mut Random, draft: &mut Draft) {
    slow_one(random, &mut draft.working);
}

/// One has the speed, and none is slower.
fn slow_one(random: &mut Random, vehicles: &mut [Vehicle]) {
    let speed = random.pick(&SPEEDS);
    for vehicle in vehicles.iter_mut() {
        vehicle.speed = vehicle.speed.max(speed);
    }
    vehicles[random.below(vehicles.len())].speed = speed;
}

/// Rule 62: one working engine in another setting, most often at its masses, and then often with all hauled well braked in V.
fn working_setting(random: &mut Random, draft: &mut Draft) {
    if random.percent(60) {
        let mass = random.pick(&[8_000, 12_000]) + random.around();
        fill_up(draft, 8);
        aim(&mut draft.hauled, MASS, mass);
        if random.percent(60) {
            set_first_five(draft, SET_TO_V);
            aim(all_in_v(draft), BRAKED_V, 2 * mass);
        }
    }
    let engine = random.below(draft.working.len());
    draft.working[engine].setting =
        random.pick(&[ISOLATED, SET_TO_M, SET_TO_V, SET_TO_V, SET_TO_R]);
}

/// Rule 67: one to three wagons behind up to two hauled engines.
fn wagons(random: &mut Random, draft: &mut Draft) {
    let wagons = random.pick(&[1, 1, 2, 2, 3]);
    let engines = random.pick(&[0, 0, 1, 2]);
    draft.hauled.truncate(wagons + engines);
    put_engines(draft, engines, wagons);
    if draft.hauled[0].setting == ISOLATED {
        draft.hauled[0].setting = SET_TO_M;
    }
}

/// So many hauled engines in front, and wagons behind, at least so many.
fn put_engines(draft: &mut Draft, engines: usize, wagons: usize) {
    fill_up(draft, engines + wagons);
    for (place, vehicle) in draft.hauled.iter_mut().enumerate() {
        vehicle.kind = if place < engines {
            HAULED_ENGINE
        } else {
            WAGON
        };
    }
}

/// Rules 72 and 82, and with one of the engines not set to M 71 and 80.
fn hauled_engines(random: &mut Random, draft: &mut Draft) {
    let wanted = random.pick(&[2, 3, 4, 4, 5, 6, 7, 7]);
    let engines = wanted - draft.working.len().min(wanted - 1);
    put_engines(draft, engines, 2);
    for engine in &mut draft.hauled[..engines] {
        engine.setting = SET_TO_M;
    }
    if random.percent(40) {
        let place = random.below(engines);
        draft.hauled[place].setting = random.pick(&[ISOLATED, SET_TO_V, SET_TO_R]);
    }
}

/// Rule 74 and the long locomotive: one of the first seven in another setting, or the first five in one.
fn first_five(random: &mut Random, draft: &mut Draft) {
    let setting = random.pick(&[ISOLATED, SET_TO_M, SET_TO_M, SET_TO_V, SET_TO_V, SET_TO_R]);
    if random.percent(20) {
        return set_first_five(draft, setting);
    }
    let place = random.pick(&[0, 1, 3, 4, 4, 4, 5, 5, 5, 6]);
    if let Some(vehicle) = draft.hauled.get_mut(place) {
        vehicle.setting = setting;
    }
}
