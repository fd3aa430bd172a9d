//! Good domestic trains, most of them standing in several categories.

use super::draft::{aim, Draft, BRAKED_M, BRAKED_V, MASS};
use super::margins::set_to;
use super::trains::mass_limit;
use crate::book::Book;
use crate::order::{Order, MA80};
use crate::random::Random;
use crate::vehicle::{HAULED_ENGINE, ISOLATED, SET_TO_M, SET_TO_V, WAGON};

/// Makes a train of the styles of the other book a domestic one; half of them then stand in all six categories.
pub fn make_domestic(random: &mut Random, draft: &mut Draft) {
    draft.order = order(random);
    if random.percent(50) {
        stand_in_all(random, draft);
    }
    raise_speeds(random, draft);
    if random.percent(90) {
        for vehicle in draft.working.iter_mut().chain(&mut draft.hauled) {
            vehicle.d_load = 0;
        }
    }
}

pub fn order(random: &mut Random) -> Order {
    let columns: [u8; MA80 + 1] = match random.below(4) {
        0 => [140, 120, 100, 100, 90, 80],
        1 => [random.pick(&[60, 80, 100, 140, 160]); MA80 + 1],
        2 => std::array::from_fn(|_| random.pick(&[0, 60, 80, 90, 100, 120, 140, 200])),
        _ => std::array::from_fn(|_| random.between(40, 150) as u8),
    };
    let [me140, limits @ ..] = columns;
    Order {
        book: Book::Domestic,
        limits,
        me140,
        asked: random.between(1, 6) as u8,
        percentage: 0,
        coupling: mass_limit(random),
        admissible: mass_limit(random),
    }
}

/// As the worked train B does: engines and the first five in M, the others in V with at most 200 t of V mass.
pub fn stand_in_all(random: &mut Random, draft: &mut Draft) {
    for engine in &mut draft.working {
        engine.setting = SET_TO_M;
    }
    let count = draft.hauled.len();
    let engines = random.pick(&[0, 0, 0, 0, 1, 2]).min(count - 1);
    for (place, vehicle) in draft.hauled.iter_mut().enumerate() {
        let inner = place >= engines && place > 0 && place + 1 < count;
        vehicle.joined = 1;
        vehicle.kind = match place < engines {
            true => HAULED_ENGINE,
            false => WAGON,
        };
        vehicle.setting = match place {
            _ if inner && random.percent(6) => ISOLATED,
            0..5 => SET_TO_M,
            _ => SET_TO_V,
        };
    }
    let most = (700 * count as i64).min(8_000);
    aim(&mut draft.hauled, MASS, random.between(most / 3, most));
    brake(random, draft);
}

/// Enough for every percentage, with V masses at most those of rule 84.
fn brake(random: &mut Random, draft: &mut Draft) {
    let mass = i64::from(draft.facts().train_mass);
    let in_m = mass * random.between(150, 200) / 100;
    aim(set_to(&mut draft.hauled, SET_TO_M), BRAKED_V, in_m);
    aim(set_to(&mut draft.hauled, SET_TO_M), BRAKED_M, mass);
    let in_v = random.between(0, 2_000);
    aim(set_to(&mut draft.hauled, SET_TO_V), BRAKED_V, in_v);
}

/// Leaves what is hauled to decide: engines and order break no rule but 61.
pub fn ease(draft: &mut Draft) {
    for engine in &mut draft.working {
        (engine.setting, engine.joined, engine.d_load) = (SET_TO_M, 1, 0);
        engine.speed = engine.speed.max(140);
    }
    (draft.order.coupling, draft.order.admissible) = (100_000, 100_000);
}

/// A least speed for all hauled, and one for all working engines.
fn raise_speeds(random: &mut Random, draft: &mut Draft) {
    for vehicles in [&mut draft.working, &mut draft.hauled] {
        let least = random.pick(&[80, 90, 100, 120, 140, 140, 140, 140, 160]);
        for vehicle in vehicles.iter_mut() {
            vehicle.speed = vehicle.speed.max(least);
        }
    }
}
