//! Rules 47, 77 and 88 and the sheet's margin: braked masses that give a chosen margin exactly.

use super::draft::{aim, Draft, Field, BRAKED_M, BRAKED_V, LENGTH, MASS};
use crate::book::Book;
use crate::random::Random;
use crate::vehicle::{Vehicle, SET_TO_M, SET_TO_V, WAGON};

/// Brings the margin of the asked category, or of a later one, where it is wanted; some trains cannot have it.
pub fn aim_margin(random: &mut Random, draft: &mut Draft) {
    let asked = usize::from(draft.order.asked);
    let last = usize::from(draft.order.book.last());
    let later = asked + random.below(last + 1 - asked);
    let category = random.pick(&[asked, asked, later]);
    match draft.order.book {
        Book::CrossBorder => bring(random, draft, category, wanted),
        Book::Domestic => bring(random, draft, category, wanted_in_fours),
    }
}

/// An odd margin needs three quarters of an odd M mass and an odd k, so a heavy train of categories 1 to 3.
pub fn aim_odd_margin(random: &mut Random, draft: &mut Draft) {
    // Five in M, and seven in V that reach 680 m.
    if draft.hauled.len() < 12 {
        return aim_margin(random, draft);
    }
    for (place, vehicle) in draft.hauled.iter_mut().enumerate() {
        vehicle.setting = if place < 5 { SET_TO_M } else { SET_TO_V };
    }
    for engine in &mut draft.working {
        engine.setting = SET_TO_M;
    }
    aim(&mut draft.hauled, MASS, random.between(12_001, 15_800));
    let begun = random.pick(&[1, 3, 5, 7, 9]);
    let length = 4_800 + 200 * begun + random.between(1, 200);
    let beside = random.between(5, 7_000 - length);
    aim(set_to(&mut draft.hauled, SET_TO_V), LENGTH, length);
    aim(set_to(&mut draft.hauled, SET_TO_M), LENGTH, beside);
    draft.order.asked = random.pick(&[1, 2, 3]);
    let category = usize::from(draft.order.asked);
    bring(random, draft, category, |random| {
        let off = random.pick(&[-1, 1]);
        off + random.pick(&[0, 0, 0, -12_000, -8_000, -4_000, 4_000, 8_000])
    });
}

fn bring(random: &mut Random, draft: &mut Draft, category: usize, wanted: fn(&mut Random) -> i64) {
    let puzzle = Puzzle::new(draft, category);
    for _ in 0..8 {
        let margin = wanted(random);
        for more_mass in 0..100 {
            if let Some((v, m)) = puzzle.solve(margin, more_mass) {
                let mass: i64 = draft.hauled.iter().map(MASS.get).sum();
                aim(&mut draft.hauled, MASS, mass + more_mass);
                aim(set_to(&mut draft.hauled, SET_TO_V), BRAKED_V, v);
                let in_m = draft.hauled.iter_mut();
                let in_m = in_m.filter(|one| puzzle.counts_m(one));
                aim(in_m, puzzle.field_m, m);
                return;
            }
        }
    }
}

/// Around zero, and around multiples of 4,000 of both signs.
fn wanted(random: &mut Random) -> i64 {
    let off = random.pick(&[-400, -4, -3, -2, -1, 0, 0, 1, 2, 3, 4, 400]);
    match random.below(2) {
        0 => off,
        _ => 4_000 * random.between(-5, 5) + off,
    }
}

/// Without k a margin is a multiple of four.
fn wanted_in_fours(random: &mut Random) -> i64 {
    let off = random.pick(&[-400, -200, -20, -4, -4, -4, 0, 0, 0, 0, 4, 4, 20, 200]);
    match random.below(3) {
        0 => 4_000 * random.between(-5, 5) + off,
        _ => off,
    }
}

pub fn set_to(vehicles: &mut [Vehicle], setting: u8) -> impl Iterator<Item = &mut Vehicle> {
    vehicles
        .iter_mut()
        .filter(move |vehicle| vehicle.setting == setting)
}

/// What stays as it is while the hauled braked masses are sought.
struct Puzzle {
    p: i64,
    train_mass: i64,
    /// 100 - k.
    kept: i64,
    /// What Q counts of a hauled vehicle set to M, and how often; it counts the V mass of one set to V four times.
    field_m: Field,
    weight_m: i64,
    /// Of those set to M wagons alone, the engines being counted otherwise.
    wagons_alone: bool,
    /// What all the others give to Q.
    others: i64,
    m_now: i64,
    most_v: i64,
    most_m: i64,
}

impl Puzzle {
    fn new(draft: &Draft, category: usize) -> Puzzle {
        let (facts, order) = (draft.facts(), &draft.order);
        let category = &order.book.categories()[category - 1];
        let (field_m, weight_m, kept) = match (order.book, category.is_1_to_3()) {
            (Book::CrossBorder, true) => (BRAKED_M, 3, 100 - facts.k),
            (Book::Domestic, true) => (BRAKED_V, 3, 100),
            (_, false) => (BRAKED_M, 4, 100),
        };
        let mut puzzle = Puzzle {
            p: i64::from(category.percentage(&facts, order)),
            train_mass: i64::from(facts.train_mass),
            kept,
            field_m,
            weight_m,
            wagons_alone: order.book == Book::Domestic && category.is_1_to_3(),
            others: (category.braked)(&facts) / kept,
            m_now: 0,
            most_v: 0,
            most_m: 0,
        };
        for vehicle in &draft.hauled {
            if vehicle.setting == SET_TO_V {
                puzzle.most_v += BRAKED_V.high;
                puzzle.others -= 4 * (BRAKED_V.get)(vehicle);
            } else if puzzle.counts_m(vehicle) {
                puzzle.most_m += field_m.high;
                puzzle.m_now += (field_m.get)(vehicle);
            }
        }
        puzzle.others -= weight_m * puzzle.m_now;
        puzzle
    }

    fn counts_m(&self, vehicle: &Vehicle) -> bool {
        vehicle.setting == SET_TO_M && (vehicle.kind == WAGON || !self.wagons_alone)
    }

    /// The sums of hauled V and M masses that give the margin exactly.
    fn solve(&self, margin: i64, more_mass: i64) -> Option<(i64, i64)> {
        let needed = margin + 4 * self.p * (self.train_mass + more_mass);
        if needed < 0 || needed % self.kept != 0 {
            return None;
        }
        let rest = needed / self.kept - self.others;
        // Neighbours of the M mass leave every remainder that V, counted four times, may want.
        (-3..=3).find_map(|step| {
            let m = match self.most_v {
                0 => rest / self.weight_m,
                _ => self.m_now + step,
            };
            let v = (rest - self.weight_m * m) / 4;
            let exact = 4 * v + self.weight_m * m == rest;
            let held = (0..=self.most_v).contains(&v) && (0..=self.most_m).contains(&m);
            (exact && held).then_some((v, m))
        })
    }
}
