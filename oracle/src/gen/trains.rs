//! Good trains of several styles, most of them with a category to grant.

use super::draft::{aim, Draft, MASS};
use super::numbers::number;
use super::{domestic, edges};
use crate::book::Book;
use crate::order::Order;
use crate::random::Random;
use crate::vehicle::{
    Vehicle, HAULED_ENGINE, ISOLATED, SET_TO_M, SET_TO_R, SET_TO_V, WAGON, WORKING_ENGINE,
};

/// How many hauled vehicles are drawn.
#[derive(Clone, Copy)]
pub enum Size {
    /// From one to 199, most of them few.
    Any,
    /// From one to 12, for files that have to stay small.
    Few,
    Exactly(usize),
}

#[derive(Clone, Copy, PartialEq, Eq)]
enum Style {
    /// All in V, up to 1,200 t: categories 1 to 3.
    Quick,
    /// Above 1,200 t, the first five in M, the others in V: categories 1 to 3.
    Heavy,
    /// In M, few in V, some isolated: categories 4 and 5.
    Slow,
    /// Settings and kinds as they come.
    Mixed,
    /// Every field anywhere in its range.
    Wild,
}

/// A train whose records and order are good, often standing at a boundary.
pub fn train(random: &mut Random, book: Book, size: Size) -> Draft {
    let mut draft = plain_train(random, book, size);
    for _ in 0..random.pick(&[0, 0, 1, 1, 1, 1, 2, 2]) {
        edges::apply(random, &mut draft);
    }
    draft
}

pub fn plain_train(random: &mut Random, book: Book, size: Size) -> Draft {
    let mut draft = cross_border_train(random, size);
    if book == Book::Domestic {
        domestic::make_domestic(random, &mut draft);
    }
    draft
}

fn cross_border_train(random: &mut Random, size: Size) -> Draft {
    let count = hauled_count(random, size);
    let style = style(random, count);
    let order = order(random, style);
    let workers = random.pick(&[1, 1, 1, 2]).min(200 - count);
    let mut draft = Draft {
        working: (0..workers).map(|_| engine(random, style)).collect(),
        hauled: hauled(random, style, count),
        order,
    };
    if random.percent(10) {
        draft.renumber();
    }
    draft
}

fn hauled_count(random: &mut Random, size: Size) -> usize {
    let (low, high) = match (size, random.below(100)) {
        (Size::Exactly(count), _) => (count as i64, count as i64),
        (_, 0..10) => (1, 3),
        (Size::Few, _) => (4, 12),
        (_, 10..60) => (4, 16),
        (_, 60..90) => (17, 50),
        (_, 90..95) => (51, 190),
        _ => (191, 199),
    };
    random.between(low, high) as usize
}

fn style(random: &mut Random, count: usize) -> Style {
    match random.below(100) {
        0..40 => Style::Quick,
        // Five vehicles of the greatest mass are the fewest above 1,200 t.
        40..60 if count >= 5 => Style::Heavy,
        40..85 => Style::Slow,
        85..97 => Style::Mixed,
        _ => Style::Wild,
    }
}

fn engine(random: &mut Random, style: Style) -> Vehicle {
    if style == Style::Wild {
        return wild(random, WORKING_ENGINE);
    }
    let setting = match style {
        Style::Quick => random.pick(&[SET_TO_V, SET_TO_V, SET_TO_M]),
        Style::Heavy => SET_TO_M,
        Style::Slow => random.pick(&[SET_TO_M, SET_TO_M, SET_TO_M, SET_TO_V, ISOLATED]),
        _ => random.below(3) as u8,
    };
    Vehicle {
        number: number(random),
        mass: random.between(700, 1_300) as u16,
        braked_v: random.between(700, 1_400) as u16,
        braked_m: random.between(600, 1_100) as u16,
        length: random.between(150, 220) as u16,
        axles: random.pick(&[4, 4, 6]),
        kind: WORKING_ENGINE,
        setting,
        joined: 1,
        speed: random.pick(&[100, 120, 120, 140, 160, 200]),
        matrossow: u8::from(random.percent(10)),
        d_load: u8::from(random.percent(10)),
        zero: 0,
    }
}

fn hauled(random: &mut Random, style: Style, count: usize) -> Vec<Vehicle> {
    if style == Style::Wild {
        return (0..count)
            .map(|_| {
                let kind = random.below(2) as u8;
                wild(random, kind)
            })
            .collect();
    }
    let kinds = hauled_engines(random, style, count);
    // Wide enough apart that each category's percentage divides them.
    let braked = random.pick(&[45, 52, 58, 62, 70, 80, 85, 90, 95, 100, 120]);
    let mut hauled: Vec<Vehicle> = (0..count)
        .map(|place| {
            let kind = if place < kinds { HAULED_ENGINE } else { WAGON };
            let setting = setting(random, style, place, count);
            wagon(random, kind, setting, count)
        })
        .collect();
    let mass = hauled_mass(random, style, count);
    aim(&mut hauled, MASS, mass);
    for vehicle in &mut hauled {
        let spread = braked + random.between(-5, 5);
        let share = (i64::from(vehicle.mass) * spread / 100).clamp(0, 2_500) as u16;
        vehicle.braked_v = share;
        vehicle.braked_m = share.saturating_sub(random.below(3) as u16);
    }
    hauled
}

/// Hauled engines at the head of the hauled part, mostly none.
fn hauled_engines(random: &mut Random, style: Style, count: usize) -> usize {
    let engines = match style {
        Style::Slow => random.pick(&[0, 0, 0, 1, 2, 4]),
        _ => random.pick(&[0, 0, 0, 0, 1, 1, 2]),
    };
    engines.min(count)
}

fn hauled_mass(random: &mut Random, style: Style, count: usize) -> i64 {
    let most = 2_500 * count as i64;
    let (low, high) = match style {
        Style::Quick => random.pick(&[(500, 8_000), (500, 8_000), (8_001, 12_000)]),
        Style::Heavy => (12_001, 16_000),
        _ => random.pick(&[(500, 8_000), (2_000, 12_000), (10_000, 25_000)]),
    };
    random.between(low, high).clamp(count as i64, most)
}

fn setting(random: &mut Random, style: Style, place: usize, count: usize) -> u8 {
    let outer = place == 0 || place + 1 == count;
    match style {
        Style::Quick if !outer && random.percent(4) => ISOLATED,
        Style::Quick => SET_TO_V,
        Style::Heavy if !outer && random.percent(4) => ISOLATED,
        Style::Heavy if place < 5 => SET_TO_M,
        Style::Heavy => SET_TO_V,
        Style::Slow if !outer && random.percent(8) => ISOLATED,
        Style::Slow if random.percent(3) => SET_TO_V,
        Style::Slow => SET_TO_M,
        _ if outer => random.pick(&[SET_TO_M, SET_TO_V]),
        _ => random.pick(&[ISOLATED, SET_TO_M, SET_TO_M, SET_TO_V, SET_TO_V]),
    }
}

/// Length and axles are such that the whole train of `count` keeps its limits.
fn wagon(random: &mut Random, kind: u8, setting: u8, count: usize) -> Vehicle {
    let length = (6_800 / count as i64).min(150);
    let axles = (240 / count as i64).clamp(1, 4);
    Vehicle {
        number: number(random),
        mass: 1,
        braked_v: 0,
        braked_m: 0,
        length: random.between((length * 4 / 5).max(1), length.max(1)) as u16,
        axles: random.between((axles - 1).max(1), axles) as u8,
        kind,
        setting,
        joined: 1,
        speed: random.pick(&[90, 100, 100, 120, 120, 120, 140, 160]),
        matrossow: u8::from(kind == HAULED_ENGINE && random.percent(30)),
        d_load: u8::from(random.percent(5)),
        zero: 0,
    }
}

fn wild(random: &mut Random, kind: u8) -> Vehicle {
    Vehicle {
        number: number(random),
        mass: random.between(1, 2_500) as u16,
        braked_v: random.between(0, 2_500) as u16,
        braked_m: random.between(0, 2_500) as u16,
        length: random.between(1, 1_000) as u16,
        axles: random.between(1, 24) as u8,
        kind,
        setting: random.pick(&[ISOLATED, SET_TO_M, SET_TO_V, SET_TO_M, SET_TO_V, SET_TO_R]),
        joined: u8::from(random.percent(98)),
        speed: random.between(1, 200) as u8,
        matrossow: u8::from(random.percent(10)),
        d_load: u8::from(random.percent(50)),
        zero: 0,
    }
}

fn order(random: &mut Random, style: Style) -> Order {
    let asked = match style {
        Style::Quick | Style::Heavy => random.pick(&[1, 1, 1, 2, 2, 3, 4, 5]),
        _ => random.pick(&[1, 2, 3, 4, 4, 5]),
    };
    let percentage = match random.below(3) {
        0 => random.pick(&[0, 0, 30, 45, 49, 50, 51, 56, 57, 58, 59, 60, 61, 76, 77, 78]),
        1 => random.between(0, 90) as u8,
        _ => 0,
    };
    Order {
        book: Book::CrossBorder,
        limits: limits(random),
        me140: 0,
        asked,
        percentage,
        coupling: mass_limit(random),
        admissible: mass_limit(random),
    }
}

/// Most often one that no train reaches.
pub fn mass_limit(random: &mut Random) -> u32 {
    match random.below(10) {
        0..8 => 100_000,
        8 => random.between(1, 100_000) as u32,
        _ => random.between(5_000, 20_000) as u32,
    }
}

fn limits(random: &mut Random) -> [u8; 5] {
    match random.below(4) {
        0 => [120, 100, 100, 90, 80],
        1 => [random.pick(&[80, 100, 120]); 5],
        2 => std::array::from_fn(|_| random.pick(&[0, 60, 80, 90, 100, 120, 200])),
        _ => std::array::from_fn(|_| random.between(40, 130) as u8),
    }
}

/// An order alone, for the functions that are not lent a train.
pub fn any_order(random: &mut Random, book: Book) -> Order {
    if book == Book::Domestic {
        return domestic::order(random);
    }
    let style = random.pick(&[Style::Quick, Style::Slow]);
    order(random, style)
}

pub fn any_engine(random: &mut Random) -> Vehicle {
    let style = random.pick(&[
        Style::Quick,
        Style::Heavy,
        Style::Slow,
        Style::Slow,
        Style::Mixed,
        Style::Wild,
    ]);
    engine(random, style)
}
