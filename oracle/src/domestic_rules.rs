//! The rules of the domestic book, 60 to 88 in the order of their articles; every bound is strict.

use crate::category::Category;
use crate::facts::Facts;
use crate::order::Order;
use crate::rules::first_broken;

/// The first rule that a category breaks, or 0.
pub fn category_rule(category: &Category, facts: &Facts, order: &Order) -> u8 {
    first_broken(&category_rules(category, facts, order))
}

/// The rules in the order in which a category asks them, each with whether it is broken.
pub fn category_rules(category: &Category, facts: &Facts, order: &Order) -> Vec<(u8, bool)> {
    let booklet = match category.is_1_to_3() {
        true => me_rules(category, facts, order),
        false => ma_rules(category, facts, order),
    };
    [&booklet_1(category, facts, order)[..], &booklet].concat()
}

/// Booklet 1, as far as records hold its facts.
fn booklet_1(category: &Category, facts: &Facts, order: &Order) -> [(u8, bool); 6] {
    let mass = facts.hauled_mass;
    // 1602.2: up to this hauled mass a working engine need not be set to M; in MA at no mass.
    let engine_may = match category.number {
        1 => mass <= 12_000,
        2 | 3 => mass <= 8_000,
        _ => false,
    };
    [
        (60, mass > order.coupling),                     // 1301 IV (1608)
        (61, category.line_speed(order).is_none()),      // 1502
        (62, facts.worker_not_in_m && !engine_may),      // 1602.2
        (63, mass > order.admissible),                   // 1607
        (64, category.number == 1 && facts.d_loads > 0), // 1704
        (65, facts.some_unjoined),                       // 1813, 4601
    ]
}

/// Booklet 3: ME140, ME120 and ME100.
fn me_rules(category: &Category, facts: &Facts, order: &Order) -> Vec<(u8, bool)> {
    let (mass, speed) = (facts.hauled_mass, category.own_speed);
    let stray_m = match facts.long {
        true => facts.m_after_fifth,
        false => facts.hauled_in_m,
    };
    vec![
        (66, facts.slowest_hauled < speed),                    // 3201.3-5
        (67, category.number <= 2 && facts.wagons < 2),        // 3202.3
        (68, facts.train_length > 7_500),                      // 3203.3-4
        (69, mass > 16_000 || (mass > 12_000 && !facts.long)), // 3203.3-4
        (70, facts.engine_behind_wagon),                       // 3204
        (71, facts.long && facts.hauled_engine_not_in_m),      // 3204
        (72, facts.engines > 3),                               // 3204, 3301
        (73, facts.slowest_working < speed),                   // 3301
        (74, stray_m),                                         // 3401.2 (1403.2)
        (75, facts.first_isolated),                            // 3402
        (76, facts.last_isolated),                             // 3402
        (77, category.margin(facts, order) < 0),               // 3402
    ]
}

/// Booklet 4: MA100, MA90 and MA80.
fn ma_rules(category: &Category, facts: &Facts, order: &Order) -> Vec<(u8, bool)> {
    let speed = category.own_speed;
    vec![
        (78, facts.slowest_hauled < speed),      // 4201.1-2
        (79, facts.train_length > 7_500),        // 4202
        (80, facts.hauled_engine_not_in_m),      // 4203
        (81, facts.engine_behind_wagon),         // 4203
        (82, facts.engines > 6),                 // 4203, 4301
        (83, facts.slowest_working < speed),     // 4301
        (84, facts.braked_v > 2_000),            // 4401
        (85, facts.first_isolated),              // 4402.1
        (86, facts.last_isolated),               // 4402.1
        (87, facts.longest_run > 10),            // 4402.1
        (88, category.margin(facts, order) < 0), // 4402.1
    ]
}
