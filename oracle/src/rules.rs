//! The rules of the cross-border book: the common ones first, then those of each category in rising number.

use crate::category::Category;
use crate::facts::Facts;
use crate::order::Order;

/// The first common rule broken, or 0.
pub fn common_rule(facts: &Facts) -> u8 {
    first_broken(&[
        (15, facts.engine_behind_wagon),
        (16, facts.some_in_r),
        (17, facts.some_unjoined),
        (18, facts.some_matrossow),
        (19, facts.first_isolated),
        (20, facts.last_isolated),
        (21, facts.train_length > 7_400),
        (22, facts.hauled_length > 7_000),
        (23, facts.axles > 250),
    ])
}

/// The first rule that a category breaks of its own, or 0; the common rules are asked before.
pub fn category_rule(category: &Category, facts: &Facts, order: &Order) -> u8 {
    if category.line_speed(order).is_none() {
        return 30;
    }
    let own = if category.is_1_to_3() {
        p_rule(facts)
    } else {
        g_rule(facts, order)
    };
    if own != 0 {
        return own;
    }
    first_broken(&[(47, category.margin(facts, order) < 0)])
}

/// Categories 1 to 3.
fn p_rule(facts: &Facts) -> u8 {
    let mass = facts.hauled_mass;
    first_broken(&[
        (31, facts.engines > 3),
        (40, mass > 16_000),
        (41, mass <= 12_000 && facts.hauled_in_m),
        (42, mass > 8_000 && facts.worker_not_in_m),
        (43, mass > 12_000 && facts.v_in_first_five),
        (44, mass > 12_000 && facts.m_after_fifth),
    ])
}

/// Categories 4 and 5.
fn g_rule(facts: &Facts, order: &Order) -> u8 {
    first_broken(&[
        (31, facts.engines > 6),
        (32, facts.braked_v > 2_000),
        (33, facts.longest_run > 10),
        (34, facts.axles_v > 12),
        (35, facts.hauled_mass > order.coupling.min(order.admissible)),
    ])
}

/// The number of the first rule that is broken, or 0.
pub fn first_broken(rules: &[(u8, bool)]) -> u8 {
    let broken = rules.iter().find(|(_, broken)| *broken);
    broken.map_or(0, |(number, _)| *number)
}
