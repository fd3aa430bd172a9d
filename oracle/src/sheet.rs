//! The sheet, 32 bytes or, of a domestic order, 33, and granting.

use crate::book::RuleBook;
use crate::facts::Facts;
use crate::order::Order;

pub fn sheet(facts: &Facts, order: &Order) -> Vec<u8> {
    sheet_under(order.book.rules(), facts, order)
}

/// The sheet under a rule book.
pub fn sheet_under(book: &RuleBook, facts: &Facts, order: &Order) -> Vec<u8> {
    let asked = book.asked(order);
    let (granted, speed) = granted(book, facts, order).unwrap_or((0, 0));
    let mut sheet = vec![order.asked, granted, speed, (book.common)(facts)];
    let categories = book.categories.iter();
    sheet.extend(categories.map(|category| book.rule(category, facts, order)));
    // The ceilings keep both counts below 256, and the margin within three bytes.
    sheet.push(facts.d_loads as u8);
    sheet.extend(whole_tonnes(asked.margin(facts, order)));
    sheet.push(asked.percentage(facts, order));
    sheet.push(u8::from(asked.is_1_to_3() && (book.marks)(facts)));
    sheet.push(facts.isolated as u8);
    let longs = [
        facts.hauled_mass,
        facts.train_mass,
        asked.braked_tenths(facts),
        facts.train_length,
    ];
    sheet.extend(longs.map(u32::to_le_bytes).as_flattened());
    sheet
}

/// The fastest category without a broken rule among the asked number and greater ones, the lowest at a tie; with its speed.
fn granted(book: &RuleBook, facts: &Facts, order: &Order) -> Option<(u8, u8)> {
    let mut best: Option<(u8, u8)> = None;
    for category in &book.categories[usize::from(order.asked) - 1..] {
        let Some(speed) = book.speed(category, facts, order) else {
            continue;
        };
        // A speed of 0 is a value like any other: an account may have it.
        if best.is_none_or(|(_, fastest)| speed > fastest) {
            best = Some((category.number, speed));
        }
    }
    best
}

/// 4,000ths rounded toward minus infinity, two's complement in three bytes.
fn whole_tonnes(margin: i64) -> [u8; 3] {
    let bytes = margin.div_euclid(4_000).to_le_bytes();
    [bytes[0], bytes[1], bytes[2]]
}

#[cfg(test)]
mod tests {
    use super::whole_tonnes;

    #[test]
    fn tonnes_round_toward_minus_infinity() {
        assert_eq!(whole_tonnes(0), [0, 0, 0]);
        assert_eq!(whole_tonnes(3_999), [0, 0, 0]);
        assert_eq!(whole_tonnes(4_000), [1, 0, 0]);
        assert_eq!(whole_tonnes(-1), [0xff, 0xff, 0xff]);
        assert_eq!(whole_tonnes(-4_000), [0xff, 0xff, 0xff]);
        assert_eq!(whole_tonnes(-4_001), [0xfe, 0xff, 0xff]);
    }
}
