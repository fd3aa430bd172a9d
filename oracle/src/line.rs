//! The lines of text that SHEET and ROUTE write.

use crate::answer::parts;
use crate::book::Book;
use crate::calls::{route_of_train, sheet_of_train};
use crate::order::ORDER;
use crate::route::SECTIONS;

/// SHEET reads no byte behind these: an order and 201 vehicles.
pub const MOST_INPUT: usize = 4_848;

/// ROUTE looks at no byte of the vehicles behind these: 201 of them.
pub const MOST_VEHICLES: usize = 4_824;

/// The most that ROUTE looks at: a count, 255 orders and those vehicles.
pub const MOST_ROUTE: usize = 1 + 255 * ORDER + MOST_VEHICLES;

/// Number, place, and the sheet in hex or "-", closed by a line feed.
pub fn line(input: &[u8]) -> String {
    let input = &input[..input.len().min(MOST_INPUT)];
    // Of a cross-border order the last byte is not written, and not shown.
    let mut sheet = vec![0; Book::Domestic.sheet()];
    let answer = match input.split_at_checked(ORDER) {
        Some((order, vehicles)) => sheet_of_train(vehicles, order, &mut sheet),
        None => 1,
    };
    let (number, place, _) = parts(answer);
    let order = &input[..input.len().min(ORDER)];
    let written = &sheet[..Book::of(order).sheet()];
    format!("{number} {place} {}\n", hex_or_none(number, written))
}

/// Number, place, category, and the sections' speeds in hex or "-", closed by a line feed.
pub fn route_line(input: &[u8]) -> String {
    let (orders, vehicles) = route_parts(input);
    let mut speeds = [0; SECTIONS];
    let answer = route_of_train(vehicles, orders, &mut speeds);
    let (number, place, category) = parts(answer);
    // A done route has no more sections than the bytes that ROUTE lends.
    let written = &speeds[..(orders.len() / ORDER).min(SECTIONS)];
    format!(
        "{number} {place} {category} {}\n",
        hex_or_none(number, written)
    )
}

/// The orders that the first byte counts, as far as they are there, and the vehicles behind them.
pub fn route_parts(input: &[u8]) -> (&[u8], &[u8]) {
    let Some((&sections, rest)) = input.split_first() else {
        return (&[], &[]);
    };
    let (orders, vehicles) = rest.split_at(rest.len().min(ORDER * usize::from(sections)));
    (orders, &vehicles[..vehicles.len().min(MOST_VEHICLES)])
}

fn hex_or_none(number: u64, bytes: &[u8]) -> String {
    match number {
        0 => hex(bytes),
        _ => "-".to_owned(),
    }
}

pub fn hex(bytes: &[u8]) -> String {
    bytes.iter().map(|byte| format!("{byte:02x}")).collect()
}

#[cfg(test)]
mod tests {
    use std::fs;
    use std::path::Path;

    use super::*;
    use crate::gen::cases::{case_a, worked_route};

    #[test]
    fn too_little_input_is_refusal_1() {
        let input = case_a().input();
        for length in [0, 1, 23, 24, 25, 47, 49] {
            assert_eq!(line(&input[..length]), "1 0 -\n", "{length} bytes");
        }
        assert_eq!(line(&input[..48]), "14 0 -\n");
    }

    #[test]
    fn the_rest_behind_201_vehicles_is_ignored() {
        let mut draft = case_a();
        draft.hauled.resize(210, draft.hauled[0]);
        let input = draft.input();
        assert_eq!(line(&input[..4_847]), "1 0 -\n");
        for length in [4_848, 4_849, 4_872, 5_000] {
            assert_eq!(line(&input[..length]), "2 0 -\n", "{length} bytes");
        }
        assert!(line(&input[..4_824]).starts_with("0 0 "));
    }

    #[test]
    fn the_place_is_the_first_bad_record() {
        let mut draft = case_a();
        draft.hauled[6].axles = 25;
        draft.hauled[3].zero = 1;
        assert_eq!(line(&draft.input()), "3 4 -\n");
    }

    /// An input or a line as it is stored.
    fn stored(file: &str) -> Vec<u8> {
        let folder = Path::new(env!("CARGO_MANIFEST_DIR")).join("../crates");
        fs::read(folder.join(file)).expect("SHEET and ROUTE have their inputs and their lines")
    }

    /// The line that document 01 prints.
    #[test]
    fn case_a_gives_the_stored_line() {
        let printed = "0 0 010164000000002020004400004d000070170000f41a000070170000a4060000\n";
        assert_eq!(stored("sheet/stdin"), case_a().input());
        assert_eq!(stored("sheet/stdout"), printed.as_bytes());
    }

    /// Category 2 is the first of two whose slowest section has 90 km/h: 100, 90 and 90, so 64, 5a and 5a.
    #[test]
    fn the_worked_route_gives_the_stored_line() {
        let line = "0 0 2 645a5a\n";
        assert_eq!(stored("route_sheet/stdin"), worked_route());
        assert_eq!(stored("route_sheet/stdout"), line.as_bytes());
        assert_eq!(route_line(&worked_route()), line);
    }

    #[test]
    fn a_route_that_ends_too_soon_has_no_vehicles() {
        let input = worked_route();
        for length in [0, 1, 2, 24, 25, 72, 73, 74, 96] {
            assert_eq!(route_line(&input[..length]), "1 0 0 -\n", "{length} bytes");
        }
        assert_eq!(route_line(&input[..97]), "14 0 0 -\n");
        let counted = |sections: u8| route_line(&[&[sections], &input[1..]].concat());
        assert_eq!(counted(255), "1 0 0 -\n");
        // Its first three records are orders, and an order is no vehicle.
        assert_eq!(counted(0), "3 0 0 -\n");
    }

    #[test]
    fn a_route_has_1_to_64_sections() {
        let vehicles = case_a().vehicles();
        for sections in [0, 1, 64, 65, 255] {
            let orders = vec![case_a().order.write(); usize::from(sections)].concat();
            let line = route_line(&[&[sections], &orders[..], &vehicles].concat());
            let expected = match sections {
                1 | 64 => format!("0 0 1 {}\n", "64".repeat(usize::from(sections))),
                _ => "4 0 0 -\n".to_owned(),
            };
            assert_eq!(line, expected, "{sections} sections");
        }
    }

    #[test]
    fn a_route_s_vehicles_behind_201_are_ignored() {
        let mut draft = case_a();
        draft.hauled.resize(210, draft.hauled[0]);
        let input = [&[1], &draft.input()[..]].concat();
        assert_eq!(route_line(&input[..25 + 4_823]), "1 0 0 -\n");
        for length in [4_824, 4_825, 4_900] {
            assert_eq!(
                route_line(&input[..25 + length]),
                "2 0 0 -\n",
                "{length} bytes"
            );
        }
        assert!(route_line(&input[..25 + 4_800]).starts_with("0 0 "));
    }
}
