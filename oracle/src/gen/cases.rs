//! Cases A to H of document 01, each with its neighbours.

use super::draft::{aim, Draft, BRAKED_V, LENGTH, MASS};
use super::numbers::LEAST;
use super::routes::written;
use crate::book::Book;
use crate::order::Order;
use crate::vehicle::{Vehicle, ISOLATED, SET_TO_M, SET_TO_V, WAGON, WORKING_ENGINE};

pub struct Case {
    pub name: String,
    pub draft: Draft,
}

/// Every case with those one below and one above.
pub fn cases() -> Vec<Case> {
    let mut cases = vec![];
    let mut add = |name: String, draft: Draft| cases.push(Case { name, draft });
    for v in [499, 500, 501] {
        add(format!("A {v}"), case_a_with(v));
    }
    for v in [429, 430, 431] {
        add(format!("B {v}"), case_a_with(v));
    }
    for above in [0, 1, 2, 3, 4] {
        add(format!("C, D {above} at 432"), case_d(above));
    }
    for length in [
        4_999, 5_000, 5_001, 5_199, 5_200, 5_201, 6_999, 7_000, 7_001,
    ] {
        add(format!("E {length}"), case_e(length));
        add(format!("E {length}, 400 isolated"), case_e_beside(length));
    }
    for mass in [7_999, 8_000, 8_001] {
        add(format!("F {mass}"), case_f(mass));
    }
    for mass in [11_999, 12_000, 12_001] {
        for asked in 1..=5 {
            add(format!("G {mass} asked {asked}"), case_g(mass, asked));
        }
    }
    for run in [9, 10, 11, 12] {
        add(format!("H {run}"), case_h(run));
    }
    cases
}

pub fn case_a() -> Draft {
    case_a_with(500)
}

/// Case A's order on three lines. By category, in km/h: 1 has 120, 80, 100; 2 has 100, 90, 90; 3 has 100, 100, 90.
pub fn worked_sections() -> [Order; 3] {
    let lines = [
        [120, 100, 100, 100, 100],
        [80, 90, 100, 100, 100],
        // ME100 is missing, so MA100 counts for category 2.
        [100, 0, 90, 90, 80],
    ];
    let order = case_a().order;
    lines.map(|limits| Order { limits, ..order })
}

/// The input of ROUTE for them: how many sections, the orders, the vehicles.
pub fn worked_route() -> Vec<u8> {
    let sections = worked_sections();
    let mut input = vec![sections.len() as u8];
    input.extend(written(&sections));
    input.extend(case_a().vehicles());
    input
}

/// Case A with another V mass on its ten wagons; B has 430.
fn case_a_with(wagon_v: u16) -> Draft {
    let engine = Vehicle {
        number: LEAST,
        mass: 900,
        braked_v: 1_000,
        braked_m: 800,
        length: 200,
        axles: 4,
        kind: WORKING_ENGINE,
        setting: SET_TO_V,
        joined: 1,
        speed: 140,
        matrossow: 0,
        d_load: 0,
        zero: 0,
    };
    let wagon = Vehicle {
        mass: 600,
        braked_v: wagon_v,
        braked_m: 500,
        length: 150,
        kind: WAGON,
        speed: 120,
        ..engine
    };
    let order = Order {
        book: Book::CrossBorder,
        limits: [100; 5],
        me140: 0,
        asked: 1,
        percentage: 0,
        coupling: 100_000,
        admissible: 100_000,
    };
    let mut draft = Draft {
        working: vec![engine],
        hauled: vec![wagon; 10],
        order,
    };
    draft.renumber();
    draft
}

/// C has one wagon at 432 and nine at 431, D three and seven.
fn case_d(above: usize) -> Draft {
    let mut draft = case_a_with(431);
    for wagon in &mut draft.hauled[..above] {
        wagon.braked_v = 432;
    }
    draft
}

/// All ten wagons are set to V, so the length is theirs.
fn case_e(length: i64) -> Draft {
    let mut draft = case_a();
    aim(&mut draft.hauled, LENGTH, length);
    draft
}

/// The same with forty isolated metres in the middle, which leave k as it was.
fn case_e_beside(length: i64) -> Draft {
    let mut draft = case_e(length);
    let isolated = Vehicle {
        length: 400,
        setting: ISOLATED,
        ..draft.hauled[5]
    };
    draft.hauled.insert(5, isolated);
    draft.renumber();
    draft
}

fn case_f(mass: i64) -> Draft {
    let mut draft = case_a();
    aim(&mut draft.hauled, MASS, mass);
    aim(&mut draft.hauled, BRAKED_V, 7_000);
    draft
}

fn case_g(mass: i64, asked: u8) -> Draft {
    let mut draft = case_a();
    aim(&mut draft.hauled, MASS, mass);
    aim(&mut draft.hauled, BRAKED_V, 11_000);
    draft.order.asked = asked;
    draft
}

/// A run of isolated wagons between two that are set to M.
fn case_h(run: usize) -> Draft {
    let mut draft = case_a();
    let mut wagon = draft.hauled[0];
    wagon.setting = SET_TO_M;
    wagon.braked_m = 2_500;
    draft.hauled = vec![wagon; run + 2];
    for isolated in &mut draft.hauled[1..=run] {
        isolated.setting = ISOLATED;
    }
    draft.working[0].setting = SET_TO_M;
    draft.order.asked = 5;
    draft.renumber();
    draft
}

#[cfg(test)]
mod tests {
    use super::*;
    use crate::calls::sheet_of_train;
    use crate::category::CROSS_BORDER_CATEGORIES;
    use crate::line::line;

    fn sheet(draft: &Draft) -> [u8; 32] {
        let mut sheet = [0; 32];
        let answer = sheet_of_train(&draft.vehicles(), &draft.order.write(), &mut sheet);
        assert_eq!(answer, 0);
        sheet
    }

    /// Lengths of case E with their k.
    const CASE_E: [(i64, u32); 5] = [(5_000, 0), (5_001, 1), (5_200, 1), (5_201, 2), (7_000, 10)];

    fn braked(sheet: &[u8; 32]) -> u32 {
        u32::from_le_bytes([sheet[24], sheet[25], sheet[26], sheet[27]])
    }

    fn margin(draft: &Draft) -> i64 {
        CROSS_BORDER_CATEGORIES[0].margin(&draft.facts(), &draft.order)
    }

    #[test]
    fn case_a_gives_the_line_of_the_page() {
        assert_eq!(
            line(&case_a().input()),
            "0 0 010164000000002020004400004d000070170000f41a000070170000a4060000\n"
        );
        assert_eq!(margin(&case_a()), 274_800);
    }

    #[test]
    fn case_b_falls_short_by_two_tonnes() {
        let draft = case_a_with(430);
        let sheet = sheet(&draft);
        assert_eq!(margin(&draft), -5_200);
        assert_eq!(sheet[10..13], [0xfe, 0xff, 0xff]);
        assert_eq!((sheet[1], sheet[4]), (2, 47));
    }

    #[test]
    fn cases_c_and_d_stand_on_either_side_of_zero() {
        assert_eq!(margin(&case_d(1)), -800);
        assert_eq!(sheet(&case_d(1))[10..13], [0xff, 0xff, 0xff]);
        assert_eq!(margin(&case_d(3)), 0);
        let even = sheet(&case_d(3));
        assert_eq!(even[10..13], [0, 0, 0]);
        assert_eq!((even[1], even[4]), (1, 0));
    }

    #[test]
    fn case_e_deducts_k_percent() {
        for (length, k) in CASE_E {
            let sheet = sheet(&case_e(length));
            assert_eq!(braked(&sheet), 6_000 - 60 * k, "{length}");
            assert_eq!(sheet[3], 0);
        }
        assert_eq!(sheet(&case_e(7_001))[3..9], [22; 6]);
    }

    /// The isolated wagon's 60 t cost 77 percent of themselves, 46.2 t or 184,800 four-thousandths, and no braked mass.
    #[test]
    fn forty_isolated_metres_leave_k_as_it_was() {
        for (length, k) in CASE_E {
            let beside = case_e_beside(length);
            let sheet = sheet(&beside);
            assert_eq!(braked(&sheet), 6_000 - 60 * k, "{length}");
            assert_eq!(margin(&case_e(length)) - margin(&beside), 184_800);
            assert_eq!(sheet[15], 1);
            // The hauled part has them too, and 740 m in all are past rule 21 with the engine.
            let long = if length == 7_000 { 21 } else { 0 };
            assert_eq!(sheet[3], long, "{length}");
        }
    }

    #[test]
    fn case_f_asks_for_an_engine_in_m() {
        assert_eq!(sheet(&case_f(8_000))[4..7], [0; 3]);
        assert_eq!(sheet(&case_f(8_001))[4..7], [42; 3]);
    }

    #[test]
    fn case_g_marks_the_heavy_train() {
        for asked in 1..=3 {
            assert_eq!(sheet(&case_g(12_000, asked))[14], 0);
            assert_eq!(sheet(&case_g(12_001, asked))[14], 1);
        }
        assert_eq!(sheet(&case_g(12_001, 4))[14], 0);
    }

    #[test]
    fn case_h_bears_ten_isolated() {
        assert_eq!(sheet(&case_h(10))[8], 0);
        assert_eq!(sheet(&case_h(11))[8], 33);
    }
}
