//! The worked cases of the domestic rule book, section 12.

use super::cases::{case_a, Case};
use super::draft::{aim, Draft, BRAKED_M, BRAKED_V, LENGTH, MASS};
use crate::book::Book;
use crate::order::Order;
use crate::vehicle::{Vehicle, HAULED_ENGINE, ISOLATED, SET_TO_M, SET_TO_V, WAGON};

/// A train of E in one setting, and what it hauls.
fn train(engine: u8, hauled: Vec<Vehicle>) -> Draft {
    let mut draft = case_a();
    draft.working[0].setting = engine;
    draft.hauled = hauled;
    draft.order = Order {
        book: Book::Domestic,
        limits: [120, 100, 100, 90, 80],
        me140: 140,
        ..draft.order
    };
    draft.renumber();
    draft
}

/// A wagon like W with these V and M masses.
fn wagon(braked_v: u16, braked_m: u16, setting: u8) -> Vehicle {
    Vehicle {
        mass: 600,
        braked_v,
        braked_m,
        length: 150,
        kind: WAGON,
        setting,
        ..case_a().working[0]
    }
}

fn w(setting: u8) -> Vehicle {
    wagon(600, 500, setting)
}

fn a(setting: u8) -> Vehicle {
    wagon(1_500, 800, setting)
}

fn c(setting: u8) -> Vehicle {
    wagon(400, 400, setting)
}

/// HE set to M.
fn hauled_engine() -> Vehicle {
    Vehicle {
        kind: HAULED_ENGINE,
        setting: SET_TO_M,
        ..case_a().working[0]
    }
}

/// B: E(M), five A(M), five C(V).
pub fn b() -> Draft {
    let hauled = [vec![a(SET_TO_M); 5], vec![c(SET_TO_V); 5]].concat();
    train(SET_TO_M, hauled)
}

fn b_with(change: impl Fn(&mut Draft)) -> Draft {
    let mut draft = b();
    change(&mut draft);
    draft
}

/// The train has this length in all.
fn of_length(draft: &mut Draft, length: i64) {
    let working: i64 = draft.working.iter().map(LENGTH.get).sum();
    aim(&mut draft.hauled, LENGTH, length - working);
}

/// E(M), so many HE(M), two A(M).
fn with_engines(engines: usize) -> Draft {
    let hauled = [vec![hauled_engine(); engines], vec![a(SET_TO_M); 2]].concat();
    train(SET_TO_M, hauled)
}

/// B with so many isolated of mass 1 before its last.
fn b_with_isolated(run: usize) -> Draft {
    let mut draft = b();
    let isolated = Vehicle {
        mass: 1,
        ..c(ISOLATED)
    };
    draft.hauled.splice(9..9, vec![isolated; run]);
    draft.renumber();
    draft
}

/// Ten W(V) behind E(V), with these V masses in all.
fn quick(masses: i64) -> Draft {
    let mut draft = train(SET_TO_V, vec![w(SET_TO_V); 10]);
    aim(&mut draft.hauled, BRAKED_V, masses - 1_000);
    draft
}

/// So many W(V) of V 1,500 with a hauled mass.
fn loaded(engine: u8, wagons: usize, mass: i64) -> Draft {
    let mut draft = train(engine, vec![wagon(1_500, 500, SET_TO_V); wagons]);
    aim(&mut draft.hauled, MASS, mass);
    draft
}

/// E(M), 5 W(M), 10 W(V) of V 1,500 and M 900.
fn heavy(mass: i64) -> Draft {
    let hauled = [
        vec![wagon(1_500, 900, SET_TO_M); 5],
        vec![wagon(1_500, 900, SET_TO_V); 10],
    ];
    let mut draft = train(SET_TO_M, hauled.concat());
    aim(&mut draft.hauled, MASS, mass);
    draft
}

fn case_8b() -> Draft {
    let hauled = [
        vec![wagon(401, 500, SET_TO_M); 5],
        vec![wagon(500, 500, SET_TO_V); 5],
    ];
    let mut draft = train(SET_TO_M, hauled.concat());
    draft.order.asked = 3;
    draft
}

/// E(M) and 10 W(M), with these M masses in all.
fn case_18(masses: i64) -> Draft {
    let mut draft = train(SET_TO_M, vec![w(SET_TO_M); 10]);
    aim(&mut draft.hauled, BRAKED_M, masses - 800);
    draft.order.asked = 4;
    draft
}

/// B at each length where p changes, one below and one above, with each category asked.
pub fn swept_classes() -> Vec<Draft> {
    let mut drafts = vec![];
    for bound in [5_500, 6_500, 7_500, 8_000, 9_000, 10_000] {
        for length in [bound - 1, bound, bound + 1] {
            for asked in 1..=6 {
                drafts.push(b_with(|draft| {
                    of_length(draft, length);
                    draft.order.asked = asked;
                }));
            }
        }
    }
    drafts
}

/// Every case of the page, by its number there.
pub fn domestic_cases() -> Vec<Case> {
    let cases = [b_cases(), engine_cases(), mass_cases()].concat();
    let named = cases.into_iter();
    named
        .map(|(name, draft)| Case {
            name: name.to_owned(),
            draft,
        })
        .collect()
}

/// B with one thing changed.
fn b_cases() -> Vec<(&'static str, Draft)> {
    vec![
        ("30", b()),
        (
            "31a",
            b_with(|draft| {
                (draft.order.coupling, draft.order.admissible) = (6_000, 6_000);
                of_length(draft, 7_500);
            }),
        ),
        ("31b", b_with(|draft| draft.order.coupling = 5_999)),
        ("31c", b_with(|draft| draft.order.admissible = 5_999)),
        ("32", b_with(|draft| draft.order.limits = [0, 100, 0, 0, 0])),
        ("33", b_with(|draft| draft.hauled[0].d_load = 1)),
        (
            "34",
            b_with(|draft| (draft.hauled[9].joined, draft.hauled[9].setting) = (0, ISOLATED)),
        ),
        ("35a", b_with(|draft| draft.hauled[2].speed = 100)),
        ("35b", b_with(|draft| draft.hauled[2].speed = 99)),
        ("36b", train(SET_TO_M, vec![a(SET_TO_M)])),
        ("37b", b_with(|draft| of_length(draft, 7_501))),
        ("40a", b_with(|draft| draft.working[0].speed = 80)),
        ("40b", b_with(|draft| draft.working[0].speed = 79)),
        ("41a", b_with(|draft| draft.hauled[5].setting = SET_TO_M)),
        (
            "41c",
            b_with(|draft| (draft.hauled[4].setting, draft.hauled[4].braked_v) = (SET_TO_V, 0)),
        ),
        ("42a", b_with(|draft| draft.hauled[0].setting = ISOLATED)),
        ("42b", b_with(|draft| draft.hauled[9].setting = ISOLATED)),
        ("43", b_with(|draft| draft.hauled[9].braked_v = 401)),
        ("44a", b_with_isolated(10)),
        ("44b", b_with_isolated(11)),
    ]
}

/// Hauled engines in front, one of them isolated or behind a wagon.
fn engine_cases() -> Vec<(&'static str, Draft)> {
    let [mut isolated, mut behind] = [with_engines(2), with_engines(2)];
    isolated.hauled[1].setting = ISOLATED;
    behind.hauled.swap(1, 2);
    vec![
        ("38a", with_engines(2)),
        ("38b", isolated),
        ("38c", behind),
        ("39a", with_engines(3)),
        ("39b", with_engines(5)),
        ("39c", with_engines(6)),
    ]
}

/// Margins about 0, and hauled masses at their bounds.
fn mass_cases() -> Vec<(&'static str, Draft)> {
    vec![
        ("4a", quick(6_693)),
        ("4b", quick(6_692)),
        ("6a", loaded(SET_TO_V, 10, 8_000)),
        ("6b", loaded(SET_TO_V, 10, 8_001)),
        ("6d", loaded(SET_TO_V, 15, 12_000)),
        ("6e", loaded(SET_TO_V, 15, 12_001)),
        ("6f", loaded(SET_TO_M, 15, 12_000)),
        ("6g", loaded(SET_TO_M, 15, 12_001)),
        ("7b", heavy(16_000)),
        ("7c", heavy(16_001)),
        ("8b", case_8b()),
        ("18a", case_18(3_933)),
        ("18b", case_18(3_932)),
    ]
}

#[cfg(test)]
mod tests {
    use super::*;
    use crate::call::{Call, Inputs, Model};
    use crate::gen::accounts::account_of;
    use crate::line::{hex, line};

    /// The table of the page: case, first rules ME140 to MA80, asked, granted, speed, p, margin, mark, braked.
    const ROWS: &str = "
        30 | 0 0 0 0 0 0 | 1 | 1 | 140 | 97 | 692,800 | 1 | 8,425
        31a | 0 0 0 0 0 0 | 1 | 1 | 140 | 108 | 389,200 | 1 | 8,425
        31b | 60 60 60 60 60 60 | 1 | 0 | 0 | 97 | 692,800 | 1 | 8,425
        31c | 63 63 63 63 63 63 | 1 | 0 | 0 | 97 | 692,800 | 1 | 8,425
        32 | 0 0 0 61 61 61 | 1 | 1 | 140 | 97 | 692,800 | 1 | 8,425
        33 | 64 0 0 0 0 0 | 1 | 2 | 120 | 97 | 692,800 | 1 | 8,425
        34 | 65 65 65 65 65 65 | 1 | 0 | 0 | 97 | 532,800 | 1 | 8,025
        35a | 66 66 0 0 0 0 | 1 | 3 | 100 | 97 | 692,800 | 1 | 8,425
        35b | 66 66 66 78 0 0 | 1 | 5 | 90 | 97 | 692,800 | 1 | 8,425
        36b | 67 67 0 0 0 0 | 1 | 3 | 100 | 97 | 188,000 | 1 | 1,925
        37b | 68 68 68 79 79 79 | 1 | 0 | 0 | 108 | 389,200 | 1 | 8,425
        38a | 0 0 0 0 0 0 | 1 | 1 | 140 | 97 | 346,800 | 1 | 4,650
        38b | 71 71 71 80 80 80 | 1 | 0 | 0 | 97 | 26,800 | 1 | 3,850
        38c | 70 70 70 81 81 81 | 1 | 0 | 0 | 97 | 346,800 | 1 | 4,650
        39a | 72 72 72 0 0 0 | 1 | 4 | 100 | 97 | 317,600 | 1 | 5,450
        39b | 72 72 72 0 0 0 | 1 | 4 | 100 | 97 | 259,200 | 1 | 7,050
        39c | 72 72 72 82 82 82 | 1 | 0 | 0 | 97 | 230,000 | 1 | 7,850
        40a | 73 73 73 83 83 0 | 1 | 6 | 80 | 97 | 692,800 | 1 | 8,425
        40b | 73 73 73 83 83 83 | 1 | 0 | 0 | 97 | 692,800 | 1 | 8,425
        41a | 74 74 74 0 0 0 | 1 | 4 | 100 | 97 | 652,800 | 1 | 8,325
        41c | 74 74 74 0 0 0 | 1 | 4 | 100 | 97 | 242,800 | 0 | 7,300
        42a | 75 75 75 85 85 85 | 1 | 0 | 0 | 97 | 242,800 | 1 | 7,300
        42b | 76 76 76 86 86 86 | 1 | 0 | 0 | 97 | 532,800 | 1 | 8,025
        43 | 0 0 0 84 84 84 | 1 | 1 | 140 | 97 | 693,200 | 1 | 8,426
        44a | 0 0 0 0 0 0 | 1 | 1 | 140 | 97 | 688,920 | 1 | 8,425
        44b | 0 0 0 87 87 87 | 1 | 1 | 140 | 97 | 688,532 | 1 | 8,425
        4a | 0 0 0 62 62 62 | 1 | 1 | 140 | 97 | 0 | 0 | 6,693
        4b | 77 0 0 62 62 62 | 1 | 2 | 120 | 97 | -400 | 0 | 6,692
        6a | 0 0 0 62 62 62 | 1 | 1 | 140 | 97 | 2,946,800 | 0 | 16,000
        6b | 0 62 62 62 62 62 | 1 | 1 | 140 | 97 | 2,946,412 | 0 | 16,000
        6d | 0 62 62 62 62 62 | 1 | 1 | 140 | 97 | 4,394,800 | 0 | 23,500
        6e | 62 62 62 62 62 62 | 1 | 0 | 0 | 97 | 4,394,412 | 0 | 23,500
        6f | 0 0 0 84 84 84 | 1 | 1 | 140 | 97 | 4,314,800 | 0 | 23,300
        6g | 69 69 69 84 84 84 | 1 | 0 | 0 | 97 | 4,314,412 | 0 | 23,300
        7b | 0 0 0 84 84 84 | 1 | 1 | 140 | 97 | 2,012,800 | 1 | 21,425
        7c | 69 69 69 84 84 84 | 1 | 0 | 0 | 97 | 2,012,412 | 1 | 21,425
        8b | 77 77 0 84 84 84 | 3 | 3 | 100 | 60 | 265,500 | 1 | 4,803
        18a | 74 74 74 0 0 0 | 4 | 4 | 100 | 57 | 0 | 0 | 3,933
        18b | 74 74 74 88 0 0 | 4 | 5 | 90 | 57 | -400 | 0 | 3,932";

    /// The numbers of a row, and its case.
    fn row(text: &str) -> (&str, Vec<i64>) {
        let (name, cells) = text.trim().split_once(" | ").expect("a row has cells");
        let cells = cells.split([' ', '|']).filter(|cell| !cell.is_empty());
        let number = |cell: &str| cell.replace(',', "").parse().expect("a cell is a number");
        (name, cells.map(number).collect())
    }

    const WHOLE_SHEETS: [(&str, &str); 4] = [
        (
            "30",
            "01018c0000000000000000ad000061010070170000f41a0000e9200000a4060000",
        ),
        (
            "4b",
            "010278004d00003e3e3e00ffffff61000070170000f41a0000241a0000a4060000",
        ),
        (
            "8b",
            "030364004d4d00545454004200003c010070170000f41a0000c3120000a4060000",
        ),
        (
            "18b",
            "04055a004a4a4a58000000ffffff39000070170000f41a00005c0f0000a4060000",
        ),
    ];

    fn drafted(name: &str) -> Draft {
        let case = domestic_cases().into_iter().find(|case| case.name == name);
        case.expect("the page has the case").draft
    }

    fn sheet_of(inputs: Inputs) -> [u8; 33] {
        let (room, fill) = (33, 0x77);
        let (answer, buffer) = Call { inputs, room, fill }.outcome(&Model);
        assert_eq!(answer, 0);
        *buffer.first_chunk().expect("a buffer is longer")
    }

    /// The sheet over the records, which is that over engines and account.
    fn sheet(draft: &Draft) -> [u8; 33] {
        let of_train = sheet_of(draft.of_train());
        let hauled = account_of(&draft.hauled).to_vec();
        assert_eq!(sheet_of(draft.of_account(hauled)), of_train);
        of_train
    }

    #[test]
    fn every_case_gives_its_row() {
        let rows: Vec<(&str, Vec<i64>)> = ROWS.trim().lines().map(row).collect();
        assert_eq!(rows.len(), domestic_cases().len());
        for (name, numbers) in rows {
            let draft = drafted(name);
            let sheet = sheet(&draft);
            let asked = draft.order.book.rules().asked(&draft.order);
            let margin = asked.margin(&draft.facts(), &draft.order);
            let braked = u32::from_le_bytes([sheet[25], sheet[26], sheet[27], sheet[28]]);
            let mut found: Vec<i64> = sheet[4..10].iter().map(|&rule| rule.into()).collect();
            found.extend([sheet[0], sheet[1], sheet[2], sheet[14]].map(i64::from));
            found.extend([margin, sheet[15].into(), braked.into()]);
            assert_eq!(found, numbers, "{name}");
            let tonnes = margin.div_euclid(4_000).to_le_bytes();
            assert_eq!((sheet[3], &sheet[11..14]), (0, &tonnes[..3]), "{name}");
        }
    }

    #[test]
    fn four_sheets_are_the_page_s_byte_for_byte() {
        for (name, printed) in WHOLE_SHEETS {
            let draft = drafted(name);
            assert_eq!(hex(&sheet(&draft)), printed, "{name}");
            assert_eq!(line(&draft.input()), format!("0 0 {printed}\n"), "{name}");
        }
    }

    #[test]
    fn a_domestic_sheet_needs_33_bytes() {
        let fill = 0x55;
        for (room, answer) in [(0, 5), (31, 5), (32, 5), (33, 0), (34, 0)] {
            let inputs = b().of_train();
            let call = Call { inputs, room, fill };
            let (found, buffer) = call.outcome(&Model);
            assert_eq!(found, answer, "{room}");
            let written = if answer == 0 { 33 } else { 0 };
            assert_eq!(buffer[written..], call.buffer()[written..], "{room}");
        }
    }

    /// Each field of an order at the ends of its book's range.
    #[test]
    fn an_order_is_read_by_its_book() {
        let cross_border = case_a().order.write();
        let domestic = b().order.write();
        let good = |order: &[u8; 24], changes: &[(usize, u8)]| {
            let mut order = *order;
            for &(at, value) in changes {
                order[at] = value;
            }
            Order::read(&order).is_some()
        };
        assert!(good(&cross_border, &[(7, 1)]) && good(&domestic, &[(7, 0), (16, 0)]));
        assert!(!good(&domestic, &[(7, 0)]) && !good(&cross_border, &[(6, 1), (7, 1)]));
        assert!(!good(&cross_border, &[(16, 1)]) && !good(&domestic, &[(6, 1)]));
        assert!(good(&domestic, &[(16, 200)]) && !good(&domestic, &[(16, 201)]));
        assert!(good(&domestic, &[(5, 6)]) && !good(&domestic, &[(5, 7)]));
        assert!(!good(&domestic, &[(5, 0)]) && !good(&cross_border, &[(5, 6)]));
        for order in [&cross_border, &domestic] {
            assert!(!good(order, &[(7, 2)]) && !good(order, &[(7, 255)]));
            assert!((17..24).all(|at| !good(order, &[(at, 1)])));
        }
    }

    /// Byte 14 of ME140, ME120 and ME100, MA100, MA90 and MA80 at each length where p changes.
    #[test]
    fn p_goes_by_the_train_s_length() {
        let lengths = [
            (5_500, [97, 77, 60, 57, 50, 47]),
            (5_501, [102, 81, 63, 57, 50, 47]),
            (6_500, [102, 81, 63, 57, 50, 47]),
            (6_501, [108, 86, 66, 57, 50, 47]),
            (7_500, [108, 86, 66, 57, 50, 47]),
            (7_501, [108, 94, 73, 57, 50, 47]),
            (8_000, [108, 94, 73, 57, 50, 47]),
            (8_001, [108, 94, 73, 64, 57, 55]),
            (9_000, [108, 94, 73, 64, 57, 55]),
            (9_001, [108, 94, 73, 69, 61, 59]),
            (10_001, [108, 94, 73, 69, 61, 59]),
        ];
        for (length, percentages) in lengths {
            for (asked, p) in (1..).zip(percentages) {
                let draft = b_with(|draft| {
                    of_length(draft, length);
                    draft.order.asked = asked;
                });
                assert_eq!(sheet(&draft)[14], p, "{length} {asked}");
            }
        }
    }

    /// 1403.2: R among the first five, or an engine that is not in M, and the train is no long locomotive; isolated ones leave it one.
    #[test]
    fn the_mark_is_by_the_settings() {
        let marked = |change: fn(&mut Draft)| sheet(&b_with(change))[15];
        assert_eq!(marked(|_| {}), 1);
        assert_eq!(marked(|draft| draft.order.asked = 4), 0);
        assert_eq!(marked(|draft| draft.hauled[4].setting = 3), 0);
        assert_eq!(marked(|draft| draft.hauled[5].setting = 3), 1);
        assert_eq!(marked(|draft| draft.hauled[4].setting = ISOLATED), 1);
        assert_eq!(marked(|draft| draft.working[0].setting = ISOLATED), 0);
        assert_eq!(marked(|draft| draft.hauled.truncate(3)), 1);
    }
}
