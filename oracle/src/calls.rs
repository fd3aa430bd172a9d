//! The seven functions, in the shape of the product's C functions.

use crate::account::{Account, ACCOUNT};
use crate::answer::{answer, demand, refusal, route_answer, Refusal};
use crate::facts::Facts;
use crate::order::Order;
use crate::route::{granted, sections};
use crate::sheet::sheet;
use crate::vehicle::{first_bad, is_working, Record, MOST_RECORDS, VEHICLE};

/// The sheet of a whole train. Refusals in order: 1, 2, 3, 4, 5, 11, 12, 13, 14.
pub fn sheet_of_train(vehicles: &[u8], order: &[u8], room: &mut [u8]) -> u64 {
    answer(train(vehicles, order, room))
}

/// The account of a portion. Refusals in order: 1, 2, 3, 6, 5.
pub fn account_of(portion: &[u8], room: &mut [u8]) -> u64 {
    answer(portion_account(portion, room))
}

/// Two accounts joined. Refusals in order: 7, 2, 5.
pub fn join(left: &[u8], right: &[u8], room: &mut [u8]) -> u64 {
    answer(joined(left, right, room))
}

/// Engines with an account. Refusals in order: 1, 7, 2, 3, 4, 5, 11, 13, 14.
pub fn sheet_of_account(engines: &[u8], hauled: &[u8], order: &[u8], room: &mut [u8]) -> u64 {
    answer(judged(engines, hauled, order, room))
}

/// The route of a whole train. Refusals in order: 1, 2, 3, 4, 5, 11, 12, 13, 14.
pub fn route_of_train(vehicles: &[u8], orders: &[u8], room: &mut [u8]) -> u64 {
    route_answer(train_route(vehicles, orders, room))
}

/// The route of engines with an account. Refusals in order: 1, 7, 2, 3, 4, 5, 11, 13, 14.
pub fn route_of_account(engines: &[u8], hauled: &[u8], orders: &[u8], room: &mut [u8]) -> u64 {
    route_answer(account_route(engines, hauled, orders, room))
}

/// Copies the vehicle that holds the speed and answers 24, or answers 0.
pub fn holds_the_speed(front: &[u8], back: &[u8], room: &mut [u8]) -> usize {
    match (slowest_of(front, back), room.get_mut(..VEHICLE)) {
        (Some(vehicle), Some(room)) => {
            room.copy_from_slice(vehicle);
            VEHICLE
        }
        _ => 0,
    }
}

fn train(vehicles: &[u8], order: &[u8], room: &mut [u8]) -> Result<(), Refusal> {
    let records = train_records(vehicles)?;
    let order = Order::read(order).ok_or(refusal(4))?;
    let room = lent_for(room, order.book.sheet())?;
    room.copy_from_slice(&sheet(&train_facts(records)?, &order));
    Ok(())
}

fn train_route(vehicles: &[u8], orders: &[u8], room: &mut [u8]) -> Result<u8, Refusal> {
    let records = train_records(vehicles)?;
    let sections = sections(orders)?;
    let room = lent_for(room, sections.len())?;
    let route = granted(&train_facts(records)?, &sections);
    room.copy_from_slice(&route.speeds);
    Ok(route.category)
}

/// Refusals 1, 2 and 3 of a whole train.
fn train_records(vehicles: &[u8]) -> Result<&[Record], Refusal> {
    let records = whole_records(vehicles)?;
    demand(!records.is_empty(), 1)?;
    demand(records.len() <= MOST_RECORDS, 2)?;
    all_good(records)?;
    Ok(records)
}

/// Refusals 11 to 14 of a whole train.
fn train_facts(records: &[Record]) -> Result<Facts, Refusal> {
    let leading = records
        .iter()
        .take_while(|record| is_working(record))
        .count();
    let (working, hauled) = records.split_at(leading);
    demand(!working.is_empty(), 11)?;
    demand(!hauled.iter().any(is_working), 12)?;
    demand(working.len() <= 2, 13)?;
    demand(!hauled.is_empty(), 14)?;
    Ok(Facts::of_train(working, hauled))
}

fn portion_account(portion: &[u8], room: &mut [u8]) -> Result<(), Refusal> {
    let records = whole_records(portion)?;
    demand(records.len() <= MOST_RECORDS, 2)?;
    all_good(records)?;
    demand(!records.iter().any(is_working), 6)?;
    lent_for(room, ACCOUNT)?.copy_from_slice(&Account::of(records).write());
    Ok(())
}

fn joined(left: &[u8], right: &[u8], room: &mut [u8]) -> Result<(), Refusal> {
    let left = Account::read(left).ok_or(refusal(7))?;
    let right = Account::read(right).ok_or(refusal(7))?;
    let account = left.join(&right)?;
    lent_for(room, ACCOUNT)?.copy_from_slice(&account.write());
    Ok(())
}

fn judged(engines: &[u8], hauled: &[u8], order: &[u8], room: &mut [u8]) -> Result<(), Refusal> {
    let (working, hauled) = engines_and_account(engines, hauled)?;
    let order = Order::read(order).ok_or(refusal(4))?;
    let room = lent_for(room, order.book.sheet())?;
    room.copy_from_slice(&sheet(&account_facts(working, &hauled)?, &order));
    Ok(())
}

fn account_route(
    engines: &[u8],
    hauled: &[u8],
    orders: &[u8],
    room: &mut [u8],
) -> Result<u8, Refusal> {
    let (working, hauled) = engines_and_account(engines, hauled)?;
    let sections = sections(orders)?;
    let room = lent_for(room, sections.len())?;
    let route = granted(&account_facts(working, &hauled)?, &sections);
    room.copy_from_slice(&route.speeds);
    Ok(route.category)
}

/// Refusals 1, 7, 2 and 3 of engines with an account.
fn engines_and_account<'a>(
    engines: &'a [u8],
    hauled: &[u8],
) -> Result<(&'a [Record], Account), Refusal> {
    let working = whole_records(engines)?;
    demand(!working.is_empty(), 1)?;
    let hauled = Account::read(hauled).ok_or(refusal(7))?;
    demand(working.len() + hauled.count as usize <= MOST_RECORDS, 2)?;
    all_good(working)?;
    Ok((working, hauled))
}

/// Refusals 11, 13 and 14 of engines with an account.
fn account_facts(working: &[Record], hauled: &Account) -> Result<Facts, Refusal> {
    demand(working.iter().all(is_working), 11)?;
    demand(working.len() <= 2, 13)?;
    demand(hauled.count > 0, 14)?;
    Ok(Facts::of_account(working, hauled))
}

/// The record with the least byte 20, the first in the train at a tie.
fn slowest_of<'a>(front: &'a [u8], back: &'a [u8]) -> Option<&'a Record> {
    let front = whole_records(front).ok()?;
    let back = whole_records(back).ok()?;
    if front.len() + back.len() > MOST_RECORDS {
        return None;
    }
    if first_bad(front).is_some() || first_bad(back).is_some() {
        return None;
    }
    // min_by_key hands back the first of equal ones.
    front.iter().chain(back).min_by_key(|record| record[20])
}

fn whole_records(bytes: &[u8]) -> Result<&[Record], Refusal> {
    match bytes.as_chunks::<VEHICLE>() {
        (records, []) => Ok(records),
        _ => Err(refusal(1)),
    }
}

fn all_good(records: &[Record]) -> Result<(), Refusal> {
    match first_bad(records) {
        None => Ok(()),
        Some(place) => Err(Refusal { number: 3, place }),
    }
}

/// The first bytes of a lent buffer that is long enough.
fn lent_for(room: &mut [u8], bytes: usize) -> Result<&mut [u8], Refusal> {
    room.get_mut(..bytes).ok_or(refusal(5))
}

#[cfg(test)]
mod tests {
    use super::*;
    use crate::answer::parts;
    use crate::gen::cases::{case_a, worked_sections};
    use crate::gen::domestic_cases::b;
    use crate::gen::draft::{bytes, Draft};
    use crate::gen::routes::written;
    use crate::line::hex;
    use crate::vehicle::{Vehicle, ISOLATED, SET_TO_M, SET_TO_R};

    fn sheet_of(draft: &Draft) -> [u8; 32] {
        let mut room = [0; 32];
        let answer = sheet_of_train(&draft.vehicles(), &draft.order.write(), &mut room);
        assert_eq!(answer, 0);
        room
    }

    #[test]
    fn a_later_category_is_granted_where_it_is_faster() {
        let mut draft = case_a();
        draft.order.limits = [80, 90, 100, 100, 100];
        assert_eq!(sheet_of(&draft)[..3], [1, 3, 100]);
        draft.order.limits = [100, 0, 90, 0, 0];
        assert_eq!(sheet_of(&draft)[..3], [1, 1, 100]);
    }

    #[test]
    fn a_missing_column_falls_back_to_the_right_alone() {
        let mut draft = case_a();
        draft.order.limits = [120, 100, 0, 0, 0];
        assert_eq!(sheet_of(&draft)[4..9], [0, 0, 30, 30, 30]);
        draft.order.limits = [0, 0, 0, 0, 70];
        assert_eq!(sheet_of(&draft)[..3], [1, 1, 70]);
    }

    #[test]
    fn an_account_with_speed_0_is_granted_at_0() {
        let draft = case_a();
        let mut account = [0; ACCOUNT];
        assert_eq!(account_of(&bytes(&draft.hauled), &mut account), 0);
        account[60] = 0;
        let engines = bytes(&draft.working);
        let mut room = [9; 32];
        let answer = sheet_of_account(&engines, &account, &draft.order.write(), &mut room);
        assert_eq!((answer, &room[..3]), (0, &[1, 1, 0][..]));
    }

    /// Case A's engine beside its account with other figures; 600.0 t are braked.
    fn sheet_beside(change: impl Fn(&mut Account)) -> [u8; 32] {
        let draft = case_a();
        let mut account = Account::of(bytes(&draft.hauled).as_chunks().0);
        change(&mut account);
        let (engines, order) = (bytes(&draft.working), draft.order.write());
        let mut room = [9; 32];
        let answer = sheet_of_account(&engines, &account.write(), &order, &mut room);
        assert_eq!(answer, 0);
        room
    }

    /// The hauled part is 150 m long, whatever its vehicles set to V are said to be. Q is 4 x 6,000, and 90 percent make 2,160,000,
    /// so 540.0 t. Category 1 needs 4 x 77 x 6,900 = 2,125,200: 34,800 are over, 8 t. With k not held at 10 there would be
    /// 24,000 x 89 and 534.0 t from 700.1 m on, and from 720.1 m on 24,000 x 88 = 2,112,000, so rule 47.
    #[test]
    fn more_than_700_m_set_to_v_break_no_rule() {
        let sheet = "010164000000002020000800004d000070170000f41a000018150000a4060000";
        for length_v in [6_801, 7_000, 7_001, 7_201, 200_000] {
            let found = sheet_beside(|account| account.length_v = length_v);
            assert_eq!(hex(&found), sheet, "{length_v}");
        }
    }

    /// Q is 4 x (1,000 + 4,860), and 90 percent make 2,109,600, so 527.4 t: 15,600 are short of what category 1 needs, so -4 t, and
    /// 2 and 3 need 4 x 60 x 6,900 = 1,656,000. With the engine's 100 t alone there are 4,000 x 90 = 360,000, so 90.0 t and -442 t.
    #[test]
    fn rule_47_stands_where_the_margin_is_short() {
        let short = |braked_v: u32| {
            let change = |account: &mut Account| {
                (account.length_v, account.braked_v) = (7_001, braked_v);
            };
            hex(&sheet_beside(change))
        };
        let in_one = "010264002f0000202000fcffff4d000070170000f41a00009a140000a4060000";
        assert_eq!(short(4_860), in_one);
        let in_all = "010000002f2f2f22220046feff4d000070170000f41a000084030000a4060000";
        assert_eq!(short(0), in_all);
    }

    #[test]
    fn other_rules_stand_where_they_were() {
        let with_42 = sheet_beside(|account| (account.length_v, account.mass) = (7_001, 8_001));
        assert_eq!(with_42[4..7], [42; 3]);
        let with_22 = sheet_beside(|account| (account.length_v, account.length) = (7_001, 7_001));
        assert_eq!(with_22[3..9], [22; 6]);
    }

    /// Ten wagons of 50 m make 500 m set to V; engine, isolated and M metres beside them bring no percent.
    #[test]
    fn k_counts_hauled_vehicles_set_to_v_alone() {
        let mut draft = case_a();
        for wagon in &mut draft.hauled {
            wagon.length = 500;
        }
        let braked = |draft: &Draft| u16::from_le_bytes([sheet_of(draft)[24], sheet_of(draft)[25]]);
        assert_eq!(braked(&draft), 6_000);
        for (setting, more) in [(ISOLATED, 0), (SET_TO_M, 375), (SET_TO_R, 0)] {
            let mut beside = draft.clone();
            let other = Vehicle {
                setting,
                ..draft.hauled[4]
            };
            beside.hauled.insert(4, other);
            assert_eq!(braked(&beside), 6_000 + more, "{setting}");
        }
        draft.hauled[4].length = 501;
        assert_eq!(braked(&draft), 5_940);
    }

    #[test]
    fn the_first_vehicle_at_a_tie_holds_the_speed() {
        let draft = case_a();
        let front = bytes(&draft.working);
        let back = bytes(&draft.hauled);
        let mut room = [0; 30];
        assert_eq!(holds_the_speed(&front, &back, &mut room), 24);
        assert_eq!(room[..24], draft.hauled[0].write());
        assert_eq!(holds_the_speed(&back, &back, &mut room), 24);
        assert_eq!(room[24..], [0; 6]);
        assert_eq!(holds_the_speed(&[], &[], &mut room), 0);
        assert_eq!(holds_the_speed(&front, &back, &mut room[..23]), 0);
    }

    #[test]
    fn refusals_come_in_their_order() {
        let draft = case_a();
        let mut vehicles = draft.vehicles();
        let order = draft.order.write();
        assert_eq!(sheet_of_train(&vehicles, &order, &mut []), 5);
        assert_eq!(sheet_of_train(&vehicles, &order[1..], &mut []), 4);
        vehicles[2 * VEHICLE + 23] = 1;
        assert_eq!(sheet_of_train(&vehicles, &[], &mut []), 3 + 2 * 256);
        assert_eq!(sheet_of_train(&vehicles[1..], &[], &mut []), 1);
        assert_eq!(sheet_of_account(&vehicles[..VEHICLE], &[], &[], &mut []), 7);
        assert_eq!(sheet_of_account(&[], &[], &[], &mut []), 1);
    }

    /// What a done route grants, with the speeds of its sections.
    fn route_of(draft: &Draft, sections: &[Order]) -> (u64, Vec<u8>) {
        let mut room = vec![0xaa; sections.len() + 2];
        let answer = route_of_train(&draft.vehicles(), &written(sections), &mut room);
        let (number, place, category) = parts(answer);
        assert_eq!((number, place), (0, 0));
        assert_eq!(room.split_off(sections.len()), [0xaa; 2]);
        (category, room)
    }

    fn lines(draft: &Draft, limits: &[[u8; 5]]) -> Vec<Order> {
        let order = draft.order;
        let section = |&limits: &[u8; 5]| Order { limits, ..order };
        limits.iter().map(section).collect()
    }

    /// Slowest: 80 in category 1, 90 in 2, 90 in 3. Alone the sections are granted 1, 3 and 1.
    #[test]
    fn the_worked_route_goes_to_a_category_that_no_section_alone_is_granted() {
        let (draft, sections) = (case_a(), worked_sections());
        assert_eq!(route_of(&draft, &sections), (2, vec![100, 90, 90]));
        let alone = sections.map(|section| route_of(&draft, &[section]));
        let expected = [(1, 120), (3, 100), (1, 100)];
        assert_eq!(
            alone,
            expected.map(|(category, speed)| (category, vec![speed]))
        );
    }

    #[test]
    fn the_slowest_section_decides_and_the_lowest_number_at_a_tie() {
        let draft = case_a();
        let mut sections = lines(
            &draft,
            &[[90, 100, 100, 100, 100], [100, 90, 100, 100, 100]],
        );
        assert_eq!(route_of(&draft, &sections), (3, vec![100, 100]));
        sections.extend(lines(&draft, &[[100, 100, 90, 100, 100]]));
        assert_eq!(route_of(&draft, &sections), (1, vec![90, 100, 100]));
    }

    /// 600.0 t are braked of 690.0 t: 86 percent of these are 593.4 t, 87 are 600.3 t. Categories 4 and 5 break 32.
    #[test]
    fn one_section_s_timetable_takes_the_category_from_the_route() {
        let draft = case_a();
        for (percentage, granted) in [(86, (1, vec![100; 3])), (87, (0, vec![0; 3]))] {
            let mut sections = [draft.order; 3];
            sections[1].percentage = percentage;
            assert_eq!(route_of(&draft, &sections), granted, "{percentage}");
        }
    }

    /// 600.0 t are hauled: `granted` where one section of two lets them be coupled, nothing where it lets 599.9 t.
    fn one_section_limits_600_t(draft: &Draft, granted: (u64, Vec<u8>)) {
        for (limit, granted) in [(6_000, granted), (5_999, (0, vec![0; 2]))] {
            let [mut coupling, mut admissible] = [[draft.order; 2]; 2];
            coupling[1].coupling = limit;
            admissible[0].admissible = limit;
            assert_eq!(route_of(draft, &coupling), granted, "{limit}");
            assert_eq!(route_of(draft, &admissible), granted, "{limit}");
        }
    }

    /// All set to M: 580.0 t are braked, 57 percent of 690.0 t are 393.3 t, and 600.0 t are hauled.
    #[test]
    fn one_section_s_limits_take_the_category_from_the_route() {
        let mut draft = case_a();
        for vehicle in draft.working.iter_mut().chain(&mut draft.hauled) {
            vehicle.setting = SET_TO_M;
        }
        draft.order.asked = 4;
        one_section_limits_600_t(&draft, (4, vec![100; 2]));
    }

    #[test]
    fn a_section_without_columns_leaves_a_0_for_every_section() {
        let draft = case_a();
        let sections = lines(&draft, &[[120; 5], [0; 5], [120; 5]]);
        assert_eq!(route_of(&draft, &sections), (0, vec![0; 3]));
        let left = lines(&draft, &[[120; 5], [110, 0, 0, 0, 0], [120; 5]]);
        assert_eq!(route_of(&draft, &left), (1, vec![120, 110, 120]));
    }

    #[test]
    fn a_route_s_4_has_its_section_as_place() {
        let vehicles = case_a().vehicles();
        let good = written(&[case_a().order; 65]);
        let answer = |orders: &[u8]| route_of_train(&vehicles, orders, &mut [0; 64]);
        for length in [0, 1, 23, 25, 47, 1_535, 1_537, 1_560] {
            assert_eq!(answer(&good[..length]), 4, "{length} bytes");
        }
        assert_eq!(answer(&good[..1_536]), 1 << 32);
        let mut orders = good[..1_536].to_vec();
        orders[63 * 24 + 23] = 1;
        assert_eq!(answer(&orders), 4 + 63 * 256);
        orders[2 * 24 + 6] = 201;
        assert_eq!(answer(&orders), 4 + 2 * 256);
        orders[24 + 5] = 2;
        assert_eq!(answer(&orders), 4 + 256);
        assert_eq!(answer(&orders[..1_535]), 4);
        orders[5] = 6;
        assert_eq!(answer(&orders), 4);
    }

    /// ME140's slowest section has 80, ME120's 90, ME100's and MA100's 100; the third section has no column from MA100 on, so that
    /// MA100 breaks 61 there, and ME100 takes its own.
    #[test]
    fn a_domestic_route_goes_by_its_own_columns() {
        let draft = b();
        let section = |me140, limits| Order {
            me140,
            limits,
            ..draft.order
        };
        let sections = [
            section(140, [120, 100, 100, 90, 80]),
            section(80, [90, 100, 100, 100, 100]),
            section(140, [0, 100, 0, 0, 0]),
        ];
        assert_eq!(route_of(&draft, &sections), (3, vec![100, 100, 100]));
        let alone = sections.map(|section| route_of(&draft, &[section]).0);
        assert_eq!(alone, [1, 3, 1]);
    }

    #[test]
    fn one_section_s_limits_take_all_domestic_categories() {
        one_section_limits_600_t(&b(), (1, vec![140; 2]));
    }

    /// The first section that has a field out of range, another asked category or another book, whichever it is.
    #[test]
    fn a_section_of_another_book_is_refused_with_its_place() {
        let vehicles = case_a().vehicles();
        let answer =
            |orders: &[[u8; 24]]| route_of_train(&vehicles, orders.as_flattened(), &mut [0; 64]);
        let [cross_border, domestic] = [case_a().order, b().order].map(|order| order.write());
        for (first, other) in [(cross_border, domestic), (domestic, cross_border)] {
            assert!(answer(&[first; 64]).is_multiple_of(256));
            for place in 1..64 {
                let mut orders = [first; 64];
                orders[place] = other;
                assert_eq!(answer(&orders), 4 + 256 * place as u64, "{place}");
            }
            let mut orders = [first, first, other, first];
            orders[3][4] = 201;
            assert_eq!(answer(&orders), 4 + 2 * 256);
            orders[1][5] = 2;
            assert_eq!(answer(&orders), 4 + 256);
            orders[0][7] = 2;
            assert_eq!(answer(&orders), 4);
        }
    }

    #[test]
    fn a_route_s_refusals_come_in_their_order_and_write_nothing() {
        let mut vehicles = case_a().vehicles();
        let mut orders = written(&[case_a().order; 3]);
        let mut room = [7; 3];
        let wagons = vehicles.split_off(VEHICLE);
        assert_eq!(route_of_train(&wagons, &orders, &mut room[..2]), 5);
        assert_eq!(route_of_train(&wagons, &orders, &mut room), 11);
        assert_eq!(route_of_train(&vehicles, &orders, &mut room), 14);
        orders[24] = 201;
        assert_eq!(route_of_train(&wagons, &orders, &mut []), 4 + 256);
        vehicles[23] = 1;
        assert_eq!(route_of_train(&vehicles, &orders, &mut []), 3);
        assert_eq!(route_of_account(&vehicles, &[], &orders, &mut room), 7);
        assert_eq!(room, [7; 3]);
    }

    #[test]
    fn an_account_with_speed_0_is_granted_a_route_at_0() {
        let draft = case_a();
        let mut account = Account::of(bytes(&draft.hauled).as_chunks().0).write();
        let engines = bytes(&draft.working);
        let orders = written(&worked_sections());
        let mut room = [9; 4];
        let answer = route_of_account(&engines, &account, &orders, &mut room);
        assert_eq!((answer, room), (2 << 32, [100, 90, 90, 9]));
        account[60] = 0;
        let answer = route_of_account(&engines, &account, &orders, &mut room);
        assert_eq!((answer, room), (1 << 32, [0, 0, 0, 9]));
    }
}
