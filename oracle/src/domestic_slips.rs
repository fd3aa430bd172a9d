//! Slips in reading the domestic book, planted in a library one by one: each must show.

use std::sync::atomic::AtomicU64;

use crate::account::{Account, ACCOUNT};
use crate::answer::{parts, route_answer};
use crate::book::{Book, RuleBook, BOOK, DOMESTIC};
use crate::call::{Call, Function, Inputs, Model, Side, BUFFER};
use crate::category::{Category, DOMESTIC_CATEGORIES};
use crate::coverage::own_rules;
use crate::diff::{Report, Run};
use crate::domestic_rules::{category_rule, category_rules};
use crate::facts::Facts;
use crate::order::{Order, ORDER};
use crate::route::{granted_under, sections};
use crate::sheet::sheet_under;
use crate::vehicle::{is_working, Vehicle, HAULED_ENGINE, ISOLATED, SET_TO_M, SET_TO_V, WAGON};

/// One wrong reading.
#[derive(Clone, Copy)]
enum Slip {
    /// Of the facts, found over the call's inputs.
    Facts(fn(&Inputs, &mut Facts)),
    Order(fn(&mut Order)),
    Book(RuleBook),
    /// On a sheet that is done.
    Sheet(fn(&mut [u8])),
    /// The second of two rules asked before the first.
    Exchanged(u8, u8),
    /// A route asks for the first section's book alone.
    FirstBookAlone,
    /// 32 bytes are taken for a sheet.
    ShortRoom,
    /// Of a portion's account, found over its records.
    Portion(fn(&[Vehicle], &mut Account)),
    /// Of a joined account, from the left one.
    Joined(fn(&Account, &mut Account)),
}

/// A slip in one function of the library.
struct Planted(Slip, Function);

impl Planted {
    /// What a function gives, with the slip if it is this one's.
    fn given(&self, inputs: Inputs, room: &mut [u8]) -> u64 {
        let mut call = Call {
            inputs,
            room: room.len(),
            fill: 0,
        };
        if call.function() != self.1 {
            return call.run(&Model, room);
        }
        if let (Slip::FirstBookAlone, true) = (self.0, call.room < BUFFER) {
            name_the_first(&mut call.inputs);
        }
        let answer = call.run(&Model, room);
        let (number, _, _) = parts(answer);
        match self.0 {
            Slip::ShortRoom if number == 5 && room.len() == 32 => {
                let mut longer = [0; 33];
                let answer = call.run(&Model, &mut longer);
                room.copy_from_slice(&longer[..32]);
                answer
            }
            _ if number == 0 => self.misread(&call.inputs, room).unwrap_or(answer),
            _ => answer,
        }
    }

    /// A done call as one with this slip reads it.
    fn misread(&self, inputs: &Inputs, room: &mut [u8]) -> Option<u64> {
        match (self.0, inputs) {
            (Slip::Portion(slip), Inputs::Portion { portion }) => {
                let records = portion.as_chunks().0.iter();
                let vehicles: Vec<Vehicle> = records.map(Vehicle::read).collect();
                rewrite(room, |account| slip(&vehicles, account))
            }
            (Slip::Joined(slip), Inputs::Accounts { left, .. }) => {
                let left = Account::read(left)?;
                rewrite(room, |account| slip(&left, account))
            }
            (_, Inputs::Portion { .. } | Inputs::Accounts { .. } | Inputs::Portions { .. }) => None,
            _ if Book::of(inputs.orders()) == Book::CrossBorder => None,
            _ => self.judge(inputs, room),
        }
    }

    /// A done sheet or route of domestic orders.
    fn judge(&self, inputs: &Inputs, room: &mut [u8]) -> Option<u64> {
        let mut facts = inputs.facts()?;
        let mut orders = sections(inputs.orders()).ok()?;
        let mut book = DOMESTIC;
        match self.0 {
            Slip::Facts(slip) => slip(inputs, &mut facts),
            Slip::Order(slip) => orders.iter_mut().for_each(slip),
            Slip::Book(slipped) => book = slipped,
            _ => {}
        }
        if let Inputs::TrainRoute { .. } | Inputs::AccountRoute { .. } = inputs {
            let route = granted_under(&book, &facts, &orders);
            room[..orders.len()].copy_from_slice(&route.speeds);
            return Some(route_answer(Ok(route.category)));
        }
        let mut sheet = sheet_under(&book, &facts, &orders[0]);
        match self.0 {
            Slip::Sheet(slip) => slip(&mut sheet),
            Slip::Exchanged(first, second) => {
                for (byte, category) in sheet[4..10].iter_mut().zip(&DOMESTIC_CATEGORIES) {
                    let rules = category_rules(category, &facts, &orders[0]);
                    if *byte == first && rules.contains(&(second, true)) {
                        *byte = second;
                    }
                }
            }
            _ => {}
        }
        room[..sheet.len()].copy_from_slice(&sheet);
        Some(0)
    }
}

fn rewrite(room: &mut [u8], slip: impl FnOnce(&mut Account)) -> Option<u64> {
    let mut account = Account::read(&room[..ACCOUNT])?;
    slip(&mut account);
    room[..ACCOUNT].copy_from_slice(&account.write());
    Some(0)
}

/// Every good section has the first one's book, whatever it names.
fn name_the_first(inputs: &mut Inputs) {
    let (Inputs::TrainRoute { orders, .. } | Inputs::AccountRoute { orders, .. }) = inputs else {
        return;
    };
    let Some(&first) = orders.get(BOOK) else {
        return;
    };
    for record in orders.as_chunks_mut::<ORDER>().0 {
        if record[BOOK] != first && Order::read(record).is_some() {
            (record[6], record[BOOK], record[16]) = (0, first, 0);
        }
    }
}

impl Side for Planted {
    fn sheet_of_train(&self, vehicles: &[u8], order: &[u8], room: &mut [u8]) -> u64 {
        let (vehicles, order) = (vehicles.to_vec(), order.to_vec());
        self.given(Inputs::Train { vehicles, order }, room)
    }

    fn account_of(&self, portion: &[u8], room: &mut [u8]) -> u64 {
        let portion = portion.to_vec();
        self.given(Inputs::Portion { portion }, room)
    }

    fn join(&self, left: &[u8], right: &[u8], room: &mut [u8]) -> u64 {
        let (left, right) = (left.to_vec(), right.to_vec());
        self.given(Inputs::Accounts { left, right }, room)
    }

    fn sheet_of_account(
        &self,
        engines: &[u8],
        hauled: &[u8],
        order: &[u8],
        room: &mut [u8],
    ) -> u64 {
        let inputs = Inputs::Engines {
            engines: engines.to_vec(),
            hauled: hauled.to_vec(),
            order: order.to_vec(),
        };
        self.given(inputs, room)
    }

    fn holds_the_speed(&self, front: &[u8], back: &[u8], room: &mut [u8]) -> usize {
        Model.holds_the_speed(front, back, room)
    }

    fn route_of_train(&self, vehicles: &[u8], orders: &[u8], room: &mut [u8]) -> u64 {
        let (vehicles, orders) = (vehicles.to_vec(), orders.to_vec());
        self.given(Inputs::TrainRoute { vehicles, orders }, room)
    }

    fn route_of_account(
        &self,
        engines: &[u8],
        hauled: &[u8],
        orders: &[u8],
        room: &mut [u8],
    ) -> u64 {
        let inputs = Inputs::AccountRoute {
            engines: engines.to_vec(),
            hauled: hauled.to_vec(),
            orders: orders.to_vec(),
        };
        self.given(inputs, room)
    }
}

const SHEETS: [Function; 2] = [Function::SheetOfTrain, Function::SheetOfAccount];
const ROUTES: [Function; 2] = [Function::RouteOfTrain, Function::RouteOfAccount];

/// The most cases that a slip is sought in.
const MOST: u64 = 40_000;

/// Whether the slip shows among the domestic cases in which its function is called.
fn shows(slip: Slip, function: Function) -> bool {
    let run = Run {
        library: &Planted(slip, function),
        seed: 6,
        done: &AtomicU64::new(0),
    };
    let mut report = Report::default();
    (0..MOST).step_by(250).any(|start| {
        let some = start..start + 250;
        match function {
            Function::SheetOfTrain => run.trains(&mut report, Book::Domestic, some),
            Function::RouteOfTrain | Function::RouteOfAccount => {
                run.routes(&mut report, Book::Domestic, some);
            }
            _ => run.joins(&mut report, Book::Domestic, some),
        }
        report.differences > 0
    })
}

fn assert_shown(name: &str, slip: Slip, functions: &[Function]) {
    for &function in functions {
        assert!(shows(slip, function), "{name}, {}", function.name());
    }
}

fn both() -> Vec<Function> {
    [SHEETS, ROUTES].concat()
}

/// The hauled vehicles of a train, or the account beside engines.
enum Hauled {
    Vehicles(Vec<Vehicle>),
    Account(Account),
}

fn hauled(inputs: &Inputs) -> Hauled {
    match inputs {
        Inputs::Engines { hauled, .. } | Inputs::AccountRoute { hauled, .. } => {
            Hauled::Account(Account::read(hauled).expect("a done call has an account"))
        }
        Inputs::Train { vehicles, .. } | Inputs::TrainRoute { vehicles, .. } => {
            let records = vehicles.as_chunks().0.iter();
            let hauled = records.skip_while(|record| is_working(record));
            Hauled::Vehicles(hauled.map(Vehicle::read).collect())
        }
        _ => unreachable!("no sheet and no route"),
    }
}

fn in_m(vehicles: &[Vehicle], kind: u8) -> impl Iterator<Item = &Vehicle> {
    let in_m = vehicles.iter().filter(|one| one.setting == SET_TO_M);
    in_m.filter(move |one| one.kind == kind)
}

/// The M masses of wagons in M, as far as figures give them.
fn three_quarters_of_m(inputs: &Inputs, facts: &mut Facts) {
    facts.wagons_v = match hauled(inputs) {
        Hauled::Vehicles(vehicles) => in_m(&vehicles, WAGON)
            .map(|one| u32::from(one.braked_m))
            .sum(),
        Hauled::Account(account) => account.braked_m.saturating_sub(account.engines_m),
    };
}

fn r_taken_as_long(inputs: &Inputs, facts: &mut Facts) {
    let v_first = match hauled(inputs) {
        Hauled::Vehicles(vehicles) => vehicles.iter().take(5).any(|one| one.setting == SET_TO_V),
        Hauled::Account(account) => account.first.contains(&SET_TO_V),
    };
    facts.long = !facts.worker_not_in_m && !v_first;
}

fn isolated_taken_as_m(inputs: &Inputs, facts: &mut Facts) {
    if let Hauled::Vehicles(vehicles) = hauled(inputs) {
        facts.hauled_engine_not_in_m = not_in_m_or_isolated(&vehicles);
    }
}

fn not_in_m_or_isolated(vehicles: &[Vehicle]) -> bool {
    let mut engines = vehicles.iter().filter(|one| one.kind == HAULED_ENGINE);
    engines.any(|one| ![SET_TO_M, ISOLATED].contains(&one.setting))
}

fn engines_counted_as_wagons(inputs: &Inputs, facts: &mut Facts) {
    facts.wagons = match hauled(inputs) {
        Hauled::Vehicles(vehicles) => vehicles.len() as i64,
        Hauled::Account(account) => i64::from(account.count),
    };
}

#[test]
fn slips_in_facts_are_found() {
    let all = both();
    assert_shown(
        "three quarters of M",
        Slip::Facts(three_quarters_of_m),
        &all,
    );
    assert_shown("R taken as long", Slip::Facts(r_taken_as_long), &all);
    assert_shown(
        "67 counts engines",
        Slip::Facts(engines_counted_as_wagons),
        &all,
    );
    let by_mass = Slip::Facts(|_, facts| facts.long = facts.hauled_mass > 12_000);
    assert_shown("long by hauled mass", by_mass, &all);
    let of_trains = [Function::SheetOfTrain, Function::RouteOfTrain];
    let isolated = Slip::Facts(isolated_taken_as_m);
    assert_shown("an isolated engine taken as in M", isolated, &of_trains);
    let working = Slip::Facts(|_, facts| facts.slowest_hauled = facts.slowest);
    assert_shown("66 asks working engines", working, &SHEETS);
    let hauled = Slip::Facts(|_, facts| facts.train_length = facts.hauled_length);
    assert_shown("the hauled length for the train's", hauled, &SHEETS);
}

/// The domestic book with its categories changed, kept for as long as the tests run.
fn with_categories(change: impl Fn(&mut Category)) -> Slip {
    let mut categories = DOMESTIC_CATEGORIES;
    categories.iter_mut().for_each(change);
    Slip::Book(RuleBook {
        categories: Vec::leak(categories.to_vec()),
        ..DOMESTIC
    })
}

fn with_rules(own: fn(&Category, &Facts, &Order) -> u8) -> Slip {
    Slip::Book(RuleBook { own, ..DOMESTIC })
}

#[test]
fn slips_in_braked_mass_are_found() {
    let braked = |is: fn(&Category) -> bool, braked: fn(&Facts) -> i64| {
        with_categories(|category| {
            if is(category) {
                category.braked = braked;
            }
        })
    };
    let quarters = braked(Category::is_1_to_3, |facts| {
        let in_m = i64::from(facts.engines_m) + i64::from(facts.wagons_v);
        100 * (4 * i64::from(facts.braked_v) + 3 * in_m)
    });
    assert_shown("engines in M at three quarters", quarters, &both());
    let whole = braked(
        |category| !category.is_1_to_3(),
        |facts| 400 * i64::from(facts.braked_v + facts.engines_m + facts.wagons_v),
    );
    assert_shown("wagons count V whole in MA", whole, &both());
    let deducted = braked(Category::is_1_to_3, |facts| {
        let whole = i64::from(facts.braked_v) + i64::from(facts.engines_m);
        (4 * whole + 3 * i64::from(facts.wagons_v)) * (100 - facts.k)
    });
    assert_shown("k deducted", deducted, &both());
    let from_byte_6 = with_categories(|category| category.percentages = &[(0, 0)]);
    assert_shown("p from byte 6", from_byte_6, &both());
}

/// Each length at which p changes moved by one, up and down; the last of a table is held above its end.
#[test]
fn slips_in_length_classes_are_found() {
    let mut planted = 0;
    for category in DOMESTIC_CATEGORIES {
        for class in 0..category.percentages.len() - 1 {
            for by in [-1, 1] {
                let mut moved = category.percentages.to_vec();
                moved[class].0 = moved[class].0.saturating_add_signed(by);
                let moved: &'static [(u32, u8)] = Vec::leak(moved);
                let slip = with_categories(|one| {
                    if one.number == category.number {
                        one.percentages = moved;
                    }
                });
                let name = format!("category {} class {class} by {by}", category.number);
                assert_shown(&name, slip, &SHEETS);
                planted += 1;
            }
        }
    }
    assert_eq!(planted, 2 * (2 + 3 + 3 + 2 + 2 + 2));
}

#[test]
fn slips_in_rules_are_found() {
    let at_8_000 = with_rules(|category, facts, order| {
        let rule = category_rule(category, facts, order);
        let broken = category.number == 1 && facts.worker_not_in_m && facts.hauled_mass > 8_000;
        match rule {
            0 | 63.. if broken => 62,
            _ => rule,
        }
    });
    assert_shown("8,000 for ME140 in 62", at_8_000, &both());
    let d_load = with_rules(
        |category, facts, order| match category_rule(category, facts, order) {
            0 | 65.. if category.number == 2 && facts.d_loads > 0 => 64,
            rule => rule,
        },
    );
    assert_shown("a D load refused in ME120", d_load, &both());
    let exchanged = Slip::Order(|order| {
        (order.coupling, order.admissible) = (order.admissible, order.coupling);
    });
    assert_shown("LRA and admissible mass exchanged", exchanged, &SHEETS);
    let by_mass = Slip::Book(RuleBook {
        marks: |facts| facts.hauled_mass > 12_000,
        ..DOMESTIC
    });
    assert_shown("the mark by hauled mass", by_mass, &SHEETS);
}

/// Every two neighbours of ME140's list and of an MA list, the second asked before the first.
#[test]
fn rules_in_the_wrong_order_are_found() {
    for category in [1, 4] {
        for pair in own_rules(Book::Domestic, category).windows(2) {
            let slip = Slip::Exchanged(pair[0], pair[1]);
            assert_shown(&format!("{pair:?}"), slip, &SHEETS);
        }
    }
}

#[test]
fn slips_on_sheets_rooms_and_routes_are_found() {
    let byte_3 = Slip::Sheet(|sheet| sheet[3] = sheet[4]);
    assert_shown("byte 3 not 0", byte_3, &SHEETS);
    let quicker = Slip::Sheet(|sheet| sheet[9] = sheet[8]);
    assert_shown("MA80 judged as MA90", quicker, &SHEETS);
    let toward_zero = Slip::Sheet(|sheet| {
        if sheet[11..14] == [255; 3] {
            sheet[11..14].fill(0);
        }
    });
    assert_shown("the margin toward zero", toward_zero, &SHEETS);
    assert_shown("32 bytes for a sheet", Slip::ShortRoom, &SHEETS);
    assert_shown("the first section's book", Slip::FirstBookAlone, &ROUTES);
}

#[test]
fn slips_in_accounts_are_found() {
    let portion =
        |name: &str, slip| assert_shown(name, Slip::Portion(slip), &[Function::AccountOf]);
    portion("three quarters of M", |vehicles, account| {
        account.wagons_v = in_m(vehicles, WAGON)
            .map(|one| u32::from(one.braked_m))
            .sum();
    });
    portion("V masses of all in M", |vehicles, account| {
        let engines = in_m(vehicles, HAULED_ENGINE);
        account.wagons_v += engines.map(|one| u32::from(one.braked_v)).sum::<u32>();
    });
    portion("V masses of engines", |vehicles, account| {
        let engines = in_m(vehicles, HAULED_ENGINE);
        account.engines_m = engines.map(|one| u32::from(one.braked_v)).sum();
    });
    portion("an isolated engine taken as in M", |vehicles, account| {
        account.engine_not_in_m = not_in_m_or_isolated(vehicles);
    });
    let join = |name: &str, slip| assert_shown(name, Slip::Joined(slip), &[Function::Join]);
    join("M masses of the left", |left, joined| {
        joined.engines_m = left.engines_m
    });
    join("V masses of the left", |left, joined| {
        joined.wagons_v = left.wagons_v
    });
    join("the left's mark", |left, joined| {
        joined.engine_not_in_m = left.engine_not_in_m;
    });
}

#[test]
fn without_a_slip_nothing_shows() {
    for function in both() {
        let none = Slip::Sheet(|_| {});
        let run = Run {
            library: &Planted(none, function),
            seed: 6,
            done: &AtomicU64::new(0),
        };
        let mut report = Report::default();
        run.trains(&mut report, Book::Domestic, 0..2_000);
        run.joins(&mut report, Book::Domestic, 0..2_000);
        run.routes(&mut report, Book::Domestic, 0..2_000);
        assert_eq!(report.differences, 0, "{}", function.name());
    }
}
