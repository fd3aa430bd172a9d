//! Which refusals apply to a call, whatever their order: two at once put the order to the test.

use crate::account::Account;
use crate::call::{Call, Function, Inputs};
use crate::order::{Order, ORDER};
use crate::route::{is_bad, SECTIONS};
use crate::vehicle::{first_bad, is_working, Record, VEHICLE};

/// Stands for number 4 where a section of a route is bad; 4 itself is for the orders as a whole.
pub const SECTION: u8 = 8;

/// The refusals of a function in the order in which they are given.
pub fn refusals(function: Function) -> &'static [u8] {
    match function {
        Function::SheetOfTrain => &[1, 2, 3, 4, 5, 11, 12, 13, 14],
        Function::AccountOf => &[1, 2, 3, 6, 5],
        Function::Join => &[7, 2, 5],
        Function::SheetOfAccount => &[1, 7, 2, 3, 4, 5, 11, 13, 14],
        Function::HoldsTheSpeed => &[],
        Function::RouteOfTrain => &[1, 2, 3, 4, SECTION, 5, 11, 12, 13, 14],
        Function::RouteOfAccount => &[1, 7, 2, 3, 4, SECTION, 5, 11, 13, 14],
    }
}

/// A refusal as it is shown.
pub fn shown(refusal: u8) -> String {
    match refusal {
        SECTION => "4 of a section".to_owned(),
        number => number.to_string(),
    }
}

/// Pairs that cannot apply together, and why.
pub fn excluded(function: Function) -> &'static [(u8, u8, &'static str)] {
    match function {
        Function::SheetOfTrain | Function::RouteOfTrain => &[
            (
                11,
                13,
                "without a leading engine there is no working engine",
            ),
            (11, 14, "a first record that is no working engine is hauled"),
            (
                12,
                14,
                "a record of another kind in front of an engine is hauled",
            ),
        ],
        Function::Join => &[(7, 2, "what is no account has nothing to join")],
        Function::SheetOfAccount | Function::RouteOfAccount => {
            &[(7, 14, "what is no account has no count")]
        }
        _ => &[],
    }
}

/// Every refusal that would be given if no other applied.
pub fn applying(call: &Call) -> Vec<u8> {
    let mut all = match &call.inputs {
        Inputs::Train { vehicles, order } => [train(vehicles), order_refusals(order)].concat(),
        Inputs::Portion { portion } => portion_refusals(portion),
        Inputs::Accounts { left, right } => accounts(left, right),
        Inputs::Engines {
            engines,
            hauled,
            order,
        } => [with_account(engines, hauled), order_refusals(order)].concat(),
        Inputs::Portions { .. } => return vec![],
        Inputs::TrainRoute { vehicles, orders } => {
            [train(vehicles), section_refusals(orders)].concat()
        }
        Inputs::AccountRoute {
            engines,
            hauled,
            orders,
        } => [with_account(engines, hauled), section_refusals(orders)].concat(),
    };
    if call.room < call.writes() {
        all.push(5);
    }
    all
}

fn chosen(tests: &[(u8, bool)]) -> Vec<u8> {
    let held = tests.iter().filter(|(_, holds)| *holds);
    held.map(|(number, _)| *number).collect()
}

fn whole(bytes: &[u8]) -> &[Record] {
    bytes.as_chunks().0
}

fn odd(bytes: &[u8]) -> bool {
    !bytes.len().is_multiple_of(VEHICLE)
}

fn order_refusals(order: &[u8]) -> Vec<u8> {
    chosen(&[(4, Order::read(order).is_none())])
}

fn section_refusals(orders: &[u8]) -> Vec<u8> {
    let (records, rest) = orders.as_chunks::<ORDER>();
    let counted = (1..=SECTIONS).contains(&records.len());
    chosen(&[
        (4, !rest.is_empty() || !counted),
        (
            SECTION,
            (0..records.len()).any(|place| is_bad(records, place)),
        ),
    ])
}

fn train(vehicles: &[u8]) -> Vec<u8> {
    let records = whole(vehicles);
    let leading = records.iter().take_while(|one| is_working(one)).count();
    chosen(&[
        (1, vehicles.is_empty() || odd(vehicles)),
        (2, records.len() > 200),
        (3, first_bad(records).is_some()),
        (11, !records.is_empty() && leading == 0),
        (12, records[leading..].iter().any(is_working)),
        (13, leading > 2),
        (14, leading == records.len()),
    ])
}

fn portion_refusals(portion: &[u8]) -> Vec<u8> {
    let records = whole(portion);
    chosen(&[
        (1, odd(portion)),
        (2, records.len() > 200),
        (3, first_bad(records).is_some()),
        (6, records.iter().any(is_working)),
    ])
}

fn accounts(left: &[u8], right: &[u8]) -> Vec<u8> {
    match (Account::read(left), Account::read(right)) {
        (Some(left), Some(right)) => chosen(&[(2, left.join(&right).is_err())]),
        _ => vec![7],
    }
}

fn with_account(engines: &[u8], hauled: &[u8]) -> Vec<u8> {
    let records = whole(engines);
    let account = Account::read(hauled);
    let count = account.map_or(0, |account| account.count as usize);
    chosen(&[
        (1, engines.is_empty() || odd(engines)),
        (7, account.is_none()),
        (2, records.len() + count > 200),
        (3, first_bad(records).is_some()),
        (11, !records.iter().all(is_working)),
        (13, records.len() > 2),
        (14, account.is_some() && count == 0),
    ])
}
