//! The time that both sides take on the same inputs.

use std::fmt::Write;
use std::hint::black_box;
use std::time::Instant;

use crate::account::ACCOUNT;
use crate::book::Book;
use crate::call::{Call, Inputs, Model, Side, BUFFER};
use crate::gen::accounts::{account_of, bad_account};
use crate::gen::damage::refused_train;
use crate::gen::domestic::stand_in_all;
use crate::gen::draft::{bytes, Draft};
use crate::gen::mixture::good_train;
use crate::gen::routes::{written, LIMITS};
use crate::order::{Order, ORDER};
use crate::random::Random;
use crate::route::SECTIONS;

/// Hauled records of the trains that are measured.
pub const SIZES: [usize; 4] = [10, 40, 100, 198];

/// Distinct inputs of each set.
const DISTINCT: usize = 200;

/// Rounds in which the two take turns; the median counts.
const ROUNDS: usize = 15;

const SEED: u64 = 7_400;

/// Sections of the routes that are measured, and hauled records of their trains.
const ROUTES: [usize; 3] = [1, 8, SECTIONS];
const ROUTE_HAULED: usize = 100;

/// Calls of one kind, and how many records each reads.
pub struct Workload {
    pub name: String,
    pub records: usize,
    pub calls: Vec<Call>,
    /// In place of each route a sheet is made for each of its sections.
    apart: bool,
}

impl Workload {
    fn new(name: String, records: usize, mut make: impl FnMut() -> Call) -> Workload {
        Workload {
            name,
            records,
            calls: (0..DISTINCT).map(|_| make()).collect(),
            apart: false,
        }
    }

    /// Calls every input once, and hands back the sum of the answers.
    pub fn pass(&self, side: &impl Side) -> u64 {
        let mut buffer = [0; BUFFER];
        let mut sum = 0;
        for call in black_box(&self.calls) {
            let room = black_box(&mut buffer[..call.room]);
            sum += match self.apart {
                false => call.run(side, room),
                true => sheets(side, &call.inputs, room),
            };
        }
        black_box(sum)
    }

    fn nanoseconds(&self, side: &impl Side, passes: usize) -> f64 {
        let start = Instant::now();
        for _ in 0..passes {
            self.pass(side);
        }
        start.elapsed().as_nanos() as f64 / (passes * self.calls.len()) as f64
    }
}

/// A sheet for each section of a route, and the sum of the answers.
fn sheets(side: &impl Side, route: &Inputs, room: &mut [u8]) -> u64 {
    match route {
        Inputs::TrainRoute { vehicles, orders } => {
            let sections = orders.chunks_exact(ORDER);
            let answers = sections.map(|order| side.sheet_of_train(vehicles, order, room));
            answers.sum()
        }
        Inputs::AccountRoute {
            engines,
            hauled,
            orders,
        } => {
            let sections = orders.chunks_exact(ORDER);
            let answers = sections.map(|order| side.sheet_of_account(engines, hauled, order, room));
            answers.sum()
        }
        _ => 0,
    }
}

fn call(inputs: Inputs, room: usize) -> Call {
    Call {
        inputs,
        room,
        fill: 0,
    }
}

fn answers(call: &Call, number: u64) -> bool {
    call.outcome(&Model).0 % 256 == number
}

/// Whole trains of one engine and so many hauled, each answered with a sheet.
pub fn trains(hauled: usize) -> Workload {
    let mut random = Random::new(SEED + hauled as u64);
    let name = format!("sheet_of_train, {hauled} hauled");
    Workload::new(name, hauled + 1, || loop {
        let draft = good_train(&mut random, hauled);
        let call = train_call(&draft);
        if answers(&call, 0) {
            return call;
        }
    })
}

fn train_call(draft: &Draft) -> Call {
    let inputs = Inputs::Train {
        vehicles: draft.vehicles(),
        order: draft.order.write().to_vec(),
    };
    call(inputs, 32)
}

pub fn portions(hauled: usize) -> Workload {
    let mut random = Random::new(SEED + hauled as u64);
    let name = format!("account_of, {hauled} records");
    Workload::new(name, hauled, || {
        let portion = bytes(&good_train(&mut random, hauled).hauled);
        call(Inputs::Portion { portion }, ACCOUNT)
    })
}

/// The account of so many hauled vehicles.
fn account(random: &mut Random, hauled: usize) -> Vec<u8> {
    account_of(&good_train(random, hauled).hauled).to_vec()
}

pub fn joins() -> Workload {
    let mut random = Random::new(SEED);
    Workload::new("join".to_owned(), 1, || {
        let left = account(&mut random, 20);
        let right = account(&mut random, 30);
        call(Inputs::Accounts { left, right }, ACCOUNT)
    })
}

pub fn judged() -> Workload {
    let mut random = Random::new(SEED);
    Workload::new("sheet_of_account".to_owned(), 1, || {
        let draft = good_train(&mut random, 40);
        let inputs = Inputs::Engines {
            engines: bytes(&draft.working),
            hauled: account(&mut random, 40),
            order: draft.order.write().to_vec(),
        };
        call(inputs, 32)
    })
}

/// Trains of 40 hauled that are refused by one number.
fn refused(number: u8) -> Workload {
    let mut random = Random::new(SEED + u64::from(number));
    let name = format!("sheet_of_train, refusal {number}");
    Workload::new(name, 41, || loop {
        let draft = good_train(&mut random, 40);
        let call = refused_train(&mut random, draft, &[number]);
        if answers(&call, u64::from(number)) {
            return call;
        }
    })
}

/// Refusal 3 given at the last record of 199.
fn refused_at_the_end() -> Workload {
    let mut random = Random::new(SEED);
    let name = "sheet_of_train, 3 at the last of 199".to_owned();
    Workload::new(name, 199, || {
        let mut draft = good_train(&mut random, 198);
        draft.hauled[197].speed = random.pick(&[0, 201, 255]);
        train_call(&draft)
    })
}

fn refused_portions() -> Workload {
    let mut random = Random::new(SEED);
    let name = "account_of, 6 at the last of 40".to_owned();
    Workload::new(name, 40, || {
        let mut hauled = good_train(&mut random, 40).hauled;
        hauled[39].kind = crate::vehicle::WORKING_ENGINE;
        let portion = bytes(&hauled);
        call(Inputs::Portion { portion }, ACCOUNT)
    })
}

fn refused_joins() -> Workload {
    let mut random = Random::new(SEED);
    Workload::new("join, refusal 7".to_owned(), 1, || {
        let left = bad_account(&mut random);
        let right = account(&mut random, 30);
        call(Inputs::Accounts { left, right }, ACCOUNT)
    })
}

fn too_long_joins() -> Workload {
    let mut random = Random::new(SEED);
    Workload::new("join, refusal 2".to_owned(), 1, || {
        let left = account(&mut random, 101);
        let right = account(&mut random, 100);
        call(Inputs::Accounts { left, right }, ACCOUNT)
    })
}

/// Good trains, and sections of other limits for each, such that a category is granted from end to end.
fn journey(random: &mut Random, sections: usize) -> (Draft, Vec<u8>) {
    loop {
        let draft = good_train(random, ROUTE_HAULED);
        let orders: Vec<Order> = (0..sections)
            .map(|_| Order {
                limits: [0; 5].map(|_| random.pick(&LIMITS)),
                ..draft.order
            })
            .collect();
        let orders = written(&orders);
        let route = train_route(&draft, orders.clone());
        if route.outcome(&Model).0 >> 32 != 0 {
            return (draft, orders);
        }
    }
}

fn train_route(draft: &Draft, orders: Vec<u8>) -> Call {
    let vehicles = draft.vehicles();
    call(Inputs::TrainRoute { vehicles, orders }, SECTIONS)
}

fn account_route(draft: &Draft, orders: Vec<u8>) -> Call {
    let inputs = Inputs::AccountRoute {
        engines: bytes(&draft.working),
        hauled: account_of(&draft.hauled).to_vec(),
        orders,
    };
    call(inputs, SECTIONS)
}

/// Routes of one engine and what it hauls, or of the engine and the account.
fn routes(sections: usize, make: fn(&Draft, Vec<u8>) -> Call) -> Workload {
    let mut random = Random::new(SEED + sections as u64);
    let call = || {
        let (draft, orders) = journey(&mut random, sections);
        make(&draft, orders)
    };
    Workload::new(String::new(), ROUTE_HAULED + 1, call)
}

/// The route, and the sheets of the same sections.
fn route_and_sheets(of: &str, sections: usize, make: fn(&Draft, Vec<u8>) -> Call) -> [Workload; 2] {
    let mut route = routes(sections, make);
    let plural = if sections == 1 { "" } else { "s" };
    route.name = format!("route of {sections} section{plural}, {of} of {ROUTE_HAULED} hauled");
    let mut sheets = routes(sections, make);
    sheets.name = format!("{sections} sheet{plural} of the same {of}, one a section");
    sheets.apart = true;
    [route, sheets]
}

/// Trains that stand in most categories of the domestic book, so that all its rules are asked.
fn standing(hauled: usize) -> Vec<Draft> {
    let mut random = Random::new(SEED + hauled as u64);
    let mut draft = || {
        let mut draft = good_train(&mut random, hauled);
        stand_in_all(&mut random, &mut draft);
        for vehicle in draft.working.iter_mut().chain(&mut draft.hauled) {
            (vehicle.speed, vehicle.d_load) = (140, 0);
        }
        draft
    };
    (0..DISTINCT).map(|_| draft()).collect()
}

fn standing_trains(hauled: usize) -> Workload {
    let mut drafts = standing(hauled).into_iter();
    let name = format!("sheet_of_train, {hauled} standing");
    Workload::new(name, hauled + 1, || {
        train_call(&drafts.next().expect("there are as many as calls"))
    })
}

fn standing_accounts(hauled: usize) -> Workload {
    let mut drafts = standing(hauled).into_iter();
    let name = format!("sheet_of_account, {hauled} standing");
    Workload::new(name, 1, || {
        let draft = drafts.next().expect("there are as many as calls");
        call(draft.of_account(account_of(&draft.hauled).to_vec()), 32)
    })
}

/// The same calls with domestic orders: the line, what is asked and the limits stay.
fn made_domestic(mut workload: Workload) -> Workload {
    workload.name += ", domestic";
    for call in &mut workload.calls {
        let (Inputs::Train { order, .. } | Inputs::Engines { order, .. }) = &mut call.inputs else {
            continue;
        };
        let cross_border = Order::read(order).expect("what is measured has a good order");
        let domestic = Order {
            book: Book::Domestic,
            me140: cross_border.limits[0],
            percentage: 0,
            ..cross_border
        };
        *order = domestic.write().to_vec();
        call.room = Book::Domestic.sheet();
    }
    workload
}

/// A sheet under either book, of the same train or of the same engine and account.
fn measured_books() -> Vec<[Workload; 2]> {
    let of_trains = SIZES.map(|hauled| [trains(hauled), made_domestic(trains(hauled))]);
    let others = [
        [judged(), made_domestic(judged())],
        [standing_trains(40), made_domestic(standing_trains(40))],
        [standing_accounts(40), made_domestic(standing_accounts(40))],
    ];
    of_trains.into_iter().chain(others).collect()
}

fn measured_routes() -> Vec<[Workload; 2]> {
    let of_train = ROUTES.map(|sections| route_and_sheets("train", sections, train_route));
    let of_account = ROUTES.map(|sections| route_and_sheets("account", sections, account_route));
    of_train.into_iter().chain(of_account).collect()
}

/// The workload that `instructions` names.
pub fn workload(what: &str, size: usize) -> Option<Workload> {
    match what {
        "train" => Some(trains(size)),
        "account" => Some(portions(size)),
        "join" => Some(joins()),
        "judge" => Some(judged()),
        "domestic" => Some(made_domestic(trains(size))),
        "judge-domestic" => Some(made_domestic(judged())),
        "standing" => Some(standing_trains(size)),
        "standing-domestic" => Some(made_domestic(standing_trains(size))),
        "standing-account" => Some(standing_accounts(size)),
        "standing-account-domestic" => Some(made_domestic(standing_accounts(size))),
        "refusal" => Some(refused(size as u8)),
        "route" | "sheets" => {
            let [route, sheets] = route_and_sheets("train", size, train_route);
            Some(if what == "route" { route } else { sheets })
        }
        _ => None,
    }
}

/// The rows of the table.
pub fn workloads() -> Vec<Workload> {
    let mut workloads: Vec<Workload> = SIZES.into_iter().map(trains).collect();
    workloads.extend(SIZES.into_iter().map(portions));
    workloads.extend([joins(), judged()]);
    workloads.extend([1, 2, 3, 4, 5, 11, 12, 13, 14].map(refused));
    workloads.push(refused_at_the_end());
    workloads.extend([refused_portions(), refused_joins(), too_long_joins()]);
    workloads
}

/// Every row of the table, as text.
pub fn table(library: &impl Side) -> String {
    let mut text = format!(
        "{:<46} {:>19} {:>19} {:>8}\n{:<46} {:>9} {:>9} {:>9} {:>9} {:>8}\n",
        "", "library, ns", "model, ns", "model/", "", "call", "record", "call", "record", "library"
    );
    for workload in &workloads() {
        row(&mut text, workload, library);
    }
    for [route, sheets] in &measured_routes() {
        let name = "  the route's share of the sheets";
        shares(&mut text, name, [route, sheets], library);
    }
    for [cross_border, domestic] in &measured_books() {
        let name = "  the domestic sheet against the other";
        shares(&mut text, name, [domestic, cross_border], library);
    }
    text
}

/// Writes the rows of two workloads, and the first one's share of the second.
fn shares(text: &mut String, name: &str, pair: [&Workload; 2], library: &impl Side) {
    let [part, whole] = pair.map(|workload| row(text, workload, library));
    let (ours, theirs) = (part.0 / whole.0, part.1 / whole.1);
    let _ = writeln!(text, "{name:<46} {ours:>9.3} {theirs:>19.3}");
}

/// Writes one row, and hands back both times.
fn row(text: &mut String, workload: &Workload, library: &impl Side) -> (f64, f64) {
    let (ours, theirs) = medians(workload, library);
    let records = workload.records as f64;
    let _ = writeln!(
        text,
        "{:<46} {ours:>9.1} {:>9.2} {theirs:>9.1} {:>9.2} {:>8.2}",
        workload.name,
        ours / records,
        theirs / records,
        theirs / ours,
    );
    (ours, theirs)
}

/// Nanoseconds per call of the library and of the model.
fn medians(workload: &Workload, library: &impl Side) -> (f64, f64) {
    // Both are warmed up, and both make as many passes as the slower makes in about four milliseconds.
    let slower = workload
        .nanoseconds(library, 3)
        .max(workload.nanoseconds(&Model, 3));
    let passes = (4e6 / (slower * workload.calls.len() as f64)).ceil() as usize;
    let mut ours = [0.0; ROUNDS];
    let mut theirs = [0.0; ROUNDS];
    for (ours, theirs) in ours.iter_mut().zip(&mut theirs) {
        *ours = workload.nanoseconds(library, passes);
        *theirs = workload.nanoseconds(&Model, passes);
    }
    (median(ours), median(theirs))
}

fn median(mut times: [f64; ROUNDS]) -> f64 {
    times.sort_by(f64::total_cmp);
    times[ROUNDS / 2]
}
