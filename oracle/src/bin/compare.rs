//! The product's static library against the model: differences, ranges, time and instructions.

use std::io::{self, Write};
use std::process::ExitCode;
use std::sync::atomic::{AtomicU64, Ordering};
use std::thread;
use std::time::Duration;

use oracle::call::{Model, Side};
use oracle::coverage::Scope;
use oracle::diff::{Report, Run, Sizes, KINDS};
use oracle::{ranges, speed};

const USAGE: &str = "usage: compare diff SEED TRAINS JOINS ROUTES NUMBERS DOMESTIC_TRAINS DOMESTIC_JOINS DOMESTIC_ROUTES
       compare soak N [SEED [domestic]]
       compare ranges FILE
       compare speed
       compare instructions library|model WHAT SIZE REPEAT
       compare frames WHAT SIZE COUNT
       WHAT: train|domestic|account|join|judge|judge-domestic|standing|standing-domestic|standing-account|standing-account-domestic|\
refusal|route|sheets";

/// The functions of the header, as they are declared there.
mod c {
    #[link(name = "exports", kind = "static")]
    extern "C" {
        pub fn prskavon_sheet_of_train(
            vehicles: *const u8,
            vehicles_len: usize,
            order: *const u8,
            order_len: usize,
            sheet: *mut u8,
            sheet_len: usize,
        ) -> u64;
        pub fn prskavon_account_of(
            portion: *const u8,
            portion_len: usize,
            account: *mut u8,
            account_len: usize,
        ) -> u64;
        pub fn prskavon_join(
            left: *const u8,
            left_len: usize,
            right: *const u8,
            right_len: usize,
            account: *mut u8,
            account_len: usize,
        ) -> u64;
        pub fn prskavon_sheet_of_account(
            engines: *const u8,
            engines_len: usize,
            hauled: *const u8,
            hauled_len: usize,
            order: *const u8,
            order_len: usize,
            sheet: *mut u8,
            sheet_len: usize,
        ) -> u64;
        pub fn prskavon_holds_the_speed(
            front: *const u8,
            front_len: usize,
            back: *const u8,
            back_len: usize,
            vehicle: *mut u8,
            vehicle_len: usize,
        ) -> usize;
        pub fn prskavon_route_of_train(
            vehicles: *const u8,
            vehicles_len: usize,
            orders: *const u8,
            orders_len: usize,
            speeds: *mut u8,
            speeds_len: usize,
        ) -> u64;
        pub fn prskavon_route_of_account(
            engines: *const u8,
            engines_len: usize,
            hauled: *const u8,
            hauled_len: usize,
            orders: *const u8,
            orders_len: usize,
            speeds: *mut u8,
            speeds_len: usize,
        ) -> u64;
    }
}

/// The product. A slice gives a pointer that is never null and a length that holds, as the header asks.
struct Library;

impl Side for Library {
    fn sheet_of_train(&self, vehicles: &[u8], order: &[u8], room: &mut [u8]) -> u64 {
        unsafe {
            c::prskavon_sheet_of_train(
                vehicles.as_ptr(),
                vehicles.len(),
                order.as_ptr(),
                order.len(),
                room.as_mut_ptr(),
                room.len(),
            )
        }
    }

    fn account_of(&self, portion: &[u8], room: &mut [u8]) -> u64 {
        unsafe {
            c::prskavon_account_of(
                portion.as_ptr(),
                portion.len(),
                room.as_mut_ptr(),
                room.len(),
            )
        }
    }

    fn join(&self, left: &[u8], right: &[u8], room: &mut [u8]) -> u64 {
        unsafe {
            c::prskavon_join(
                left.as_ptr(),
                left.len(),
                right.as_ptr(),
                right.len(),
                room.as_mut_ptr(),
                room.len(),
            )
        }
    }

    fn sheet_of_account(
        &self,
        engines: &[u8],
        hauled: &[u8],
        order: &[u8],
        room: &mut [u8],
    ) -> u64 {
        unsafe {
            c::prskavon_sheet_of_account(
                engines.as_ptr(),
                engines.len(),
                hauled.as_ptr(),
                hauled.len(),
                order.as_ptr(),
                order.len(),
                room.as_mut_ptr(),
                room.len(),
            )
        }
    }

    fn holds_the_speed(&self, front: &[u8], back: &[u8], room: &mut [u8]) -> usize {
        unsafe {
            c::prskavon_holds_the_speed(
                front.as_ptr(),
                front.len(),
                back.as_ptr(),
                back.len(),
                room.as_mut_ptr(),
                room.len(),
            )
        }
    }

    fn route_of_train(&self, vehicles: &[u8], orders: &[u8], room: &mut [u8]) -> u64 {
        unsafe {
            c::prskavon_route_of_train(
                vehicles.as_ptr(),
                vehicles.len(),
                orders.as_ptr(),
                orders.len(),
                room.as_mut_ptr(),
                room.len(),
            )
        }
    }

    fn route_of_account(
        &self,
        engines: &[u8],
        hauled: &[u8],
        orders: &[u8],
        room: &mut [u8],
    ) -> u64 {
        unsafe {
            c::prskavon_route_of_account(
                engines.as_ptr(),
                engines.len(),
                hauled.as_ptr(),
                hauled.len(),
                orders.as_ptr(),
                orders.len(),
                room.as_mut_ptr(),
                room.len(),
            )
        }
    }
}

fn main() -> ExitCode {
    let arguments: Vec<String> = std::env::args().skip(1).collect();
    let arguments: Vec<&str> = arguments.iter().map(String::as_str).collect();
    let number = |text: &str| text.parse::<u64>().ok();
    let outcome = match arguments[..] {
        ["diff", seed, ..] => number(seed)
            .zip(sizes(&arguments[2..]))
            .map(|(seed, sizes)| diff(seed, &sizes)),
        ["soak", cases] => number(cases).map(|cases| soak(&mixed(cases), 1, Scope::Functions)),
        ["soak", cases, seed] => {
            let both = number(cases).zip(number(seed));
            both.map(|(cases, seed)| soak(&mixed(cases), seed, Scope::Functions))
        }
        ["soak", cases, seed, "domestic"] => {
            let both = number(cases).zip(number(seed));
            both.map(|(cases, seed)| soak(&domestic(cases), seed, Scope::Domestic))
        }
        ["ranges", file] => Some(ranges(file)),
        ["speed"] => {
            print!("{}", speed::table(&Library));
            Some(ExitCode::SUCCESS)
        }
        ["instructions", who, what, size, repeat] => match (number(size), number(repeat)) {
            (Some(size), Some(repeat)) => instructions(who, what, size, repeat),
            _ => None,
        },
        ["frames", what, size, count] => match (number(size), number(count)) {
            (Some(size), Some(count)) => frames(what, size, count as usize),
            _ => None,
        },
        _ => None,
    };
    outcome.unwrap_or_else(|| {
        eprintln!("{USAGE}");
        ExitCode::from(2)
    })
}

/// The sizes of a run, if each is a number.
fn sizes(arguments: &[&str]) -> Option<Sizes> {
    let counts: Result<Vec<u64>, _> = arguments.iter().map(|text| text.parse()).collect();
    Some(Sizes::of(counts.ok()?.try_into().ok()?))
}

fn diff(seed: u64, sizes: &Sizes) -> ExitCode {
    let run = Run {
        library: &Library,
        seed,
        done: &AtomicU64::new(0),
    };
    finish(&run.cases(sizes), Scope::Functions)
}

/// One vehicle number in a hundred, then trains, joins and routes, a third each, half of them domestic.
fn mixed(cases: u64) -> Sizes {
    let numbers = cases / 100;
    let third = (cases - numbers) / 3;
    let halves = |count: u64| [count - count / 2, count / 2];
    Sizes {
        trains: halves(third),
        joins: halves(third),
        routes: halves(cases - numbers - 2 * third),
        numbers,
    }
}

/// So many domestic trains, and beside them a tenth as many domestic joins and a twentieth as many domestic routes.
fn domestic(trains: u64) -> Sizes {
    Sizes {
        trains: [0, trains],
        joins: [0, trains / 10],
        routes: [0, trains / 20],
        numbers: 0,
    }
}

/// On two threads that take every other index.
fn soak(sizes: &Sizes, seed: u64, scope: Scope) -> ExitCode {
    let done = AtomicU64::new(0);
    let half = |first: usize| {
        let run = Run {
            library: &Library,
            seed,
            done: &done,
        };
        run.every(sizes, first, 2)
    };
    let report = thread::scope(|scope| {
        let workers = [0, 1].map(|first| scope.spawn(move || half(first)));
        watch(&done, sizes.cases(), || {
            workers.iter().all(|one| one.is_finished())
        });
        let mut report = Report::default();
        for worker in workers {
            report.add(worker.join().expect("a thread of the soak broke off"));
        }
        report
    });
    finish(&report, scope)
}

/// The page of ranges against both.
fn ranges(file: &str) -> ExitCode {
    match ranges::hold_file(&Library, file) {
        Ok(held) => {
            print!("{}", held.text());
            ExitCode::from(u8::from(!held.is_good()))
        }
        Err(fault) => {
            eprintln!("compare: {fault}");
            ExitCode::FAILURE
        }
    }
}

/// Tells on stderr how far the threads are.
fn watch(done: &AtomicU64, cases: u64, finished: impl Fn() -> bool) {
    let mut waited = 0;
    while !finished() {
        thread::sleep(Duration::from_millis(100));
        waited += 1;
        if waited % 50 == 0 {
            eprintln!("{} of {cases}", done.load(Ordering::Relaxed));
        }
    }
}

/// What has to be met is that of the scope.
fn finish(report: &Report, scope: Scope) -> ExitCode {
    print!("{}", report.coverage.table(Scope::Functions));
    println!("compared cases");
    for (kind, count) in KINDS.iter().zip(report.kinds) {
        println!("  {kind:<24} {count:>9}");
    }
    println!("  routes in all            {:>9}", report.routes());
    println!("  domestic in all          {:>9}", report.domestic());
    println!("  calls in all             {:>9}", report.calls);
    let missing = report.coverage.missing(scope);
    for what in &missing {
        println!("never met: {what}");
    }
    let impossible = report.coverage.impossible_met();
    for what in &impossible {
        println!("met and cannot be: {what}");
    }
    for difference in &report.shown {
        print!("{difference}");
    }
    println!(
        "{} compared, {} differences",
        report.compared(),
        report.differences
    );
    match report.differences == 0 && missing.is_empty() && impossible.is_empty() {
        true => ExitCode::SUCCESS,
        false => ExitCode::FAILURE,
    }
}

/// Writes the first calls of a workload as oracle/emulated/server.c reads them: function, three lengths, room, then the bytes.
fn frames(what: &str, size: u64, count: usize) -> Option<ExitCode> {
    let mut bytes = vec![];
    for call in speed::workload(what, size as usize)?
        .calls
        .iter()
        .take(count)
    {
        let inputs = call.inputs.parts();
        let length = |place: usize| inputs.get(place).map_or(0, |part| part.1.len());
        let head = [
            call.function() as usize,
            length(0),
            length(1),
            length(2),
            call.room,
        ];
        bytes.extend(
            head.map(|number| (number as u32).to_le_bytes())
                .as_flattened(),
        );
        inputs.iter().for_each(|(_, part)| bytes.extend(*part));
        bytes.resize(bytes.len() + call.room, 0);
    }
    io::stdout().write_all(&bytes).ok()?;
    Some(ExitCode::SUCCESS)
}

/// Prints how many calls and records one pass has, so that a count of instructions can be divided.
fn instructions(who: &str, what: &str, size: u64, repeat: u64) -> Option<ExitCode> {
    let workload = speed::workload(what, size as usize)?;
    println!("{} {}", workload.calls.len(), workload.records);
    for _ in 0..repeat {
        match who {
            "library" => workload.pass(&Library),
            "model" => workload.pass(&Model),
            _ => return None,
        };
    }
    Some(ExitCode::SUCCESS)
}
