//! The model alone: SHEET's and ROUTE's lines, files of cases with their lines, counts, and the page of ranges.

use std::fs;
use std::io::{self, Read, Write};
use std::path::Path;
use std::process::ExitCode;
use std::sync::atomic::AtomicU64;

use oracle::call::{Call, Inputs, Model};
use oracle::coverage::{Coverage, Scope};
use oracle::diff::{Run, Sizes};
use oracle::gen::cases::{cases, worked_route};
use oracle::gen::domestic_cases::domestic_cases;
use oracle::gen::vectors::{domestic_inputs, domestic_route_inputs, inputs, route_inputs};
use oracle::line::{line, route_line, route_parts, MOST_INPUT, MOST_ROUTE};
use oracle::ranges::hold_file;
use oracle::route::SECTIONS;
use oracle::withdrawal::is_as_before;

const USAGE: &str = "usage: oracle line | oracle route | oracle ranges FILE
       oracle vectors DIR SEED SHEETS ROUTES DOMESTIC_SHEETS DOMESTIC_ROUTES
       oracle counts SEED TRAINS JOINS ROUTES NUMBERS DOMESTIC_TRAINS DOMESTIC_JOINS DOMESTIC_ROUTES";

/// The byte before an input that says whose it is.
const SHEETS: u8 = 0;
const ROUTES: u8 = 1;

fn main() -> ExitCode {
    let arguments: Vec<String> = std::env::args().skip(1).collect();
    let arguments: Vec<&str> = arguments.iter().map(String::as_str).collect();
    let outcome = match arguments[..] {
        ["line"] => write_line(MOST_INPUT, line),
        ["route"] => write_line(MOST_ROUTE, route_line),
        ["vectors", folder, seed, ..] => match (seed.parse(), numbers(&arguments[3..])) {
            (Ok(seed), Some(counts)) => vectors(Path::new(folder), seed, counts),
            _ => Err(io::Error::other(USAGE)),
        },
        ["counts", seed, ..] => match (seed.parse(), numbers(&arguments[2..])) {
            (Ok(seed), Some(counts)) => met(seed, &Sizes::of(counts)),
            _ => Err(io::Error::other(USAGE)),
        },
        ["ranges", file] => ranges(file),
        _ => Err(io::Error::other(USAGE)),
    };
    outcome.unwrap_or_else(|error| {
        eprintln!("oracle: {error}");
        ExitCode::from(2)
    })
}

/// As many numbers as are asked for.
fn numbers<const N: usize>(arguments: &[&str]) -> Option<[u64; N]> {
    let numbers: Result<Vec<u64>, _> = arguments.iter().map(|text| text.parse()).collect();
    numbers.ok()?.try_into().ok()
}

fn write_line(most: usize, line: fn(&[u8]) -> String) -> io::Result<ExitCode> {
    let mut input = vec![];
    // The rest is ignored, and so it is not read.
    io::stdin()
        .lock()
        .take(most as u64)
        .read_to_end(&mut input)?;
    io::stdout().write_all(line(&input).as_bytes())?;
    Ok(ExitCode::SUCCESS)
}

/// Inputs as VECTORS reads them, each behind its program and two bytes of length, and the line for each.
#[derive(Default)]
struct Frames {
    bytes: Vec<u8>,
    lines: String,
    coverage: Coverage,
    /// Those that had another line before 46 was withdrawn.
    changed: u64,
}

impl Frames {
    fn add(&mut self, program: u8, input: &[u8], line: &str, call: Call) {
        self.bytes.push(program);
        self.bytes.extend((input.len() as u16).to_le_bytes());
        self.bytes.extend(input);
        self.lines += line;
        let (answer, written) = call.outcome(&Model);
        self.coverage.note(&call, answer, &written);
        self.changed += u64::from(!is_as_before(&call, answer, &written));
    }
}

fn vectors(folder: &Path, seed: u64, counts: [u64; 4]) -> io::Result<ExitCode> {
    let [sheets, routes, domestic_sheets, domestic_routes] = counts.map(|count| count as usize);
    let mut frames = Frames::default();
    for case in cases().into_iter().chain(domestic_cases()) {
        print!("case {:<21} {}", case.name, line(&case.draft.input()));
    }
    print!(
        "case {:<21} {}",
        "A, three sections",
        route_line(&worked_route())
    );
    let of_sheets = [inputs(seed, sheets), domestic_inputs(seed, domestic_sheets)];
    for input in of_sheets.into_iter().flatten() {
        frames.add(SHEETS, &input, &line(&input), sheet_call(&input));
    }
    let of_routes = [
        route_inputs(seed, routes),
        domestic_route_inputs(seed, domestic_routes),
    ];
    for input in of_routes.into_iter().flatten() {
        frames.add(ROUTES, &input, &route_line(&input), route_call(&input));
    }
    fs::create_dir_all(folder)?;
    fs::write(folder.join("stdin"), &frames.bytes)?;
    fs::write(folder.join("stdout"), &frames.lines)?;
    println!(
        "{} bytes of frames, {} of lines; {} other lines under the former list",
        frames.bytes.len(),
        frames.lines.len(),
        frames.changed
    );
    Ok(finish(&frames.coverage, Scope::Lines, frames.changed))
}

fn sheet_call(input: &[u8]) -> Call {
    let input = &input[..input.len().min(MOST_INPUT)];
    let (order, vehicles) = input.split_at(input.len().min(24));
    Call {
        inputs: Inputs::Train {
            vehicles: vehicles.to_vec(),
            order: order.to_vec(),
        },
        room: 33,
        fill: 0,
    }
}

fn route_call(input: &[u8]) -> Call {
    let (orders, vehicles) = route_parts(input);
    Call {
        inputs: Inputs::TrainRoute {
            vehicles: vehicles.to_vec(),
            orders: orders.to_vec(),
        },
        room: SECTIONS,
        fill: 0,
    }
}

/// The model on both sides: what it meets is of interest, and that it keeps to the former list.
fn met(seed: u64, sizes: &Sizes) -> io::Result<ExitCode> {
    let run = Run {
        library: &Model,
        seed,
        done: &AtomicU64::new(0),
    };
    let report = run.cases(sizes);
    for difference in &report.shown {
        print!("{difference}");
    }
    Ok(finish(
        &report.coverage,
        Scope::Functions,
        report.differences,
    ))
}

/// The page against the model alone.
fn ranges(file: &str) -> io::Result<ExitCode> {
    let held = hold_file(&Model, file).map_err(io::Error::other)?;
    print!("{}", held.text());
    Ok(ExitCode::from(u8::from(!held.is_good())))
}

/// Good where nothing is wrong, missing or impossible.
fn finish(coverage: &Coverage, scope: Scope, wrong: u64) -> ExitCode {
    print!("{}", coverage.table(scope));
    let missing = coverage.missing(scope);
    for what in &missing {
        println!("never met: {what}");
    }
    let impossible = coverage.impossible_met();
    for what in &impossible {
        println!("met and cannot be: {what}");
    }
    match wrong == 0 && missing.is_empty() && impossible.is_empty() {
        true => ExitCode::SUCCESS,
        false => ExitCode::FAILURE,
    }
}
