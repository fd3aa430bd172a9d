//! What a yard's program does with Prskavon, on document 01's case A, one engine and ten wagons, and on a domestic train.
//! Masses are in tenths of a tonne, lengths in decimetres, speeds in km/h.

use std::error::Error;
use std::process::ExitCode;

use prskavon_example::{
    account_of, holds_the_speed, join, route_of_account, route_of_train, sheet_of_account,
    sheet_of_train, write_route_of_train, write_sheet_of_account, write_sheet_of_train, Account,
    Answer, Refusal, RouteAnswer, Sheet, DOMESTIC_SHEET, ORDER, SHEET, VEHICLE,
};

type Checked<T> = Result<T, Box<dyn Error>>;

const VEHICLES: usize = 11;
const TRAIN: usize = VEHICLES * VEHICLE;
const CUT: usize = 4 * VEHICLE;
const MIDDLE: usize = 6 * VEHICLE;

// Kinds and settings of bytes 17 and 18, as far as these trains have them.
const WAGON: u8 = 0;
const WORKING_ENGINE: u8 = 2;
const ISOLATED: u8 = 0;
const SET_M: u8 = 1;
const SET_V: u8 = 2;

// The categories of each book, by their numbers.
const CROSS_BORDER: &[&str] = &[
    "none",
    "ME120/P120",
    "ME100/P100",
    "MA100/P100",
    "MA100/G100",
    "MA90/G90",
];
const DOMESTIC: &[&str] = &["none", "ME140", "ME120", "ME100", "MA100", "MA90", "MA80"];

// Vehicle numbers, the engine's first: the eleven least whose twelfth digit closes the sum, as the header says.
const NUMBERS: [u64; VEHICLES] = [18, 26, 34, 42, 59, 67, 75, 83, 91, 109, 117];

// Document 01 prints case A's line; case B's follows from its margin of -2 t, rule 47 and 43.0 t a wagon.
const CASE_A: &str = "0 0 010164000000002020004400004d000070170000f41a000070170000a4060000";
const CASE_B: &str = "0 0 010264002f0000202000feffff4d000070170000f41a0000b4140000a4060000";

// The limits of a route's three sections. On the third ME100 is missing, so MA100 counts for category 2.
const LIMITS: [[u8; 5]; 3] = [
    [120, 100, 100, 100, 100],
    [80, 90, 100, 100, 100],
    [100, 0, 90, 90, 80],
];

/// What a route must give: the category granted and its speeds; and what each section for itself would be granted.
struct Due {
    category: u8,
    speeds: &'static [u8],
    alone: &'static [(u8, u8)],
}

// Slowest are 80 km/h in category 1, 90 in 2 and 90 in 3, and 4 and 5 break rule 32: so 2, on these sections at these
// speeds. Each section for itself would be granted another.
const ABROAD: Due = Due {
    category: 2,
    speeds: &[100, 90, 90],
    alone: &[(1, 120), (3, 100), (1, 100)],
};

// Case 30 of docs/DOMESTIC.md: 842.5 t are braked, 173.2 t above 97 percent of 690.0 t.
const CASE_30: &str = "0 0 01018c0000000000000000ad000061010070170000f41a0000e9200000a4060000";

// The limits of a domestic route's two sections, ME140 first. On the second it is missing, so ME120 counts for ME140.
const INLAND_LIMITS: [[u8; 6]; 2] = [[140, 120, 100, 100, 90, 80], [0, 80, 90, 90, 90, 80]];

// Slowest are 80 km/h in ME140, ME120 and MA80, and 90 in the others: so ME100, the first of these.
const INLAND: Due = Due {
    category: 3,
    speeds: &[100, 90],
    alone: &[(1, 140), (3, 90)],
};

struct Vehicle {
    number: u64,
    mass: u16,
    braked_v: u16,
    braked_m: u16,
    length: u16,
    axles: u8,
    kind: u8,
    setting: u8,
    speed: u8,
}

fn expect(holds: bool, what: &str) -> Checked<()> {
    if holds {
        Ok(())
    } else {
        Err(what.into())
    }
}

fn get(bytes: &[u8]) -> u64 {
    bytes
        .iter()
        .rev()
        .fold(0, |value, &byte| value << 8 | u64::from(byte))
}

fn record(v: Vehicle) -> [u8; VEHICLE] {
    let mut record = [0; VEHICLE];
    record[0..8].copy_from_slice(&v.number.to_le_bytes());
    record[8..10].copy_from_slice(&v.mass.to_le_bytes());
    record[10..12].copy_from_slice(&v.braked_v.to_le_bytes());
    record[12..14].copy_from_slice(&v.braked_m.to_le_bytes());
    record[14..16].copy_from_slice(&v.length.to_le_bytes());
    record[16] = v.axles;
    record[17] = v.kind;
    record[18] = v.setting;
    record[19] = 1; // joined to the brake pipe, or rule 17, domestic 65, would be broken
    record[20] = v.speed;
    record
}

fn train(wagon_braked_v: u16) -> [u8; TRAIN] {
    let mut train = [0; TRAIN];
    let (engine, wagons) = train.split_at_mut(VEHICLE);
    engine.copy_from_slice(&record(Vehicle {
        number: NUMBERS[0],
        mass: 900,
        braked_v: 1000,
        braked_m: 800,
        length: 200,
        axles: 4,
        kind: WORKING_ENGINE,
        setting: SET_V,
        speed: 140,
    }));
    for (wagon, &number) in wagons.chunks_exact_mut(VEHICLE).zip(&NUMBERS[1..]) {
        wagon.copy_from_slice(&record(Vehicle {
            number,
            mass: 600,
            braked_v: wagon_braked_v,
            braked_m: 500,
            length: 150,
            axles: 4,
            kind: WAGON,
            setting: SET_V,
            speed: 120,
        }));
    }
    train
}

fn order() -> [u8; ORDER] {
    let mut order = [0; ORDER];
    order[0..5].fill(100); // the line's limit in all five columns
    order[5] = 1; // asked: ME120/P120
    order[8..12].copy_from_slice(&100_000_u32.to_le_bytes());
    order[12..16].copy_from_slice(&100_000_u32.to_le_bytes());
    order
}

/// The same order in the domestic book: byte 7 names it, and the limits begin with ME140, which stands in byte 16.
fn domestic_order(limits: [u8; 6]) -> [u8; ORDER] {
    let mut order = order(); // asked 1 is ME140 here
    order[7] = 1;
    order[16] = limits[0];
    order[0..5].copy_from_slice(&limits[1..]);
    order
}

/// Engine and five wagons set to M, five set to V, and all may do 140 km/h: braked as a long locomotive.
fn domestic_train() -> [u8; TRAIN] {
    let mut train = train(400);
    train[18] = SET_M;
    for (i, wagon) in train[VEHICLE..].chunks_exact_mut(VEHICLE).enumerate() {
        let (braked_v, braked_m, setting) = if i < 5 {
            (1500_u16, 800_u16, SET_M)
        } else {
            (400, 400, SET_V)
        };
        wagon[10..12].copy_from_slice(&braked_v.to_le_bytes());
        wagon[12..14].copy_from_slice(&braked_m.to_le_bytes());
        wagon[18] = setting;
        wagon[20] = 140;
    }
    train
}

/// The names of its book's categories.
fn names(sheet: &Sheet) -> &'static [&'static str] {
    match sheet {
        Sheet::CrossBorder(_) => CROSS_BORDER,
        Sheet::Domestic(_) => DOMESTIC,
    }
}

/// The margin's three bytes are two's complement: put at the top of an i32 and shifted down, they keep their sign.
fn margin(sheet: &Sheet) -> i32 {
    let figures = sheet.figures();
    i32::from_le_bytes([0, figures[1], figures[2], figures[3]]) >> 8
}

fn print_sheet(sheet: &Sheet) {
    let (bytes, figures) = (sheet.bytes(), sheet.figures());
    let category = |number: u8| names(sheet)[usize::from(number)];
    let (asked, granted, speed) = (category(bytes[0]), category(bytes[1]), bytes[2]);
    println!("  asked {asked}, granted {granted} at {speed} km/h");
    println!("  margin {} t over {} percent", margin(sheet), figures[4]);
    for (name, &rule) in names(sheet)[1..].iter().zip(sheet.rules()) {
        match rule {
            0 => println!("  {name} breaks no rule"),
            _ => println!("  {name} breaks rule {rule}"),
        }
    }
    let (braked, hauled) = (get(&figures[15..19]), get(&figures[7..11]));
    println!(
        "  braked mass {}.{} t, hauled mass {}.{} t",
        braked / 10,
        braked % 10,
        hauled / 10,
        hauled % 10
    );
    if figures[5] == 1 {
        println!("  braked as a long locomotive");
    }
}

fn whole_train(train: &[u8], order: &[u8], page: &str) -> Checked<Sheet> {
    let sheet = sheet_of_train(train, order)?;
    let hex: String = (sheet.bytes().iter())
        .map(|byte| format!("{byte:02x}"))
        .collect();
    let line = format!("0 0 {hex}"); // number, place, sheet: the line that the program SHEET writes
    println!("  {line}");
    expect(line == page, page)?;
    println!("  {}", Answer::DONE);
    print_sheet(&sheet);
    Ok(sheet)
}

/// Two yards account 3 and 7 wagons; whoever has the engine needs their two accounts and no wagon.
fn by_portions(train: &[u8], order: &[u8], whole: &Sheet) -> Checked<Account> {
    let (engine, wagons) = train.split_at(VEHICLE);
    let (front, back) = wagons.split_at(CUT - VEHICLE);
    let (left, right) = (account_of(front)?, account_of(back)?);
    let counts = (get(&left.0[0..4]), get(&right.0[0..4]));
    expect(counts == (3, 7), "the accounts count 3 and 7 wagons")?;
    let joined = join(&left, &right)?;
    let sheet = sheet_of_account(engine, &joined, order)?;
    println!("  {}", Answer::DONE);
    expect(sheet == *whole, "the sheet does not depend on the cut")?;
    println!("  byte for byte the same sheet");
    Ok(joined)
}

/// The wagons tie at 120 km/h, so the first of them answers; the engine may do 140.
fn speed_holder(train: &[u8]) -> Checked<()> {
    let (front, back) = train.split_at(CUT);
    let vehicle = holds_the_speed(front, back).ok_or("a vehicle holds the speed")?;
    println!("  number {}, {} km/h", get(&vehicle[0..8]), vehicle[20]);
    let first_wagon = &train[VEHICLE..2 * VEHICLE];
    expect(vehicle == first_wagon, "the first wagon holds the speed")
}

/// Case A's orders for the three sections, one behind the other.
fn orders(order: &[u8; ORDER]) -> Vec<u8> {
    let mut orders = order.repeat(LIMITS.len());
    for (section, limits) in orders.chunks_exact_mut(ORDER).zip(LIMITS) {
        section[0..5].copy_from_slice(&limits);
    }
    orders
}

/// One category from end to end, and beside it what each section for itself would be granted; then the same route from
/// the engine and the account of what it hauls.
fn route(due: &Due, train: &[u8], orders: &[u8], account: &Account) -> Checked<()> {
    let whole = route_of_train(train, orders)?;
    println!("  {}", Answer::DONE);
    let names = names(&sheet_of_train(train, &orders[..ORDER])?);
    let category = |number: u8| names[usize::from(number)];
    let (asked, granted) = (category(orders[5]), category(whole.category));
    println!("  asked {asked}, granted {granted}");
    expect(whole.category == due.category, "the route's category")?;
    expect(whole.speeds == due.speeds, "the sections' speeds")?;
    let sections = orders.chunks_exact(ORDER).zip(&whole.speeds);
    for (k, (order, speed)) in sections.enumerate() {
        let sheet = sheet_of_train(train, order)?;
        let (alone, at) = (sheet.bytes()[1], sheet.bytes()[2]);
        let for_itself = category(alone);
        println!("  section {k}: {speed} km/h; for itself {for_itself} at {at} km/h");
        expect((alone, at) == due.alone[k], "the section for itself")?;
    }
    println!("The same route, from the engine and the joined accounts");
    let by_account = route_of_account(&train[..VEHICLE], account, orders)?;
    println!("  {}", Answer::DONE);
    expect(by_account == whole, "the route does not depend on the cut")?;
    println!("  the same category and speeds");
    Ok(())
}

/// How long the hauled part is, what of it is set to V, and what the sheet says then; 550.0 t are braked, less k percent.
fn lengths(train: &[u8], order: &[u8], hauled: u64, tonnes: i32) -> Checked<()> {
    let account = account_of(&train[VEHICLE..])?;
    let sheet = sheet_of_train(train, order)?;
    let (all, in_v) = (get(&account.0[16..20]), get(&account.0[69..73]));
    let (granted, braked) = (sheet.bytes()[1], get(&sheet.figures()[15..19]));
    println!(
        "  hauled {}.{} m, of these {}.{} m set to V",
        all / 10,
        all % 10,
        in_v / 10,
        in_v % 10
    );
    println!(
        "  granted {}, margin {} t, braked mass {}.{} t",
        CROSS_BORDER[usize::from(granted)],
        margin(&sheet),
        braked / 10,
        braked % 10
    );
    expect((all, in_v) == (hauled, 5_000), "500.0 m are set to V")?;
    expect(
        (granted, margin(&sheet), braked) == (1, tonnes, 5_500),
        "up to 500 m set to V nothing is deducted",
    )
}

/// 550.0 t are 18.7 t above 77 percent of 690.0 t. The isolated wagon costs 77 percent of its 20.0 t, which are 15.4 t, and
/// leaves 3.3 t; were its metres counted, k would be 2 and category 1 lost.
fn isolated_metres(order: &[u8]) -> Checked<()> {
    let mut train = train(450).to_vec();
    for wagon in train[VEHICLE..].chunks_exact_mut(VEHICLE) {
        wagon[14..16].copy_from_slice(&500_u16.to_le_bytes());
    }
    println!("Ten wagons of 50.0 m, set to V and braked with 45.0 t each");
    lengths(&train, order, 5_000, 18)?;
    println!("The same with an isolated wagon of 40.0 m and 20.0 t in the middle");
    let isolated = record(Vehicle {
        number: 125,
        mass: 200,
        braked_v: 0,
        braked_m: 0,
        length: 400,
        axles: 4,
        kind: WAGON,
        setting: ISOLATED,
        speed: 120,
    });
    train.splice(MIDDLE..MIDDLE, isolated);
    lengths(&train, order, 5_400, 3)
}

/// Prints the refusal and holds it against the one that is due.
fn given(answer: Answer, refusal: Refusal) -> Checked<()> {
    match answer.done() {
        Ok(()) => println!("  {answer}"),
        Err(given) => println!("  {given}"),
    }
    expect(answer.done() == Err(refusal), &refusal.to_string())
}

fn refused(answer: Answer, refusal: Refusal, sheet: &[u8]) -> Checked<()> {
    given(answer, refusal)?;
    expect(
        sheet.iter().all(|&byte| byte == 0xaa),
        "a refused sheet is not written at all",
    )?;
    println!("  the sheet was left as it was");
    Ok(())
}

fn refused_route(train: &[u8], orders: &[u8], place: usize) -> Checked<()> {
    let mut speeds = [0xaa; LIMITS.len()];
    let RouteAnswer { answer, category } = write_route_of_train(train, orders, &mut speeds);
    given(answer, Refusal { number: 4, place })?;
    expect(category == 0, "a refusal gives category 0")?;
    expect(
        speeds == [0xaa; LIMITS.len()],
        "a refused route writes nothing",
    )?;
    println!("  the speeds were left as they were");
    Ok(())
}

fn routes(train: &[u8], order: &[u8; ORDER], account: &Account) -> Checked<()> {
    let mut orders = orders(order);
    println!("Case A's train on a route of three sections");
    route(&ABROAD, train, &orders, account)?;
    println!("A German percentage of 201 on the last section");
    orders[2 * ORDER + 6] = 201;
    refused_route(train, &orders, 2)
}

/// The domestic book takes the same vehicles and accounts. Its order has byte 7 set, and its sheet has 33 bytes.
fn inside_france() -> Checked<()> {
    let (train, mut orders) = (domestic_train(), INLAND_LIMITS.map(domestic_order).concat());

    println!("A domestic train, engine and five wagons set to M, five wagons set to V (case 30)");
    let whole = whole_train(&train, &orders[..ORDER], CASE_30)?;
    println!("Case 30 again, from the engine and the joined accounts of 3 and 7 wagons");
    let account = by_portions(&train, &orders[..ORDER], &whole)?;
    let in_m = get(&account.0[77..81]);
    println!(
        "  V masses of the wagons set to M: {}.{} t, of which three quarters count",
        in_m / 10,
        in_m % 10
    );
    expect(
        (in_m, get(&account.0[73..77]), account.0[81]) == (7_500, 0, 0),
        "five wagons set to M, no hauled engine",
    )?;
    println!("The domestic train on a route of two sections");
    route(&INLAND, &train, &orders, &account)?;

    println!("A second section of the cross-border book");
    orders[ORDER + 7] = 0;
    refused_route(&train, &orders, 1)?;
    let mut sheet = [0xaa; DOMESTIC_SHEET];
    println!("32 bytes lent for a domestic sheet");
    let (number, place) = (5, 0);
    let answer = write_sheet_of_train(&train, &orders[..ORDER], &mut sheet[..SHEET]);
    refused(answer, Refusal { number, place }, &sheet)
}

fn tour() -> Checked<()> {
    let (mut train_a, mut train_b, order) = (train(500), train(430), order());

    println!("The whole train, its wagons braked with 50.0 t each (case A)");
    let whole = whole_train(&train_a, &order, CASE_A)?;
    println!("The whole train, its wagons braked with 43.0 t each (case B)");
    whole_train(&train_b, &order, CASE_B)?;
    println!("Case A again, from the engine and the joined accounts of 3 and 7 wagons");
    let mut account = by_portions(&train_a, &order, &whole)?;
    println!("The vehicle that holds the speed");
    speed_holder(&train_a)?;
    routes(&train_a, &order, &account)?;
    isolated_metres(&order)?;
    inside_france()?;

    let mut sheet = [0xaa; SHEET]; // a mark that no refused call may touch
    println!("The last wagon's number mistyped, 177 for 117");
    train_b[10 * VEHICLE..][..8].copy_from_slice(&177_u64.to_le_bytes());
    let (number, place) = (3, 10);
    let answer = write_sheet_of_train(&train_b, &order, &mut sheet);
    refused(answer, Refusal { number, place }, &sheet)?;
    println!("A fourth vehicle with 25 axles");
    train_a[3 * VEHICLE + 16] = 25;
    let (number, place) = (3, 3);
    let answer = write_sheet_of_train(&train_a, &order, &mut sheet);
    refused(answer, Refusal { number, place }, &sheet)?;
    println!("An account with byte 127 set to 1");
    account.0[127] = 1;
    let (number, place) = (7, 0);
    let answer = write_sheet_of_account(&train_a[..VEHICLE], &account, &order, &mut sheet);
    refused(answer, Refusal { number, place }, &sheet)
}

fn main() -> ExitCode {
    match tour() {
        Ok(()) => ExitCode::SUCCESS,
        Err(what) => {
            eprintln!("not as the documents say: {what}");
            ExitCode::FAILURE
        }
    }
}
