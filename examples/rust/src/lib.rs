//! Prskavon for Rust: safe functions over the seven of `include/prskavon.h`.
//!
//! The library takes any bytes and always returns, so no function here asks anything of its caller.
//! An empty slice has a dangling pointer that is not null, which is all the header asks of it.
//!
//! Byte 7 of an order names its rule book, 0 cross-border or 1 domestic; vehicles and accounts are the same for both.
//!
//! A vehicle's number is 1 to 999,999,999,999 and closes: its twelve digits, leading zeros counted, sum to a multiple of
//! ten, those in odd places from the left being doubled first and their digits added. One that does not is out of range.

use std::error::Error;
use std::fmt;

pub const VEHICLE: usize = 24;
pub const ORDER: usize = 24;
pub const SHEET: usize = 32;
pub const DOMESTIC_SHEET: usize = 33;
pub const ACCOUNT: usize = 128;

/// The most sections that a route may have.
pub const SECTIONS: usize = 64;

/// What a call answers: number 0 is done, and the place is 0 save for number 3 and, of a route, number 4.
#[derive(Clone, Copy, Debug, PartialEq, Eq)]
pub struct Answer {
    pub number: u8,
    pub place: usize,
}

/// An answer that yields nothing: its number is not 0.
#[derive(Clone, Copy, Debug, PartialEq, Eq)]
pub struct Refusal {
    pub number: u8,
    pub place: usize,
}

/// The account of hauled vehicles in order. One from elsewhere may be bad; the library then refuses it.
#[derive(Clone, Copy, Debug, PartialEq, Eq)]
pub struct Account(pub [u8; ACCOUNT]);

/// A sheet, of the book that its order named.
#[derive(Clone, Copy, Debug, PartialEq, Eq)]
pub enum Sheet {
    CrossBorder([u8; SHEET]),
    Domestic([u8; DOMESTIC_SHEET]),
}

/// What a route's call answers: beside the answer the granted category, 0 where none is.
#[derive(Clone, Copy, Debug, PartialEq, Eq)]
pub struct RouteAnswer {
    pub answer: Answer,
    pub category: u8,
}

/// The category granted from end to end, 0 where none is, and its speed on each section.
#[derive(Clone, Debug, PartialEq, Eq)]
pub struct Route {
    pub category: u8,
    pub speeds: Vec<u8>,
}

/// The sheet of a whole train, its working engines in front.
pub fn sheet_of_train(vehicles: &[u8], order: &[u8]) -> Result<Sheet, Refusal> {
    let mut room = [0; DOMESTIC_SHEET];
    write_sheet_of_train(vehicles, order, &mut room).done()?;
    Ok(Sheet::of(order, room))
}

/// The same into a lent sheet: its first 32 bytes, 33 of a domestic order, are written when done, none when refused.
pub fn write_sheet_of_train(vehicles: &[u8], order: &[u8], sheet: &mut [u8]) -> Answer {
    // SAFETY: each pointer comes from a slice with its own length, so it is not null and good for that many bytes;
    // `sheet` is borrowed mutably, so it overlaps neither of the others; any bytes are answered.
    Answer::from(unsafe {
        prskavon_sheet_of_train(
            vehicles.as_ptr(),
            vehicles.len(),
            order.as_ptr(),
            order.len(),
            sheet.as_mut_ptr(),
            sheet.len(),
        )
    })
}

/// The account of a portion of hauled vehicles; an empty portion is good.
pub fn account_of(portion: &[u8]) -> Result<Account, Refusal> {
    let mut account = [0; ACCOUNT];
    // SAFETY: the portion's pointer and length come from one slice; `account` is a local array of the length given,
    // so nothing overlaps it; any bytes are answered.
    Answer::from(unsafe {
        prskavon_account_of(
            portion.as_ptr(),
            portion.len(),
            account.as_mut_ptr(),
            account.len(),
        )
    })
    .done()?;
    Ok(Account(account))
}

/// The account of two neighbouring portions, from their accounts, the front one left.
pub fn join(left: &Account, right: &Account) -> Result<Account, Refusal> {
    let mut account = [0; ACCOUNT];
    // SAFETY: `left` and `right` are only read and may be the same; `account` is a local array, so it overlaps
    // neither; each length is that of its array; any bytes are answered.
    Answer::from(unsafe {
        prskavon_join(
            left.0.as_ptr(),
            left.0.len(),
            right.0.as_ptr(),
            right.0.len(),
            account.as_mut_ptr(),
            account.len(),
        )
    })
    .done()?;
    Ok(Account(account))
}

/// The sheet of one or two working engines with the account of what they haul.
pub fn sheet_of_account(engines: &[u8], hauled: &Account, order: &[u8]) -> Result<Sheet, Refusal> {
    let mut room = [0; DOMESTIC_SHEET];
    write_sheet_of_account(engines, hauled, order, &mut room).done()?;
    Ok(Sheet::of(order, room))
}

/// The same into a lent sheet: its first 32 bytes, 33 of a domestic order, are written when done, none when refused.
pub fn write_sheet_of_account(
    engines: &[u8],
    hauled: &Account,
    order: &[u8],
    sheet: &mut [u8],
) -> Answer {
    // SAFETY: each pointer comes from a slice or array with its own length, so it is not null and good for that many
    // bytes; `sheet` is borrowed mutably, so it overlaps none of the others; any bytes are answered.
    Answer::from(unsafe {
        prskavon_sheet_of_account(
            engines.as_ptr(),
            engines.len(),
            hauled.0.as_ptr(),
            hauled.0.len(),
            order.as_ptr(),
            order.len(),
            sheet.as_mut_ptr(),
            sheet.len(),
        )
    })
}

/// The vehicle with the least permitted speed out of two portions in order, the first in the train at a tie.
pub fn holds_the_speed(front: &[u8], back: &[u8]) -> Option<[u8; VEHICLE]> {
    let mut vehicle = [0; VEHICLE];
    // SAFETY: `front` and `back` are only read, each with its own length; `vehicle` is a local array of the length
    // given, so nothing overlaps it; any bytes are answered.
    let written = unsafe {
        prskavon_holds_the_speed(
            front.as_ptr(),
            front.len(),
            back.as_ptr(),
            back.len(),
            vehicle.as_mut_ptr(),
            vehicle.len(),
        )
    };
    (written == VEHICLE).then_some(vehicle)
}

/// The route of a whole train over 1 to 64 orders of one book, a section each.
pub fn route_of_train(vehicles: &[u8], orders: &[u8]) -> Result<Route, Refusal> {
    let mut speeds = [0; SECTIONS];
    let answer = write_route_of_train(vehicles, orders, &mut speeds);
    answer.route(orders, &speeds)
}

/// The same into lent speeds: a byte is written for each section when done, none when refused.
pub fn write_route_of_train(vehicles: &[u8], orders: &[u8], speeds: &mut [u8]) -> RouteAnswer {
    // SAFETY: each pointer comes from a slice with its own length, so it is not null and good for that many bytes;
    // `speeds` is borrowed mutably, so it overlaps neither of the others; any bytes are answered.
    RouteAnswer::from(unsafe {
        prskavon_route_of_train(
            vehicles.as_ptr(),
            vehicles.len(),
            orders.as_ptr(),
            orders.len(),
            speeds.as_mut_ptr(),
            speeds.len(),
        )
    })
}

/// The route of one or two working engines with the account of what they haul.
pub fn route_of_account(engines: &[u8], hauled: &Account, orders: &[u8]) -> Result<Route, Refusal> {
    let mut speeds = [0; SECTIONS];
    write_route_of_account(engines, hauled, orders, &mut speeds).route(orders, &speeds)
}

/// The same into bytes of the caller's, a byte a section; a refused call leaves them as they were.
pub fn write_route_of_account(
    engines: &[u8],
    hauled: &Account,
    orders: &[u8],
    speeds: &mut [u8],
) -> RouteAnswer {
    // SAFETY: each pointer comes from a slice or array with its own length, so it is not null and good for that many
    // bytes; `speeds` is borrowed mutably, so it overlaps none of the others; any bytes are answered.
    RouteAnswer::from(unsafe {
        prskavon_route_of_account(
            engines.as_ptr(),
            engines.len(),
            hauled.0.as_ptr(),
            hauled.0.len(),
            orders.as_ptr(),
            orders.len(),
            speeds.as_mut_ptr(),
            speeds.len(),
        )
    })
}

impl Sheet {
    /// The sheet in the room that a done call had: of a cross-border order the last byte was not written.
    fn of(order: &[u8], room: [u8; DOMESTIC_SHEET]) -> Sheet {
        if order.get(7) == Some(&1) {
            return Sheet::Domestic(room);
        }
        let [sheet @ .., _] = room;
        Sheet::CrossBorder(sheet)
    }

    /// All its bytes.
    pub fn bytes(&self) -> &[u8] {
        match self {
            Sheet::CrossBorder(sheet) => sheet,
            Sheet::Domestic(sheet) => sheet,
        }
    }

    /// The first rule broken by each category, from category 1 on, or 0.
    pub fn rules(&self) -> &[u8] {
        match self {
            Sheet::CrossBorder(sheet) => &sheet[4..9],
            Sheet::Domestic(sheet) => &sheet[4..10],
        }
    }

    /// What stands behind the rule bytes, the same in both books: D loads, margin, p, mark, isolated records, masses
    /// and length.
    pub fn figures(&self) -> &[u8] {
        match self {
            Sheet::CrossBorder(sheet) => &sheet[9..],
            Sheet::Domestic(sheet) => &sheet[10..],
        }
    }
}

impl RouteAnswer {
    /// The route when done, which has as many sections as there are orders, else the refusal.
    fn route(self, orders: &[u8], speeds: &[u8; SECTIONS]) -> Result<Route, Refusal> {
        self.answer.done()?;
        Ok(Route {
            category: self.category,
            speeds: speeds[..orders.len() / ORDER].to_vec(),
        })
    }
}

impl Answer {
    pub const DONE: Answer = Answer {
        number: 0,
        place: 0,
    };

    /// Nothing to say when done, else the refusal.
    pub fn done(self) -> Result<(), Refusal> {
        let Answer { number, place } = self;
        if number == 0 {
            Ok(())
        } else {
            Err(Refusal { number, place })
        }
    }
}

/// The library's form of an answer: number + 256 * place, and of a route + 2^32 * category.
impl From<u64> for Answer {
    fn from(answer: u64) -> Self {
        Answer {
            number: (answer % 256) as u8,
            place: (answer / 256 % (1 << 24)) as usize,
        }
    }
}

impl From<u64> for RouteAnswer {
    fn from(answer: u64) -> Self {
        RouteAnswer {
            answer: Answer::from(answer),
            category: (answer >> 32) as u8,
        }
    }
}

impl fmt::Display for Answer {
    fn fmt(&self, f: &mut fmt::Formatter<'_>) -> fmt::Result {
        write!(f, "number {}, place {}", self.number, self.place)
    }
}

impl Refusal {
    /// Document 01's words for the number.
    pub fn words(self) -> &'static str {
        match self.number {
            1 => "the list is empty or not a multiple of 24 bytes",
            2 => "more than 200 records together; in joining accounts, a joined figure above its ceiling",
            3 => "a field out of range; the place is the first such record, counted from 0",
            4 => "the order record is not 24 bytes or has a field out of range; of a route, the orders are not whole, none or more than 64, or the section at this place, counted from 0, is out of range, asks for another category or names another book",
            5 => "the lent sheet is shorter than 32 bytes, of a domestic order than 33, or fewer bytes are lent than a route has sections",
            6 => "a working engine in a portion offered as hauled",
            7 => "an account with a figure above its ceiling",
            11 => "the first record is not a working engine; with engines lent apart, any of them is not",
            12 => "a working engine stands behind another kind",
            13 => "more than two working engines",
            14 => "nothing is hauled",
            _ => "no number of document 01",
        }
    }
}

impl fmt::Display for Refusal {
    fn fmt(&self, f: &mut fmt::Formatter<'_>) -> fmt::Result {
        let Refusal { number, place } = *self;
        write!(f, "{}: {}", Answer { number, place }, self.words())
    }
}

impl Error for Refusal {}

// As include/prskavon.h declares them, argument for argument.
extern "C" {
    fn prskavon_sheet_of_train(
        vehicles: *const u8,
        vehicles_len: usize,
        order: *const u8,
        order_len: usize,
        sheet: *mut u8,
        sheet_len: usize,
    ) -> u64;
    fn prskavon_account_of(
        portion: *const u8,
        portion_len: usize,
        account: *mut u8,
        account_len: usize,
    ) -> u64;
    fn prskavon_join(
        left: *const u8,
        left_len: usize,
        right: *const u8,
        right_len: usize,
        account: *mut u8,
        account_len: usize,
    ) -> u64;
    fn prskavon_sheet_of_account(
        engines: *const u8,
        engines_len: usize,
        hauled: *const u8,
        hauled_len: usize,
        order: *const u8,
        order_len: usize,
        sheet: *mut u8,
        sheet_len: usize,
    ) -> u64;
    fn prskavon_holds_the_speed(
        front: *const u8,
        front_len: usize,
        back: *const u8,
        back_len: usize,
        vehicle: *mut u8,
        vehicle_len: usize,
    ) -> usize;
    fn prskavon_route_of_train(
        vehicles: *const u8,
        vehicles_len: usize,
        orders: *const u8,
        orders_len: usize,
        speeds: *mut u8,
        speeds_len: usize,
    ) -> u64;
    fn prskavon_route_of_account(
        engines: *const u8,
        engines_len: usize,
        hauled: *const u8,
        hauled_len: usize,
        orders: *const u8,
        orders_len: usize,
        speeds: *mut u8,
        speeds_len: usize,
    ) -> u64;
}
