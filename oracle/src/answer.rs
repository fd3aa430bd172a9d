//! Answers: a number and a place; of a route also a category.

/// An answer that yields no sheet.
#[derive(Clone, Copy, Debug, PartialEq, Eq)]
pub struct Refusal {
    pub number: u8,
    pub place: usize,
}

/// The place is 0 save for number 3, and of a route for number 4.
pub fn refusal(number: u8) -> Refusal {
    Refusal { number, place: 0 }
}

/// The refusal stands unless `good` holds.
pub fn demand(good: bool, number: u8) -> Result<(), Refusal> {
    if good {
        Ok(())
    } else {
        Err(refusal(number))
    }
}

/// Number + 256 x place; number 0 is done.
pub fn answer(result: Result<(), Refusal>) -> u64 {
    match result {
        Ok(()) => 0,
        Err(refused) => u64::from(refused.number) + 256 * refused.place as u64,
    }
}

/// The same with the granted category, times 2^32; a refusal has category 0.
pub fn route_answer(result: Result<u8, Refusal>) -> u64 {
    match result {
        Ok(category) => u64::from(category) << 32,
        Err(refused) => answer(Err(refused)),
    }
}

/// The parts of an answer, its category 0 save for a route that is done.
pub fn parts(answer: u64) -> (u64, u64, u64) {
    (answer % 256, answer / 256 % (1 << 24), answer >> 32)
}
