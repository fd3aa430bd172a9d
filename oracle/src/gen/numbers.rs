//! Vehicle numbers that close, and what slips make of them.

use super::accounts::account_of;
use super::draft::{bytes, Draft};
use super::routes::written;
use super::trains::{plain_train, Size};
use crate::book::Book;
use crate::call::{Call, Function, Inputs};
use crate::random::Random;
use crate::vehicle::{digit_sum, digits, is_number, DIGITS};

/// The least and the greatest number that close within the range.
pub const LEAST: u64 = 18;
pub const GREATEST: u64 = 999_999_999_991;

/// The first number past twelve digits.
pub const PAST: u64 = 1_000_000_000_000;

/// About both ends of the range and beyond it, with whether each is good.
pub const ENDS: [(u64, bool); 26] = [
    // It closes, but is below the range.
    (0, false),
    (1, false),
    (8, false),
    (9, false),
    (10, false),
    (17, false),
    (LEAST, true),
    (19, false),
    (26, true),
    (999_999_999_983, true),
    (999_999_999_990, false),
    (GREATEST, true),
    (999_999_999_992, false),
    (999_999_999_999, false),
    (PAST, false),
    (PAST + 1, false),
    // Twelve digits that close, behind a thirteenth, and behind eight more.
    (PAST + LEAST, false),
    (9_999_999_999_991, false),
    (18_446_743_999_999_999_991, false),
    // The first five bytes, or all but the last, hold a number that closes.
    ((1 << 40) + LEAST, false),
    ((1 << 56) + LEAST, false),
    ((1 << 40) - 1, false),
    (1 << 40, false),
    (1 << 63, false),
    (u64::MAX - 1, false),
    (u64::MAX, false),
];

/// A stem, all digits but the last, with the last digit that closes it.
pub fn closed(stem: u64) -> u64 {
    let open = 10 * stem;
    open + (10 - digit_sum(open) % 10) % 10
}

/// A stem above 0: most have eleven digits, as real ones do, the others leading zeros.
pub fn stem(random: &mut Random) -> u64 {
    let digits = match random.below(4) {
        0 => random.between(1, 11) as u32,
        _ => 11,
    };
    let least = 10_u64.pow(digits - 1);
    least + random.draw() % (9 * least)
}

/// A number that closes, now and then the least or the greatest.
pub fn number(random: &mut Random) -> u64 {
    match random.below(200) {
        0 => LEAST,
        1 => GREATEST,
        _ => closed(stem(random)),
    }
}

/// Another digit in a place, counted from 1.
pub fn changed(number: u64, place: usize, to: u64) -> u64 {
    let mut digits = digits(number);
    digits[place - 1] = to;
    number_of(digits)
}

/// The digit in a place, counted from 1, and the next one exchanged.
pub fn exchanged(number: u64, place: usize) -> u64 {
    let mut digits = digits(number);
    digits.swap(place - 1, place);
    number_of(digits)
}

fn number_of(digits: [u64; DIGITS]) -> u64 {
    digits.iter().fold(0, |number, digit| 10 * number + digit)
}

/// What a hand makes of a number that closes; some of it still does.
pub fn slipped(random: &mut Random, number: u64) -> u64 {
    match random.below(20) {
        0..5 => changed(number, 1 + random.below(DIGITS), random.draw() % 10),
        5..9 => changed(number, DIGITS, random.draw() % 10),
        9..13 => exchanged(number, 1 + random.below(DIGITS - 1)),
        13..15 => random.draw() % PAST,
        15..17 => past(random),
        17 => 0,
        _ => random.pick(&ENDS).0,
    }
}

/// The same until it is refused.
pub fn refused(random: &mut Random, number: u64) -> u64 {
    loop {
        let slipped = slipped(random, number);
        if !is_number(slipped) {
            return slipped;
        }
    }
}

/// A number past twelve digits, some with a tail that closes.
fn past(random: &mut Random) -> u64 {
    let most = random.pick(&[1, 9, u64::MAX / PAST - 1]);
    let front = 1 + random.draw() % most;
    let tail = match random.below(2) {
        0 => number(random),
        _ => random.draw() % PAST,
    };
    front * PAST + tail
}

/// Stems that every run tries: with one digit that is not 0, about each power of ten, with 0 and 9 beside each other, and that of
/// 21 81 2471 217-3.
fn chosen_stems() -> Vec<u64> {
    let mut stems = vec![21_812_471_217, 90_909_090_909, 9_090_909_090];
    for zeros in 0..11 {
        let power = 10_u64.pow(zeros);
        stems.extend((1..10).map(|digit| digit * power));
        stems.extend([power + 1, 10 * power - 1]);
    }
    stems
}

/// The number that a case slips in: the chosen stems' first, then random ones.
pub fn case_number(random: &mut Random, index: u64) -> u64 {
    match chosen_stems().get(index as usize) {
        Some(&stem) => closed(stem),
        None => closed(stem(random)),
    }
}

/// A good train of two engines and three to eight hauled.
pub fn two_engines(random: &mut Random, book: Book) -> Draft {
    let hauled = random.between(3, 8) as usize;
    let mut draft = plain_train(random, book, Size::Exactly(hauled));
    draft.working.resize(2, draft.working[0]);
    draft
}

/// A call that lends a function the train's vehicles, and enough room.
pub fn seated(function: Function, draft: &Draft) -> Call {
    let order = draft.order.write().to_vec();
    let orders = written(&[draft.order; 2]);
    let vehicles = draft.vehicles();
    let engines = bytes(&draft.working);
    let hauled = account_of(&draft.hauled).to_vec();
    let inputs = match function {
        Function::SheetOfTrain => Inputs::Train { vehicles, order },
        Function::RouteOfTrain => Inputs::TrainRoute { vehicles, orders },
        Function::AccountOf => Inputs::Portion {
            portion: bytes(&draft.hauled),
        },
        Function::SheetOfAccount => Inputs::Engines {
            engines,
            hauled,
            order,
        },
        Function::RouteOfAccount => Inputs::AccountRoute {
            engines,
            hauled,
            orders,
        },
        Function::HoldsTheSpeed => {
            let (front, back) = draft.hauled.split_at(draft.hauled.len() / 2);
            Inputs::Portions {
                front: [engines, bytes(front)].concat(),
                back: bytes(back),
            }
        }
        Function::Join => unreachable!("joining reads no vehicles"),
    };
    let (room, fill) = (130, 0x3c);
    Call { inputs, room, fill }
}

#[cfg(test)]
mod tests {
    use super::*;

    #[test]
    fn one_last_digit_of_ten_closes_a_stem() {
        let mut random = Random::new(12);
        for _ in 0..2_000 {
            let stem = stem(&mut random);
            let good: Vec<u64> = (10 * stem..10 * stem + 10)
                .filter(|&one| is_number(one))
                .collect();
            assert_eq!(good, [closed(stem)]);
        }
    }

    #[test]
    fn the_ends_are_as_they_say() {
        for (number, good) in ENDS {
            assert_eq!(is_number(number), good, "{number}");
        }
    }

    #[test]
    fn digits_are_changed_and_exchanged_where_they_stand() {
        assert_eq!(changed(218_124_712_173, 1, 9), 918_124_712_173);
        assert_eq!(changed(218_124_712_173, 12, 0), 218_124_712_170);
        assert_eq!(exchanged(218_124_712_173, 1), 128_124_712_173);
        assert_eq!(exchanged(218_124_712_173, 11), 218_124_712_137);
        assert_eq!(exchanged(18, 10), 108);
    }
}
