//! The vehicle record, 24 bytes.

use std::ops::RangeInclusive;

pub const WAGON: u8 = 0;
pub const HAULED_ENGINE: u8 = 1;
pub const WORKING_ENGINE: u8 = 2;

pub const ISOLATED: u8 = 0;
pub const SET_TO_M: u8 = 1;
pub const SET_TO_V: u8 = 2;
pub const SET_TO_R: u8 = 3;

pub const VEHICLE: usize = 24;

/// The most records that a train may have.
pub const MOST_RECORDS: usize = 200;

pub type Record = [u8; VEHICLE];

/// A record's fields as they stand in its bytes, good or not.
#[derive(Clone, Copy, Debug, PartialEq, Eq)]
pub struct Vehicle {
    pub number: u64,
    pub mass: u16,
    pub braked_v: u16,
    pub braked_m: u16,
    pub length: u16,
    pub axles: u8,
    pub kind: u8,
    pub setting: u8,
    pub joined: u8,
    pub speed: u8,
    pub matrossow: u8,
    pub d_load: u8,
    pub zero: u8,
}

impl Vehicle {
    pub fn read(record: &Record) -> Vehicle {
        let short = |at: usize| u16::from_le_bytes([record[at], record[at + 1]]);
        let mut number = [0; 8];
        number.copy_from_slice(&record[..8]);
        Vehicle {
            number: u64::from_le_bytes(number),
            mass: short(8),
            braked_v: short(10),
            braked_m: short(12),
            length: short(14),
            axles: record[16],
            kind: record[17],
            setting: record[18],
            joined: record[19],
            speed: record[20],
            matrossow: record[21],
            d_load: record[22],
            zero: record[23],
        }
    }

    pub fn write(&self) -> Record {
        let mut record = [0; VEHICLE];
        record[..8].copy_from_slice(&self.number.to_le_bytes());
        record[8..10].copy_from_slice(&self.mass.to_le_bytes());
        record[10..12].copy_from_slice(&self.braked_v.to_le_bytes());
        record[12..14].copy_from_slice(&self.braked_m.to_le_bytes());
        record[14..16].copy_from_slice(&self.length.to_le_bytes());
        record[16] = self.axles;
        record[17] = self.kind;
        record[18] = self.setting;
        record[19] = self.joined;
        record[20] = self.speed;
        record[21] = self.matrossow;
        record[22] = self.d_load;
        record[23] = self.zero;
        record
    }

    /// Every field is within its range.
    pub fn is_good(&self) -> bool {
        is_number(self.number)
            && (1..=2_500).contains(&self.mass)
            && self.braked_v <= 2_500
            && self.braked_m <= 2_500
            && (1..=1_000).contains(&self.length)
            && (1..=24).contains(&self.axles)
            && self.kind <= WORKING_ENGINE
            && self.setting <= SET_TO_R
            && self.joined <= 1
            && (1..=200).contains(&self.speed)
            && self.matrossow <= 1
            && self.d_load <= 1
            && self.zero == 0
    }
}

/// A vehicle number is counted with leading zeros to so many digits.
pub const DIGITS: usize = 12;

/// The ends of a vehicle number.
pub const NUMBERS: RangeInclusive<u64> = 1..=999_999_999_999;

/// A vehicle number in its range: between those ends, and its digits' sum closes to a multiple of ten.
pub fn is_number(number: u64) -> bool {
    NUMBERS.contains(&number) && closes(number)
}

/// The digits' sum is a multiple of ten, whatever the range.
pub fn closes(number: u64) -> bool {
    digit_sum(number).is_multiple_of(10)
}

/// The sum of the twelve digits, those in odd places from the left being doubled first and their digits added.
pub fn digit_sum(number: u64) -> u64 {
    let mut sum = 0;
    for (place, digit) in (1..).zip(digits(number)) {
        sum += match place % 2 {
            1 => doubled(digit),
            _ => digit,
        };
    }
    sum
}

/// Twice a digit, its own digits added: 7 gives 14, so 5.
fn doubled(digit: u64) -> u64 {
    let double = 2 * digit;
    double / 10 + double % 10
}

/// The last twelve digits of a number, from the left.
pub fn digits(number: u64) -> [u64; DIGITS] {
    let mut digits = [0; DIGITS];
    let mut rest = number;
    for digit in digits.iter_mut().rev() {
        *digit = rest % 10;
        rest /= 10;
    }
    digits
}

/// The place of the first record with a field out of range.
pub fn first_bad(records: &[Record]) -> Option<usize> {
    records
        .iter()
        .position(|record| !Vehicle::read(record).is_good())
}

pub fn is_working(record: &Record) -> bool {
    Vehicle::read(record).kind == WORKING_ENGINE
}

#[cfg(test)]
mod tests {
    use super::*;

    #[test]
    fn fields_keep_their_bytes() {
        let record: Record = std::array::from_fn(|at| at as u8 + 1);
        assert_eq!(Vehicle::read(&record).write(), record);
    }

    /// 2, 8, 2, 7, 2, 7 in odd places give 4, 7, 4, 5, 4, 5, which are 29; 1, 1, 4, 1, 1, 3 in even ones are 11.
    #[test]
    fn the_number_21_81_2471_217_3_closes() {
        assert_eq!(digit_sum(218_124_712_173), 29 + 11);
        assert!(is_number(218_124_712_173));
    }

    /// The digit before the last stands in place 11 and is doubled: 1 gives 2, which 8 closes; 5 gives 1, which 9 does.
    #[test]
    fn the_least_that_close_are_those_of_case_a() {
        let least = (0..=117).filter(|&number| is_number(number));
        let case_a = [18, 26, 34, 42, 59, 67, 75, 83, 91, 109, 117];
        assert!(least.eq(case_a));
    }

    #[test]
    fn a_number_s_range_stays() {
        // 0 closes, and so do the last twelve digits of the others.
        for number in [0, 1_000_000_000_000, 1_218_124_712_173, 5_000_000_000_018] {
            assert_eq!(digit_sum(number) % 10, 0, "{number}");
            assert!(!is_number(number), "{number}");
        }
        // Six nines doubled are 9 each again, so twelve of them give 108; 1 for the last brings 100.
        assert!(!is_number(999_999_999_999));
        assert!(is_number(999_999_999_991));
        assert!((999_999_999_992..=u64::MAX)
            .step_by(1 << 40)
            .all(|above| !is_number(above)));
    }
}
