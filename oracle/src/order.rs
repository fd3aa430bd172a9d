//! The order record, 24 bytes.

use crate::book::{Book, BOOK};

pub const ORDER: usize = 24;

/// The line's columns from left to right.
pub const ME140: usize = 0;
pub const ME120: usize = 1;
pub const ME100: usize = 2;
pub const MA100: usize = 3;
pub const MA90: usize = 4;
pub const MA80: usize = 5;

#[derive(Clone, Copy, Debug, PartialEq, Eq)]
pub struct Order {
    pub book: Book,
    /// From ME120 on, in bytes 0 to 4.
    pub limits: [u8; 5],
    /// In byte 16; a cross-border order has none.
    pub me140: u8,
    pub asked: u8,
    /// A domestic order has none.
    pub percentage: u8,
    pub coupling: u32,
    pub admissible: u32,
}

impl Order {
    /// None where the length is another or a field is out of range (refusal 4).
    pub fn read(bytes: &[u8]) -> Option<Order> {
        let bytes: &[u8; ORDER] = bytes.try_into().ok()?;
        let long = |at: usize| {
            u32::from_le_bytes([bytes[at], bytes[at + 1], bytes[at + 2], bytes[at + 3]])
        };
        let order = Order {
            book: Book::named(bytes[BOOK])?,
            limits: [bytes[0], bytes[1], bytes[2], bytes[3], bytes[4]],
            me140: bytes[16],
            asked: bytes[5],
            percentage: bytes[6],
            coupling: long(8),
            admissible: long(12),
        };
        let zeros = bytes[17..] == [0; 7];
        (zeros && order.in_range()).then_some(order)
    }

    fn in_range(&self) -> bool {
        let (most_me140, most_percentage) = match self.book {
            Book::CrossBorder => (0, 200),
            Book::Domestic => (200, 0),
        };
        self.limits.iter().all(|&limit| limit <= 200)
            && self.me140 <= most_me140
            && (1..=self.book.last()).contains(&self.asked)
            && self.percentage <= most_percentage
            && (1..=100_000).contains(&self.coupling)
            && (1..=100_000).contains(&self.admissible)
    }

    pub fn write(&self) -> [u8; ORDER] {
        let mut bytes = [0; ORDER];
        bytes[..5].copy_from_slice(&self.limits);
        bytes[5] = self.asked;
        bytes[6] = self.percentage;
        bytes[BOOK] = self.book.byte();
        bytes[8..12].copy_from_slice(&self.coupling.to_le_bytes());
        bytes[12..16].copy_from_slice(&self.admissible.to_le_bytes());
        bytes[16] = self.me140;
        bytes
    }

    /// The limits from left to right; 0 is a missing column.
    pub fn columns(&self) -> [u8; 6] {
        let [me120, me100, ma100, ma90, ma80] = self.limits;
        [self.me140, me120, me100, ma100, ma90, ma80]
    }

    /// The limit of a column, to be changed.
    pub fn column(&mut self, column: usize) -> &mut u8 {
        match column.checked_sub(ME120) {
            None => &mut self.me140,
            Some(place) => &mut self.limits[place],
        }
    }

    /// Gives a column and every one to its right the same limit.
    pub fn fill_from(&mut self, column: usize, limit: u8) {
        for column in column..=MA80 {
            *self.column(column) = limit;
        }
    }

    /// The limit of a column, or of the first not missing to its right (article 1502).
    pub fn line_speed(&self, column: usize) -> Option<u8> {
        let mut columns = self.columns().into_iter().skip(column);
        columns.find(|&limit| limit != 0)
    }
}
