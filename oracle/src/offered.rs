//! Accounts as they are offered: every figure about its ceiling and far above it, every mark, setting, unused byte and length.

use std::fmt::Write;

use crate::account::{Account, ACCOUNT};
use crate::call::{Call, Function, Inputs};
use crate::gen::accounts::{FIGURES, UNUSED};
use crate::gen::damage::Span;

/// Lengths of an account that is read, and of the room for one that is written.
pub const LENGTHS: [usize; 6] = [0, 63, 64, 127, 128, 129];

/// What an account can be offered with, everything else in it being good.
#[derive(Clone, Copy, Debug, PartialEq, Eq)]
pub enum Probe {
    /// A figure, mark or setting, by its place in the table, with a value.
    Figure(usize, u64),
    /// An unused byte that is not 0.
    Unused(usize),
    Length(usize),
}

/// The values that are tried in a figure, a mark or a setting.
fn values(span: &Span) -> Vec<u64> {
    match (span.width, span.high) {
        (1, 1) => vec![0, 1, 2, 255],
        (1, _) => vec![4, 5, 255],
        (_, high) => {
            let far = [255, 256, 65_535, 65_536, 1 << 31, u64::from(u32::MAX)];
            [&[high - 1, high, high + 1], &far[..]].concat()
        }
    }
}

/// Every probe, in the order in which they are counted.
pub fn probes() -> Vec<Probe> {
    let mut probes = vec![];
    for (place, span) in FIGURES.iter().enumerate() {
        probes.extend(
            values(span)
                .into_iter()
                .map(|value| Probe::Figure(place, value)),
        );
    }
    probes.extend((UNUSED..ACCOUNT).map(Probe::Unused));
    probes.extend(LENGTHS.map(Probe::Length));
    probes
}

impl Probe {
    /// Puts it into a good account.
    pub fn put(self, account: &mut Vec<u8>, other_than_0: u8) {
        match self {
            Probe::Figure(place, value) => FIGURES[place].write(account, value),
            Probe::Unused(at) => account[at] = other_than_0,
            Probe::Length(length) => account.resize(length, 0),
        }
    }

    fn is_in(self, account: &[u8]) -> bool {
        match self {
            Probe::Length(length) => account.len() == length,
            _ if account.len() != ACCOUNT => false,
            Probe::Figure(place, value) => FIGURES[place].read(account) == value,
            Probe::Unused(at) => account[at] != 0,
        }
    }

    /// The account has it, and would be good with 0 in its place.
    fn stands_alone_in(self, account: &[u8]) -> bool {
        if !self.is_in(account) {
            return false;
        }
        let mut rest = account.to_vec();
        match self {
            Probe::Figure(place, _) => FIGURES[place].write(&mut rest, 0),
            Probe::Unused(at) => rest[at] = 0,
            Probe::Length(_) => rest.resize(ACCOUNT, 0),
        }
        Account::read(&rest).is_some()
    }

    fn kind(self) -> &'static str {
        match self {
            Probe::Figure(place, _) => match FIGURES[place] {
                Span {
                    width: 1, high: 1, ..
                } => "marks",
                Span { width: 1, .. } => "settings",
                _ => "figures",
            },
            Probe::Unused(_) => "unused bytes",
            Probe::Length(_) => "lengths",
        }
    }

    fn name(self) -> String {
        match self {
            Probe::Figure(place, value) => format!("{value} from byte {}", FIGURES[place].at),
            Probe::Unused(at) => format!("unused byte {at}"),
            Probe::Length(length) => format!("{length} bytes"),
        }
    }
}

const KINDS: [&str; 5] = ["figures", "marks", "settings", "unused bytes", "lengths"];

/// The accounts that a call is offered, and the functions that lend room for one.
const OFFERED: [&str; 4] = [
    "join, left",
    "join, right",
    "sheet_of_account",
    "route_of_account",
];
const LENT: [Function; 2] = [Function::AccountOf, Function::Join];

#[derive(Clone)]
pub struct Offered {
    probes: Vec<Probe>,
    counts: [Vec<u64>; 4],
    rooms: [[u64; LENGTHS.len()]; 2],
}

impl Default for Offered {
    fn default() -> Offered {
        let probes = probes();
        let none = vec![0; probes.len()];
        Offered {
            probes,
            counts: std::array::from_fn(|_| none.clone()),
            rooms: Default::default(),
        }
    }
}

impl Offered {
    /// Counts what stands alone: no earlier refusal applies, and the other account is good.
    pub fn note(&mut self, call: &Call, refusals: &[u8]) {
        match &call.inputs {
            Inputs::Accounts { left, right } => {
                for (offered, account, other) in [(0, left, right), (1, right, left)] {
                    if Account::read(other).is_some() {
                        self.note_account(offered, account);
                    }
                }
            }
            Inputs::Engines { hauled, .. } if !refusals.contains(&1) => {
                self.note_account(2, hauled)
            }
            Inputs::AccountRoute { hauled, .. } if !refusals.contains(&1) => {
                self.note_account(3, hauled)
            }
            _ => {}
        }
        if refusals.iter().all(|&one| one == 5) {
            self.note_room(call);
        }
    }

    fn note_room(&mut self, call: &Call) {
        let lent = LENT.iter().position(|&one| one == call.function());
        let length = LENGTHS.iter().position(|&one| one == call.room);
        if let (Some(lent), Some(length)) = (lent, length) {
            self.rooms[lent][length] += 1;
        }
    }

    fn note_account(&mut self, offered: usize, account: &[u8]) {
        for (count, probe) in self.counts[offered].iter_mut().zip(&self.probes) {
            *count += u64::from(probe.stands_alone_in(account));
        }
    }

    pub fn add(&mut self, other: &Offered) {
        let ours = self.counts.iter_mut().flatten();
        for (count, more) in ours.zip(other.counts.iter().flatten()) {
            *count += more;
        }
        let ours = self.rooms.as_flattened_mut().iter_mut();
        for (count, more) in ours.zip(other.rooms.as_flattened()) {
            *count += more;
        }
    }

    pub fn missing(&self) -> Vec<String> {
        let mut missing = vec![];
        for (name, counts) in OFFERED.iter().zip(&self.counts) {
            for (probe, _) in self
                .probes
                .iter()
                .zip(counts)
                .filter(|(_, &count)| count == 0)
            {
                missing.push(format!("account of {name}: {}", probe.name()));
            }
        }
        for (function, rooms) in LENT.iter().zip(&self.rooms) {
            for (length, _) in LENGTHS.iter().zip(rooms).filter(|(_, &count)| count == 0) {
                missing.push(format!("{} with room for {length} bytes", function.name()));
            }
        }
        missing
    }

    /// For each kind how many different ones there are, how often they came and how often the rarest.
    pub fn table(&self) -> String {
        let mut text = String::from(
            "accounts offered, good but for one thing: how many such, all, the rarest\n",
        );
        for kind in KINDS {
            let _ = write!(text, "  {kind:<13}");
            for (name, counts) in OFFERED.iter().zip(&self.counts) {
                let of_kind = self.probes.iter().zip(counts);
                let of_kind = of_kind.filter(|(probe, _)| probe.kind() == kind);
                let of_kind: Vec<u64> = of_kind.map(|(_, &count)| count).collect();
                let all: u64 = of_kind.iter().sum();
                let rarest = of_kind.iter().min().copied().unwrap_or(0);
                let _ = write!(text, "  {name}: {} {all} {rarest}", of_kind.len());
            }
            text.push('\n');
        }
        text += "room lent for an account, nothing else refused\n";
        for (function, rooms) in LENT.iter().zip(&self.rooms) {
            let row = LENGTHS.iter().zip(rooms);
            let row = row.map(|(length, count)| format!("{length}: {count}"));
            let _ = writeln!(
                text,
                "  {:<17} {}",
                function.name(),
                row.collect::<Vec<_>>().join("  ")
            );
        }
        text
    }
}

#[cfg(test)]
mod tests {
    use super::*;

    #[test]
    fn every_value_and_byte_is_tried() {
        let probes = probes();
        let of = |kind| probes.iter().filter(|probe| probe.kind() == kind).count();
        assert_eq!(KINDS.map(of), [18 * 9, 5 * 4, 5 * 3, 46, 6]);
    }

    #[test]
    fn a_probe_is_refused_exactly_when_it_is_above_its_ceiling() {
        for probe in probes() {
            let mut account = Account::EMPTY.write().to_vec();
            probe.put(&mut account, 1);
            let good = match probe {
                Probe::Figure(place, value) => value <= FIGURES[place].high,
                Probe::Unused(_) => false,
                Probe::Length(length) => length == ACCOUNT,
            };
            assert_eq!(Account::read(&account).is_some(), good, "{}", probe.name());
            assert!(probe.stands_alone_in(&account), "{}", probe.name());
        }
    }
}
