//! The account of hauled records in order, and joining.

use crate::answer::{demand, Refusal};
use crate::vehicle::{
    Record, Vehicle, HAULED_ENGINE, ISOLATED, SET_TO_M, SET_TO_R, SET_TO_V, WAGON,
};

pub const ACCOUNT: usize = 128;

/// The setting that stands where there is no vehicle.
pub const NO_SETTING: u8 = 4;

#[derive(Clone, Copy, Debug, PartialEq, Eq)]
pub struct Account {
    pub count: u32,
    pub mass: u32,
    pub braked_v: u32,
    pub braked_m: u32,
    pub length: u32,
    pub axles: u32,
    pub axles_v: u32,
    pub engines: u32,
    pub set_to_m: u32,
    pub isolated: u32,
    pub d_loads: u32,
    pub leading: u32,
    pub trailing: u32,
    pub longest: u32,
    pub engine_behind_wagon: bool,
    pub rule_16: bool,
    pub rule_17: bool,
    pub rule_18: bool,
    pub slowest: u32,
    pub first: [u8; 5],
    /// Of records set to V, for the length deduction.
    pub length_v: u32,
    /// M masses of hauled engines set to M.
    pub engines_m: u32,
    /// V masses of wagons set to M.
    pub wagons_v: u32,
    /// A hauled engine is not set to M.
    pub engine_not_in_m: bool,
}

impl Account {
    pub const EMPTY: Account = Account {
        count: 0,
        mass: 0,
        braked_v: 0,
        braked_m: 0,
        length: 0,
        axles: 0,
        axles_v: 0,
        engines: 0,
        set_to_m: 0,
        isolated: 0,
        d_loads: 0,
        leading: 0,
        trailing: 0,
        longest: 0,
        engine_behind_wagon: false,
        rule_16: false,
        rule_17: false,
        rule_18: false,
        slowest: 200,
        first: [NO_SETTING; 5],
        length_v: 0,
        engines_m: 0,
        wagons_v: 0,
        engine_not_in_m: false,
    };

    /// The account of good hauled records.
    pub fn of(hauled: &[Record]) -> Account {
        let mut account = Account::EMPTY;
        let mut run = 0;
        for (record, place) in hauled.iter().zip(1..) {
            let vehicle = Vehicle::read(record);
            account.count_in(&vehicle);
            run = if vehicle.setting == ISOLATED {
                run + 1
            } else {
                0
            };
            account.longest = account.longest.max(run);
            if run == place {
                account.leading = run;
            }
        }
        account.trailing = run;
        for (first, record) in account.first.iter_mut().zip(hauled) {
            *first = Vehicle::read(record).setting;
        }
        account
    }

    /// What one more record behind the others adds, its place in a run apart.
    fn count_in(&mut self, vehicle: &Vehicle) {
        let wagon_before = self.count > self.engines;
        self.count += 1;
        self.mass += u32::from(vehicle.mass);
        self.length += u32::from(vehicle.length);
        self.axles += u32::from(vehicle.axles);
        match vehicle.setting {
            SET_TO_V => {
                self.braked_v += u32::from(vehicle.braked_v);
                self.axles_v += u32::from(vehicle.axles);
                self.length_v += u32::from(vehicle.length);
            }
            SET_TO_M => self.count_in_m(vehicle),
            SET_TO_R => self.rule_16 = true,
            _ => self.isolated += 1,
        }
        if vehicle.kind == HAULED_ENGINE {
            self.engines += 1;
            self.engine_behind_wagon |= wagon_before;
            self.engine_not_in_m |= vehicle.setting != SET_TO_M;
        }
        self.d_loads += u32::from(vehicle.d_load);
        self.rule_17 |= vehicle.joined == 0;
        self.rule_18 |= breaks_rule_18(vehicle);
        self.slowest = self.slowest.min(u32::from(vehicle.speed));
    }

    /// What a record set to M adds besides.
    fn count_in_m(&mut self, vehicle: &Vehicle) {
        self.set_to_m += 1;
        self.braked_m += u32::from(vehicle.braked_m);
        if vehicle.kind == HAULED_ENGINE {
            self.engines_m += u32::from(vehicle.braked_m);
        } else {
            self.wagons_v += u32::from(vehicle.braked_v);
        }
    }

    /// The account of two neighbours, the front one `self`; refusal 2 where a figure passes its ceiling.
    pub fn join(&self, right: &Account) -> Result<Account, Refusal> {
        let joined = Account {
            count: self.count + right.count,
            mass: self.mass + right.mass,
            braked_v: self.braked_v + right.braked_v,
            braked_m: self.braked_m + right.braked_m,
            length: self.length + right.length,
            axles: self.axles + right.axles,
            axles_v: self.axles_v + right.axles_v,
            engines: self.engines + right.engines,
            set_to_m: self.set_to_m + right.set_to_m,
            isolated: self.isolated + right.isolated,
            d_loads: self.d_loads + right.d_loads,
            leading: run_onward(self.leading, self.count, right.leading),
            trailing: run_onward(right.trailing, right.count, self.trailing),
            longest: (self.longest.max(right.longest)).max(self.trailing + right.leading),
            engine_behind_wagon: self.engine_behind_wagon
                || right.engine_behind_wagon
                || (self.count > self.engines && right.engines > 0),
            rule_16: self.rule_16 || right.rule_16,
            rule_17: self.rule_17 || right.rule_17,
            rule_18: self.rule_18 || right.rule_18,
            slowest: self.slowest.min(right.slowest),
            first: first_settings(self, right),
            length_v: self.length_v + right.length_v,
            engines_m: self.engines_m + right.engines_m,
            wagons_v: self.wagons_v + right.wagons_v,
            engine_not_in_m: self.engine_not_in_m || right.engine_not_in_m,
        };
        demand(joined.is_within(), 2)?;
        Ok(joined)
    }

    /// Every figure is at most its ceiling.
    pub fn is_within(&self) -> bool {
        let hundreds = [
            self.count,
            self.engines,
            self.set_to_m,
            self.isolated,
            self.d_loads,
            self.leading,
            self.trailing,
            self.longest,
            self.slowest,
        ];
        let masses = [
            self.mass,
            self.braked_v,
            self.braked_m,
            self.engines_m,
            self.wagons_v,
        ];
        hundreds.iter().all(|&figure| figure <= 200)
            && masses.iter().all(|&figure| figure <= 500_000)
            && self.length <= 200_000
            && self.axles <= 4_800
            && self.axles_v <= 4_800
            && self.first.iter().all(|&setting| setting <= NO_SETTING)
            && self.length_v <= 200_000
    }

    /// None where the bytes are no account or a figure is above its ceiling (refusal 7).
    pub fn read(bytes: &[u8]) -> Option<Account> {
        let bytes: &[u8; ACCOUNT] = bytes.try_into().ok()?;
        let figure = |at: usize| {
            u32::from_le_bytes([bytes[at], bytes[at + 1], bytes[at + 2], bytes[at + 3]])
        };
        let account = Account {
            count: figure(0),
            mass: figure(4),
            braked_v: figure(8),
            braked_m: figure(12),
            length: figure(16),
            axles: figure(20),
            axles_v: figure(24),
            engines: figure(28),
            set_to_m: figure(32),
            isolated: figure(36),
            d_loads: figure(40),
            leading: figure(44),
            trailing: figure(48),
            longest: figure(52),
            engine_behind_wagon: bytes[56] == 1,
            rule_16: bytes[57] == 1,
            rule_17: bytes[58] == 1,
            rule_18: bytes[59] == 1,
            slowest: figure(60),
            first: [bytes[64], bytes[65], bytes[66], bytes[67], bytes[68]],
            length_v: figure(69),
            engines_m: figure(73),
            wagons_v: figure(77),
            engine_not_in_m: bytes[81] == 1,
        };
        let marks = bytes[56..60].iter().all(|&mark| mark <= 1) && bytes[81] <= 1;
        let unused = bytes[82..].iter().all(|&byte| byte == 0);
        (marks && unused && account.is_within()).then_some(account)
    }

    /// The 128 bytes of an account: a figure above its ceiling keeps its value.
    pub fn write(&self) -> [u8; ACCOUNT] {
        let mut bytes = [0; ACCOUNT];
        let figures = [
            self.count,
            self.mass,
            self.braked_v,
            self.braked_m,
            self.length,
            self.axles,
            self.axles_v,
            self.engines,
            self.set_to_m,
            self.isolated,
            self.d_loads,
            self.leading,
            self.trailing,
            self.longest,
        ];
        for (place, figure) in bytes.chunks_exact_mut(4).zip(figures) {
            place.copy_from_slice(&figure.to_le_bytes());
        }
        bytes[56] = u8::from(self.engine_behind_wagon);
        bytes[57] = u8::from(self.rule_16);
        bytes[58] = u8::from(self.rule_17);
        bytes[59] = u8::from(self.rule_18);
        bytes[60..64].copy_from_slice(&self.slowest.to_le_bytes());
        bytes[64..69].copy_from_slice(&self.first);
        bytes[69..73].copy_from_slice(&self.length_v.to_le_bytes());
        bytes[73..77].copy_from_slice(&self.engines_m.to_le_bytes());
        bytes[77..81].copy_from_slice(&self.wagons_v.to_le_bytes());
        bytes[81] = u8::from(self.engine_not_in_m);
        bytes
    }
}

/// Rule 18: a wagon with byte 21 set that is not isolated (102.7).
pub fn breaks_rule_18(vehicle: &Vehicle) -> bool {
    vehicle.kind == WAGON && vehicle.matrossow == 1 && vehicle.setting != ISOLATED
}

/// A run that fills its own portion goes on into the neighbour.
fn run_onward(run: u32, count: u32, neighbour: u32) -> u32 {
    if run == count {
        run + neighbour
    } else {
        run
    }
}

/// The left's settings as far as its count, then the right's from its first.
fn first_settings(left: &Account, right: &Account) -> [u8; 5] {
    let kept = left.count as usize;
    std::array::from_fn(|place| match place.checked_sub(kept) {
        None => left.first[place],
        Some(behind) => right.first[behind],
    })
}

#[cfg(test)]
mod tests {
    use super::*;

    fn wagon(setting: u8) -> Record {
        let vehicle = Vehicle {
            number: 75,
            mass: 100,
            braked_v: 60,
            braked_m: 50,
            length: 120,
            axles: 2,
            kind: WAGON,
            setting,
            joined: 1,
            speed: 100,
            matrossow: 0,
            d_load: 0,
            zero: 0,
        };
        vehicle.write()
    }

    fn wagons(settings: &[u8]) -> Vec<Record> {
        settings.iter().map(|&setting| wagon(setting)).collect()
    }

    #[test]
    fn a_run_crosses_the_cut() {
        let left = Account::of(&wagons(&[2, 0, 0]));
        let right = Account::of(&wagons(&[0, 0, 0, 1, 0]));
        let joined = left.join(&right).unwrap();
        assert_eq!((joined.leading, joined.trailing, joined.longest), (0, 1, 5));
        assert_eq!(joined.first, [2, 0, 0, 0, 0]);
        assert_eq!(joined, Account::of(&wagons(&[2, 0, 0, 0, 0, 0, 1, 0])));
    }

    #[test]
    fn the_empty_account_changes_nothing() {
        let account = Account::of(&wagons(&[0, 0, 1, 2]));
        assert_eq!(account.join(&Account::EMPTY), Ok(account));
        assert_eq!(Account::EMPTY.join(&account), Ok(account));
    }

    #[test]
    fn a_joined_figure_above_its_ceiling_is_refused() {
        let long = Account::of(&wagons(&[1; 150]));
        assert_eq!(long.join(&long).unwrap_err().number, 2);
        let runs = Account {
            leading: 200,
            trailing: 101,
            ..Account::EMPTY
        };
        assert_eq!(runs.join(&runs).unwrap_err().number, 2);
    }

    /// Each wagon is 12 m long.
    #[test]
    fn the_v_length_is_that_of_records_set_to_v() {
        let account = Account::of(&wagons(&[0, 1, 2, 3, 2, 0]));
        assert_eq!((account.length, account.length_v), (720, 240));
        assert_eq!(account.write()[69..73], [240, 0, 0, 0]);
        let joined = account.join(&Account::of(&wagons(&[2, 1]))).unwrap();
        assert_eq!((joined.length, joined.length_v), (960, 360));
    }

    #[test]
    fn a_v_length_has_the_ceiling_of_a_length() {
        let with = |length_v| Account {
            length_v,
            ..Account::EMPTY
        };
        let joined = with(150_000).join(&with(50_000));
        assert_eq!(joined, Ok(with(200_000)));
        assert_eq!(with(150_001).join(&with(50_000)).unwrap_err().number, 2);
        assert_eq!(Account::read(&with(200_000).write()), Some(with(200_000)));
        assert_eq!(Account::read(&with(200_001).write()), None);
    }

    /// Wagons of V 60 and M 50, engines of V 90 and M 70.
    #[test]
    fn engines_and_wagons_set_to_m_are_told_apart() {
        let engine = |setting| {
            let engine = Vehicle {
                kind: HAULED_ENGINE,
                braked_v: 90,
                braked_m: 70,
                ..Vehicle::read(&wagon(setting))
            };
            engine.write()
        };
        let figures = |records: &[Record]| {
            let account = Account::of(records);
            let Account {
                engines_m,
                wagons_v,
                engine_not_in_m,
                ..
            } = account;
            assert_eq!(account.write()[73..77], engines_m.to_le_bytes());
            assert_eq!(account.write()[77..81], wagons_v.to_le_bytes());
            assert_eq!(account.write()[81], u8::from(engine_not_in_m));
            (engines_m, wagons_v, engine_not_in_m)
        };
        assert_eq!(figures(&[]), (0, 0, false));
        assert_eq!(figures(&wagons(&[0, 1, 2, 3, 1])), (0, 120, false));
        assert_eq!(figures(&[engine(1), engine(1), wagon(1)]), (140, 60, false));
        for setting in [0, 2, 3] {
            let hauled = [engine(1), engine(setting), wagon(1), wagon(2)];
            assert_eq!(figures(&hauled), (70, 60, true), "{setting}");
        }
    }

    #[test]
    fn the_domestic_figures_join_as_sums_and_mark() {
        let with = |engines_m, wagons_v, engine_not_in_m| Account {
            engines_m,
            wagons_v,
            engine_not_in_m,
            ..Account::EMPTY
        };
        let most = with(300_000, 200_000, false).join(&with(200_000, 300_000, true));
        assert_eq!(most, Ok(with(500_000, 500_000, true)));
        for (engines_m, wagons_v) in [(500_001, 0), (0, 500_001)] {
            let past = with(engines_m, wagons_v, false);
            assert_eq!(Account::read(&past.write()), None);
            let one = with(engines_m.min(1), wagons_v.min(1), false);
            let rest = with(
                engines_m.saturating_sub(1),
                wagons_v.saturating_sub(1),
                false,
            );
            assert_eq!(one.join(&rest).unwrap_err().number, 2);
        }
    }

    #[test]
    fn an_account_keeps_its_bytes() {
        let account = Account::of(&wagons(&[0, 1, 2, 3, 1, 2]));
        assert_eq!(Account::read(&account.write()), Some(account));
        assert_eq!(Account::read(&account.write()[..127]), None);
    }

    #[test]
    fn a_figure_above_its_ceiling_is_written_above_it() {
        for count in [201, 255, 256, 65_536, u32::MAX] {
            let account = Account {
                count,
                ..Account::EMPTY
            };
            assert_eq!(account.write()[..4], count.to_le_bytes());
            assert_eq!(Account::read(&account.write()), None);
        }
    }

    #[test]
    fn a_mark_of_2_and_an_unused_byte_are_no_account() {
        for at in (56..60).chain(81..128) {
            let mut bytes = Account::EMPTY.write();
            bytes[at] = 2;
            assert_eq!(Account::read(&bytes), None, "{at}");
        }
    }
}
