//! What rules and sheet ask of a train, found over its records or over engines and an account.

use crate::account::{breaks_rule_18, Account};
use crate::category::deduction;
use crate::vehicle::{
    Record, Vehicle, HAULED_ENGINE, ISOLATED, SET_TO_M, SET_TO_R, SET_TO_V, WAGON,
};

#[derive(Clone, Copy, Debug, PartialEq, Eq)]
pub struct Facts {
    pub hauled_mass: u32,
    pub train_mass: u32,
    pub hauled_length: u32,
    /// Of hauled records set to V: k counts it.
    pub hauled_length_v: u32,
    /// The percent that are deducted in categories 1 to 3.
    pub k: i64,
    pub train_length: u32,
    pub axles: u32,
    pub axles_v: u32,
    pub braked_v: u32,
    pub braked_m: u32,
    /// M masses of engines set to M, working and hauled.
    pub engines_m: u32,
    /// V masses of wagons set to M.
    pub wagons_v: u32,
    pub engines: u32,
    pub wagons: i64,
    pub d_loads: u32,
    pub isolated: u32,
    pub longest_run: u32,
    pub slowest: u8,
    pub slowest_hauled: u8,
    pub slowest_working: u8,
    pub engine_behind_wagon: bool,
    pub some_in_r: bool,
    pub some_unjoined: bool,
    pub some_matrossow: bool,
    pub first_isolated: bool,
    pub last_isolated: bool,
    pub hauled_in_m: bool,
    pub worker_not_in_m: bool,
    pub v_in_first_five: bool,
    pub m_after_fifth: bool,
    pub hauled_engine_not_in_m: bool,
    /// Braked as a long locomotive (1403.2): each working engine in M, and none of the first five hauled in V or R.
    pub long: bool,
}

impl Facts {
    const NONE: Facts = Facts {
        hauled_mass: 0,
        train_mass: 0,
        hauled_length: 0,
        hauled_length_v: 0,
        k: 0,
        train_length: 0,
        axles: 0,
        axles_v: 0,
        braked_v: 0,
        braked_m: 0,
        engines_m: 0,
        wagons_v: 0,
        engines: 0,
        wagons: 0,
        d_loads: 0,
        isolated: 0,
        longest_run: 0,
        slowest: u8::MAX,
        slowest_hauled: u8::MAX,
        slowest_working: u8::MAX,
        engine_behind_wagon: false,
        some_in_r: false,
        some_unjoined: false,
        some_matrossow: false,
        first_isolated: false,
        last_isolated: false,
        hauled_in_m: false,
        worker_not_in_m: false,
        v_in_first_five: false,
        m_after_fifth: false,
        hauled_engine_not_in_m: false,
        long: false,
    };

    /// Over the good records of a train.
    pub fn of_train(working: &[Record], hauled: &[Record]) -> Facts {
        let mut facts = Facts::of_working(working);
        facts.long = !facts.worker_not_in_m;
        let mut run = 0;
        for (place, record) in hauled.iter().enumerate() {
            let vehicle = Vehicle::read(record);
            facts.add(&vehicle);
            facts.add_hauled(&vehicle);
            let isolated = vehicle.setting == ISOLATED;
            run = if isolated { run + 1 } else { 0 };
            facts.longest_run = facts.longest_run.max(run);
            facts.first_isolated |= isolated && place == 0;
            facts.last_isolated = isolated;
            facts.hauled_in_m |= vehicle.setting == SET_TO_M;
            facts.v_in_first_five |= vehicle.setting == SET_TO_V && place < 5;
            facts.m_after_fifth |= vehicle.setting == SET_TO_M && place >= 5;
            facts.long &= place >= 5 || [SET_TO_M, ISOLATED].contains(&vehicle.setting);
        }
        facts.k = deduction(facts.hauled_length_v);
        facts
    }

    /// Over good working engines and an account within its ceilings, as the page judges by figures.
    pub fn of_account(working: &[Record], hauled: &Account) -> Facts {
        let engines = Facts::of_working(working);
        let first_in = |setting| hauled.first.iter().filter(|&&one| one == setting).count() as u32;
        Facts {
            hauled_mass: hauled.mass,
            train_mass: engines.train_mass + hauled.mass,
            hauled_length: hauled.length,
            hauled_length_v: hauled.length_v,
            k: deduction(hauled.length_v),
            train_length: engines.train_length + hauled.length,
            axles: engines.axles + hauled.axles,
            axles_v: engines.axles_v + hauled.axles_v,
            braked_v: engines.braked_v + hauled.braked_v,
            braked_m: engines.braked_m + hauled.braked_m,
            engines_m: engines.engines_m + hauled.engines_m,
            wagons_v: hauled.wagons_v,
            engines: engines.engines + hauled.engines,
            // Below 0 in accounts that no list has.
            wagons: i64::from(hauled.count) - i64::from(hauled.engines),
            d_loads: engines.d_loads + hauled.d_loads,
            isolated: engines.isolated + hauled.isolated,
            longest_run: hauled.longest,
            // Its ceiling is 200.
            slowest: engines.slowest.min(hauled.slowest as u8),
            slowest_hauled: hauled.slowest as u8,
            slowest_working: engines.slowest_working,
            engine_behind_wagon: hauled.engine_behind_wagon,
            some_in_r: engines.some_in_r || hauled.rule_16,
            some_unjoined: engines.some_unjoined || hauled.rule_17,
            some_matrossow: hauled.rule_18,
            first_isolated: hauled.leading > 0,
            last_isolated: hauled.trailing > 0,
            hauled_in_m: hauled.set_to_m > 0,
            worker_not_in_m: engines.worker_not_in_m,
            v_in_first_five: first_in(SET_TO_V) > 0,
            m_after_fifth: hauled.set_to_m > first_in(SET_TO_M),
            hauled_engine_not_in_m: hauled.engine_not_in_m,
            long: !engines.worker_not_in_m && first_in(SET_TO_V) + first_in(SET_TO_R) == 0,
        }
    }

    /// Over the working engines alone.
    fn of_working(working: &[Record]) -> Facts {
        let mut facts = Facts::NONE;
        for record in working {
            let engine = Vehicle::read(record);
            facts.add(&engine);
            facts.engines += 1;
            facts.worker_not_in_m |= engine.setting != SET_TO_M;
            facts.slowest_working = facts.slowest_working.min(engine.speed);
        }
        facts
    }

    /// What a hauled record adds besides, wherever it stands.
    fn add_hauled(&mut self, vehicle: &Vehicle) {
        self.hauled_mass += u32::from(vehicle.mass);
        self.hauled_length += u32::from(vehicle.length);
        if vehicle.setting == SET_TO_V {
            self.hauled_length_v += u32::from(vehicle.length);
        }
        if vehicle.kind == HAULED_ENGINE {
            self.engines += 1;
            self.engine_behind_wagon |= self.wagons > 0;
            self.hauled_engine_not_in_m |= vehicle.setting != SET_TO_M;
        } else {
            self.wagons += 1;
        }
        self.some_matrossow |= breaks_rule_18(vehicle);
        self.slowest_hauled = self.slowest_hauled.min(vehicle.speed);
    }

    /// What any record of the train adds.
    fn add(&mut self, vehicle: &Vehicle) {
        self.train_mass += u32::from(vehicle.mass);
        self.train_length += u32::from(vehicle.length);
        self.axles += u32::from(vehicle.axles);
        match vehicle.setting {
            SET_TO_V => {
                self.braked_v += u32::from(vehicle.braked_v);
                self.axles_v += u32::from(vehicle.axles);
            }
            SET_TO_M => self.add_in_m(vehicle),
            SET_TO_R => self.some_in_r = true,
            _ => self.isolated += 1,
        }
        self.some_unjoined |= vehicle.joined == 0;
        self.d_loads += u32::from(vehicle.d_load);
        self.slowest = self.slowest.min(vehicle.speed);
    }
    /// A record set to M: of a wagon the domestic book counts the V mass too.
    fn add_in_m(&mut self, vehicle: &Vehicle) {
        self.braked_m += u32::from(vehicle.braked_m);
        match vehicle.kind {
            WAGON => self.wagons_v += u32::from(vehicle.braked_v),
            _ => self.engines_m += u32::from(vehicle.braked_m),
        }
    }
}
