//! A train being drawn up: vehicles and order with their fields still open to change.

use super::numbers::closed;
use crate::call::Inputs;
use crate::facts::Facts;
use crate::order::Order;
use crate::vehicle::{Record, Vehicle};

#[derive(Clone, Debug)]
pub struct Draft {
    pub working: Vec<Vehicle>,
    pub hauled: Vec<Vehicle>,
    pub order: Order,
}

impl Draft {
    pub fn vehicles(&self) -> Vec<u8> {
        bytes(self.working.iter().chain(&self.hauled))
    }

    /// The input of SHEET: the order, then the vehicles.
    pub fn input(&self) -> Vec<u8> {
        let mut input = self.order.write().to_vec();
        input.extend(self.vehicles());
        input
    }

    /// For the sheet of the whole train.
    pub fn of_train(&self) -> Inputs {
        Inputs::Train {
            vehicles: self.vehicles(),
            order: self.order.write().to_vec(),
        }
    }

    /// For the sheet of its engines with an account.
    pub fn of_account(&self, hauled: Vec<u8>) -> Inputs {
        Inputs::Engines {
            engines: bytes(&self.working),
            hauled,
            order: self.order.write().to_vec(),
        }
    }

    pub fn facts(&self) -> Facts {
        Facts::of_train(&records(&self.working), &records(&self.hauled))
    }

    /// Gives the vehicles, from the head, the least numbers that close.
    pub fn renumber(&mut self) {
        for (vehicle, stem) in self.working.iter_mut().chain(&mut self.hauled).zip(1..) {
            vehicle.number = closed(stem);
        }
    }
}

pub fn bytes<'a>(vehicles: impl IntoIterator<Item = &'a Vehicle>) -> Vec<u8> {
    vehicles.into_iter().flat_map(Vehicle::write).collect()
}

fn records(vehicles: &[Vehicle]) -> Vec<Record> {
    vehicles.iter().map(Vehicle::write).collect()
}

/// One number of a vehicle, with its range.
#[derive(Clone, Copy)]
pub struct Field {
    pub get: fn(&Vehicle) -> i64,
    pub set: fn(&mut Vehicle, i64),
    pub low: i64,
    pub high: i64,
}

pub const MASS: Field = Field {
    get: |vehicle| i64::from(vehicle.mass),
    set: |vehicle, value| vehicle.mass = value as u16,
    low: 1,
    high: 2_500,
};

pub const BRAKED_V: Field = Field {
    get: |vehicle| i64::from(vehicle.braked_v),
    set: |vehicle, value| vehicle.braked_v = value as u16,
    low: 0,
    high: 2_500,
};

pub const BRAKED_M: Field = Field {
    get: |vehicle| i64::from(vehicle.braked_m),
    set: |vehicle, value| vehicle.braked_m = value as u16,
    low: 0,
    high: 2_500,
};

pub const LENGTH: Field = Field {
    get: |vehicle| i64::from(vehicle.length),
    set: |vehicle, value| vehicle.length = value as u16,
    low: 1,
    high: 1_000,
};

pub const AXLES: Field = Field {
    get: |vehicle| i64::from(vehicle.axles),
    set: |vehicle, value| vehicle.axles = value as u8,
    low: 1,
    high: 24,
};

/// Brings the sum of a field to a target, evenly, as near as the ranges let it.
pub fn aim<'a>(vehicles: impl IntoIterator<Item = &'a mut Vehicle>, field: Field, target: i64) {
    let mut vehicles: Vec<&mut Vehicle> = vehicles.into_iter().collect();
    let sum: i64 = vehicles.iter().map(|vehicle| (field.get)(vehicle)).sum();
    let mut missing = target - sum;
    // The second round spends what the ranges held back in the first.
    for _ in 0..2 {
        let mut left = vehicles.len() as i64;
        for vehicle in &mut vehicles {
            let old = (field.get)(vehicle);
            let new = (old + missing / left).clamp(field.low, field.high);
            (field.set)(vehicle, new);
            missing -= new - old;
            left -= 1;
        }
    }
}
