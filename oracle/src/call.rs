//! One call of one function, the same for the model and for the library.

use crate::account::{Account, ACCOUNT};
use crate::book::Book;
use crate::calls;
use crate::facts::Facts;
use crate::line::hex;
use crate::order::ORDER;
use crate::vehicle::{is_working, VEHICLE};

/// Something that has the seven functions.
pub trait Side {
    fn sheet_of_train(&self, vehicles: &[u8], order: &[u8], room: &mut [u8]) -> u64;
    fn account_of(&self, portion: &[u8], room: &mut [u8]) -> u64;
    fn join(&self, left: &[u8], right: &[u8], room: &mut [u8]) -> u64;
    fn sheet_of_account(&self, engines: &[u8], hauled: &[u8], order: &[u8], room: &mut [u8])
        -> u64;
    fn holds_the_speed(&self, front: &[u8], back: &[u8], room: &mut [u8]) -> usize;
    fn route_of_train(&self, vehicles: &[u8], orders: &[u8], room: &mut [u8]) -> u64;
    fn route_of_account(
        &self,
        engines: &[u8],
        hauled: &[u8],
        orders: &[u8],
        room: &mut [u8],
    ) -> u64;
}

/// The model of this crate.
#[derive(Clone, Copy)]
pub struct Model;

impl Side for Model {
    fn sheet_of_train(&self, vehicles: &[u8], order: &[u8], room: &mut [u8]) -> u64 {
        calls::sheet_of_train(vehicles, order, room)
    }

    fn account_of(&self, portion: &[u8], room: &mut [u8]) -> u64 {
        calls::account_of(portion, room)
    }

    fn join(&self, left: &[u8], right: &[u8], room: &mut [u8]) -> u64 {
        calls::join(left, right, room)
    }

    fn sheet_of_account(
        &self,
        engines: &[u8],
        hauled: &[u8],
        order: &[u8],
        room: &mut [u8],
    ) -> u64 {
        calls::sheet_of_account(engines, hauled, order, room)
    }

    fn holds_the_speed(&self, front: &[u8], back: &[u8], room: &mut [u8]) -> usize {
        calls::holds_the_speed(front, back, room)
    }

    fn route_of_train(&self, vehicles: &[u8], orders: &[u8], room: &mut [u8]) -> u64 {
        calls::route_of_train(vehicles, orders, room)
    }

    fn route_of_account(
        &self,
        engines: &[u8],
        hauled: &[u8],
        orders: &[u8],
        room: &mut [u8],
    ) -> u64 {
        calls::route_of_account(engines, hauled, orders, room)
    }
}

#[derive(Clone, Copy, Debug, PartialEq, Eq, PartialOrd, Ord)]
pub enum Function {
    SheetOfTrain,
    AccountOf,
    Join,
    SheetOfAccount,
    HoldsTheSpeed,
    RouteOfTrain,
    RouteOfAccount,
}

pub const FUNCTIONS: [Function; 7] = [
    Function::SheetOfTrain,
    Function::AccountOf,
    Function::Join,
    Function::SheetOfAccount,
    Function::HoldsTheSpeed,
    Function::RouteOfTrain,
    Function::RouteOfAccount,
];

impl Function {
    pub fn name(self) -> &'static str {
        match self {
            Function::SheetOfTrain => "sheet_of_train",
            Function::AccountOf => "account_of",
            Function::Join => "join",
            Function::SheetOfAccount => "sheet_of_account",
            Function::HoldsTheSpeed => "holds_the_speed",
            Function::RouteOfTrain => "route_of_train",
            Function::RouteOfAccount => "route_of_account",
        }
    }

    pub fn is_done(self, answer: u64) -> bool {
        match self {
            Function::HoldsTheSpeed => answer == 24,
            _ => answer.is_multiple_of(256),
        }
    }
}

/// The bytes that a call reads.
#[derive(Clone, Debug)]
pub enum Inputs {
    Train {
        vehicles: Vec<u8>,
        order: Vec<u8>,
    },
    Portion {
        portion: Vec<u8>,
    },
    Accounts {
        left: Vec<u8>,
        right: Vec<u8>,
    },
    Engines {
        engines: Vec<u8>,
        hauled: Vec<u8>,
        order: Vec<u8>,
    },
    Portions {
        front: Vec<u8>,
        back: Vec<u8>,
    },
    TrainRoute {
        vehicles: Vec<u8>,
        orders: Vec<u8>,
    },
    AccountRoute {
        engines: Vec<u8>,
        hauled: Vec<u8>,
        orders: Vec<u8>,
    },
}

impl Inputs {
    /// What a function is lent to read, in its order.
    pub fn parts(&self) -> Vec<(&'static str, &[u8])> {
        match self {
            Inputs::Train { vehicles, order } => vec![("vehicles", vehicles), ("order", order)],
            Inputs::Portion { portion } => vec![("portion", portion)],
            Inputs::Accounts { left, right } => vec![("left", left), ("right", right)],
            Inputs::Engines {
                engines,
                hauled,
                order,
            } => vec![("engines", engines), ("hauled", hauled), ("order", order)],
            Inputs::Portions { front, back } => vec![("front", front), ("back", back)],
            Inputs::TrainRoute { vehicles, orders } => {
                vec![("vehicles", vehicles), ("orders", orders)]
            }
            Inputs::AccountRoute {
                engines,
                hauled,
                orders,
            } => vec![("engines", engines), ("hauled", hauled), ("orders", orders)],
        }
    }

    /// The order of a sheet, or those of a route.
    pub fn orders(&self) -> &[u8] {
        match self {
            Inputs::Train { order, .. } | Inputs::Engines { order, .. } => order,
            Inputs::TrainRoute { orders, .. } | Inputs::AccountRoute { orders, .. } => orders,
            _ => &[],
        }
    }

    /// The facts of a train, or of engines with an account, that is not refused.
    pub fn facts(&self) -> Option<Facts> {
        match self {
            Inputs::Train { vehicles, .. } | Inputs::TrainRoute { vehicles, .. } => {
                let records = vehicles.as_chunks().0;
                let leading = records.iter().take_while(|one| is_working(one)).count();
                let (working, hauled) = records.split_at(leading);
                Some(Facts::of_train(working, hauled))
            }
            Inputs::Engines {
                engines, hauled, ..
            }
            | Inputs::AccountRoute {
                engines, hauled, ..
            } => {
                let account = Account::read(hauled)?;
                Some(Facts::of_account(engines.as_chunks().0, &account))
            }
            _ => None,
        }
    }
}

/// The longest buffer that is lent, with room behind it to see a write past its end.
pub const BUFFER: usize = 192;

#[derive(Clone, Debug)]
pub struct Call {
    pub inputs: Inputs,
    /// The length of the buffer lent for writing.
    pub room: usize,
    /// What the buffer is filled with before.
    pub fill: u8,
}

impl Call {
    pub fn function(&self) -> Function {
        match self.inputs {
            Inputs::Train { .. } => Function::SheetOfTrain,
            Inputs::Portion { .. } => Function::AccountOf,
            Inputs::Accounts { .. } => Function::Join,
            Inputs::Engines { .. } => Function::SheetOfAccount,
            Inputs::Portions { .. } => Function::HoldsTheSpeed,
            Inputs::TrainRoute { .. } => Function::RouteOfTrain,
            Inputs::AccountRoute { .. } => Function::RouteOfAccount,
        }
    }

    /// How many bytes it writes if it is done: of a route as many as there are sections.
    pub fn writes(&self) -> usize {
        match &self.inputs {
            Inputs::Train { order, .. } | Inputs::Engines { order, .. } => Book::of(order).sheet(),
            Inputs::Portion { .. } | Inputs::Accounts { .. } => ACCOUNT,
            Inputs::Portions { .. } => VEHICLE,
            Inputs::TrainRoute { orders, .. } | Inputs::AccountRoute { orders, .. } => {
                orders.len() / ORDER
            }
        }
    }

    /// No two neighbouring bytes are alike, so that moved bytes are seen.
    pub fn buffer(&self) -> [u8; BUFFER] {
        std::array::from_fn(|at| self.fill ^ (at as u8).wrapping_mul(37))
    }

    pub fn run(&self, side: &impl Side, room: &mut [u8]) -> u64 {
        match &self.inputs {
            Inputs::Train { vehicles, order } => side.sheet_of_train(vehicles, order, room),
            Inputs::Portion { portion } => side.account_of(portion, room),
            Inputs::Accounts { left, right } => side.join(left, right, room),
            Inputs::Engines {
                engines,
                hauled,
                order,
            } => side.sheet_of_account(engines, hauled, order, room),
            Inputs::Portions { front, back } => side.holds_the_speed(front, back, room) as u64,
            Inputs::TrainRoute { vehicles, orders } => side.route_of_train(vehicles, orders, room),
            Inputs::AccountRoute {
                engines,
                hauled,
                orders,
            } => side.route_of_account(engines, hauled, orders, room),
        }
    }

    /// The answer, and the buffer with what lies behind the lent part.
    pub fn outcome(&self, side: &impl Side) -> (u64, [u8; BUFFER]) {
        let mut buffer = self.buffer();
        let answer = self.run(side, &mut buffer[..self.room]);
        (answer, buffer)
    }

    /// The inputs in hex, one line each.
    pub fn describe(&self) -> String {
        let inputs = self.inputs.parts().into_iter();
        let lines = inputs.map(|(name, bytes)| format!("  {name} {}\n", hex(bytes)));
        lines.collect::<String>()
            + &format!("  lent {} bytes, filled {:02x}\n", self.room, self.fill)
    }
}
