//! A second reading of document 01, the domestic rule book and the requests after them: the model, its inputs, and the comparison with the product.

pub mod account;
pub mod answer;
pub mod book;
pub mod boundaries;
pub mod call;
pub mod calls;
pub mod category;
pub mod coverage;
pub mod diff;
pub mod domestic;
pub mod domestic_rules;
#[cfg(test)]
mod domestic_slips;
pub mod facts;
pub mod former_list;
pub mod gen;
pub mod lengths;
pub mod line;
pub mod numbers;
pub mod offered;
pub mod order;
pub mod page;
pub mod precedence;
pub mod random;
pub mod ranges;
pub mod route;
pub mod routes;
pub mod rules;
pub mod sheet;
pub mod speed;
pub mod tally;
pub mod vehicle;
pub mod withdrawal;
