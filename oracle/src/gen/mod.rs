//! Inputs: the cases of the page, and seeded random ones near every boundary.

pub mod accounts;
pub mod cases;
pub mod damage;
pub mod domestic;
pub mod domestic_accounts;
pub mod domestic_cases;
pub mod domestic_edges;
pub mod draft;
pub mod edges;
pub mod lengths;
pub mod margins;
pub mod mixture;
pub mod numbers;
pub mod routes;
pub mod trains;
pub mod vectors;
