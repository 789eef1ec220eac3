//! Random files for comparing two implementations of the flow-graph checker.

mod composed;
pub mod conforming;
mod damage;
pub mod deliveries;
pub mod extremes;
pub mod families;
pub mod generate;
mod graded;
mod graphs;
mod mutation;
mod properties;
mod random;
pub mod relations;
mod runs;
mod sides;
