//! A checker of flow graphs: judging properties, comparing by simulation, maximal models, joining,
//! watching runs with monitors over calls and returns, and graphs that arrive in deliveries.

mod calls;
mod deliveries;
pub mod files;
pub mod graph;
mod join;
mod model;
mod monitor;
mod rank;
pub mod record;
pub mod refusal;
pub mod replay;
mod run;
mod saturation;
mod set;
mod sheet;
mod simulation;
mod summary;
mod support;
mod trail;
pub mod unlimited;

pub use calls::{assemble, compare, compose, compose_both, join, judge, judge_deliveries, model};
pub use calls::{show, watch};
pub use record::Limits;
pub use refusal::Refusal;

/// What a call says.
#[derive(Clone, Debug, PartialEq, Eq)]
pub enum Outcome {
    Refused(Refusal),
    /// Verdict 1 is holds, yes, written, shown or clean; 2 is fails, no or bad; 3 is impossible.
    /// The values are the numbers that belong to the verdict, `written` the result bytes.
    Said {
        verdict: u32,
        values: Vec<u64>,
        written: Vec<u8>,
    },
}

/// The files of the two sides of a composed verdict.
#[derive(Clone, Copy, Debug)]
pub struct Sides<'a> {
    pub known_interface: &'a [u8],
    pub known_graph: &'a [u8],
    pub other_interface: &'a [u8],
    pub property: &'a [u8],
}

/// The files of a side that is not written.
#[derive(Clone, Copy, Debug)]
pub struct Unwritten<'a> {
    pub interface: &'a [u8],
    pub property: &'a [u8],
}
