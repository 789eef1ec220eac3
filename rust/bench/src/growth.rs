//! How the cost of each call grows: series of inputs in which one size varies.

use crate::inputs::{timed, Timed};
use crate::side_by_side::{print_header, print_line};
use crate::{both, compose, deliveries, join, judge, model, show, simulation, watch};
use compare::calls::Call;
use compare::Input;

pub const NODES: [usize; 5] = [16, 32, 64, 128, 256];
pub const EDGES: [usize; 5] = [256, 512, 1024, 2048, 4096];
pub const ROWS: [usize; 5] = [2, 4, 8, 16, 32];

/// Inputs that differ in one size.
pub struct Series {
    /// What stays the same.
    fixed: &'static str,
    rows: Vec<Timed>,
}

/// An input of each size; `varies` says what is counted.
pub fn series(
    fixed: &'static str,
    varies: &str,
    sizes: &[usize],
    mut input: impl FnMut(usize) -> Input,
) -> Series {
    let row = |&size: &usize| timed(&format!("{size:>5} {varies}"), input(size));
    Series { fixed, rows: sizes.iter().map(row).collect() }
}

/// Prints the series of all calls, or of the one of that name.
pub fn print(name: Option<&str>) {
    let calls = [
        (compare::judge::CALL, judge::growth as fn() -> Vec<Series>),
        (compare::simulation::CALL, simulation::growth),
        (compare::model::CALL, model::growth),
        (compare::join::CALL, join::growth),
        (compare::show::CALL, show::growth),
        (compare::watch::CALL, watch::growth),
        (compare::compose::CALL, compose::growth),
        (compare::deliveries::ASSEMBLE, deliveries::growth_of_assembling),
        (compare::deliveries::JUDGE, deliveries::growth_of_judging),
        (compare::compose::BOTH, both::growth),
    ];
    for (call, growth) in calls {
        if name.is_none_or(|name| name == call.name) {
            growth().iter().for_each(|series| print_series(&call, series));
        }
    }
}

fn print_series(call: &Call, series: &Series) {
    print_header(&format!("{}: {}", call.name, series.fixed));
    series.rows.iter().for_each(|row| print_line(call, row));
}
