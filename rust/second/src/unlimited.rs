//! Judging, joining and watching of graphs of any size: they mean the same past the limits.

use crate::graph::Graph;
pub use crate::join::joined;
use crate::monitor::Monitor;
use crate::record::{Row, Rule, BAD};
use crate::saturation::Saturation;
use crate::sheet::fault_sheet;

/// Whether row 0 holds at every entry.
pub fn satisfies(graph: &Graph, rows: &[Row]) -> bool {
    fault_sheet(graph, rows).is_none()
}

/// Whether some run from the start method, 1 to 8, is bad.
pub fn is_bad(graph: &Graph, rules: &[Rule], start: u8) -> bool {
    let monitor = Monitor::new(rules);
    let mut saturation = Saturation::new(graph, &monitor);
    saturation.saturate(start.into(), 0);
    saturation.reached.iter().any(|reached| reached.state == BAD)
}
