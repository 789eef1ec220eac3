//! Graphs of the largest size on which the largest simulation is slow to find: one method, all nodes alike, one label where nothing else is said.

use crate::generate::LIMITS;
use crate::graphs::{graph_file, node};

const LAST: u8 = (LIMITS.nodes - 1) as u8;
/// Steps of each node of a band.
const REACH: usize = LIMITS.edges / LIMITS.nodes;
const HUBS: u8 = 15;
const LABELS: u8 = 9;

/// The number in the file of each node of a graph.
pub type Numbering = fn(u8) -> u8;

pub fn forward(node: u8) -> u8 {
    node
}

pub fn backward(node: u8) -> u8 {
    LAST - node
}

/// A fixed order without neighbours.
pub fn shuffled(node: u8) -> u8 {
    node.wrapping_mul(77).wrapping_add(13)
}

/// Each node steps to the next ones, and the last has none: its pairs fall one after the other from the end.
pub fn band(numbering: Numbering) -> Vec<u8> {
    let steps = |from: u8| (from..=LAST).skip(1).take(REACH).map(move |to| (from, to));
    alike((0..=LAST).flat_map(steps), numbering)
}

/// The same, where the last node is followed by the first.
pub fn circulant(numbering: Numbering) -> Vec<u8> {
    let steps = |from: u8| (1..=REACH as u8).map(move |far| (from, from.wrapping_add(far)));
    alike((0..=LAST).flat_map(steps), numbering)
}

/// Each node steps to itself only.
pub fn loops() -> Vec<u8> {
    alike((0..=LAST).map(|node| (node, node)), forward)
}

/// A line, and some nodes that step to all of it.
pub fn hubs(numbering: Numbering) -> Vec<u8> {
    let end = LAST - HUBS;
    let line = (0..end).map(|node| (node, node + 1));
    let hubs = (end + 1..=LAST).flat_map(|hub| (0..=end).map(move |node| (hub, node)));
    alike(line.chain(hubs), numbering)
}

/// Each node steps to the next by all nine labels, the last one to the first: no pair falls but by the graph compared with.
pub fn labelled_ring(numbering: Numbering) -> Vec<u8> {
    labelled((0..=LAST).flat_map(|from| all_labels(from, from.wrapping_add(1))), numbering)
}

/// The same, where the last node has no step.
pub fn labelled_line(numbering: Numbering) -> Vec<u8> {
    labelled((0..LAST).flat_map(|from| all_labels(from, from + 1)), numbering)
}

/// A band whose steps have all nine labels, by how far they lead.
pub fn labelled_band(numbering: Numbering) -> Vec<u8> {
    let steps = |from: u8| {
        (from..=LAST).skip(1).take(REACH).map(move |to| (from, (to - from) % LABELS, to))
    };
    labelled((0..=LAST).flat_map(steps), numbering)
}

fn all_labels(from: u8, to: u8) -> impl Iterator<Item = (u8, u8, u8)> {
    (0..LABELS).map(move |label| (from, label, to))
}

fn alike(steps: impl Iterator<Item = (u8, u8)>, numbering: Numbering) -> Vec<u8> {
    labelled(steps.map(|(from, to)| (from, 0, to)), numbering)
}

fn labelled(steps: impl Iterator<Item = (u8, u8, u8)>, numbering: Numbering) -> Vec<u8> {
    let edges = steps.map(|(from, label, to)| (numbering(from), label, numbering(to))).collect();
    graph_file(&vec![node(1, false, true); LIMITS.nodes], &edges)
}
