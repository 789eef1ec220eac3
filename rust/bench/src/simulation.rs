//! What comparing graphs is timed on.

use crate::growth::{series, Series, EDGES, NODES};
use crate::inputs::{cases, graph, largest_graph, pair, typical_graph, Timed};
use generator::generate::Random;
use generator::relations::{
    backward, band, circulant, forward, hubs, labelled_band, labelled_line, labelled_ring, loops,
    shuffled,
};
use std::io;

const ENTRY: [u8; 6] = [1, 1, 0, 1, 0, 0];
const BACK: [u8; 6] = [2, 1, 0, 0, 0, 0];

/// An entry with an internal step to itself.
fn self_loop() -> Vec<u8> {
    [ENTRY, [2, 0, 0, 0, 0, 0]].concat()
}

pub fn inputs() -> io::Result<Vec<Timed>> {
    let mut random = Random::new(1);
    let largest = largest_graph(&mut random);
    let mut inputs = vec![
        pair("empty files", vec![], vec![]),
        pair("P8", [ENTRY, ENTRY, [2, 0, 0, 1, 0, 0], BACK].concat(), self_loop()),
        pair("P9", self_loop(), ENTRY.to_vec()),
        pair("40 nodes, 80 edges", typical_graph(&mut random), typical_graph(&mut random)),
        pair("256 nodes, 4,096 edges", largest.clone(), largest_graph(&mut random)),
        pair("the same graph twice", largest.clone(), largest),
        pair("all related: loops, circulant", loops(), circulant(forward)),
        pair("circulant, band", circulant(forward), band(forward)),
        pair("circulant, band, backward", circulant(backward), band(backward)),
        pair("circulant, band, shuffled", circulant(shuffled), band(shuffled)),
        pair("band, band, backward", band(backward), band(backward)),
        pair("loops, band, backward", loops(), band(backward)),
        pair("loops, hubs, backward", loops(), hubs(backward)),
        pair("loops, hubs, shuffled", loops(), hubs(shuffled)),
        pair("nine labels: line, band", labelled_line(forward), labelled_band(forward)),
        pair("nine labels: ring, line", labelled_ring(forward), labelled_line(shuffled)),
    ];
    inputs.extend(cases("graph", "graph")?);
    Ok(inputs)
}

pub fn growth() -> Vec<Series> {
    let mut random = Random::new(1);
    let mut compared = |nodes, edges| [(); 2].map(|()| graph(&mut random, nodes, edges)).into();
    vec![
        series("4 edges a node", "nodes", &NODES, |nodes| compared(nodes, 4 * nodes)),
        series("256 nodes", "edges", &EDGES, |edges| compared(256, edges)),
    ]
}
