//! What judging is timed on.

use crate::growth::{series, Series, EDGES, NODES, ROWS};
use crate::inputs::{cases, graph, largest_graph, pair, typical_graph, Timed};
use generator::extremes::{
    any_label_cycle, box_cycle, cycle, dense_cycle, dense_line, never_a_return, row_cycle,
};
use generator::generate::{any_rows, written_out, Random};
use std::io;

pub fn inputs() -> io::Result<Vec<Timed>> {
    // A seed with which both random graphs fail, for more than one reason.
    let mut random = Random::new(27);
    let mut inputs = vec![
        pair("P6", P6_GRAPH.concat(), P6_PROPERTY.concat()),
        pair(
            "40 nodes, 80 edges, 10 rows",
            typical_graph(&mut random),
            any_rows(&mut random, 10).concat(),
        ),
        pair(
            "256 nodes, 4,096 edges, 32 rows",
            largest_graph(&mut random),
            any_rows(&mut random, 32).concat(),
        ),
    ];
    let largest = largest_graph(&mut random);
    inputs.extend([
        pair("holds, 31 boxes", largest.clone(), boxes()),
        pair("holds, 31 rows of operator 10", largest, boxes_over_every_label()),
        pair("chain of 7,937 levels", cycle(true), row_cycle()),
        pair("dense chain of 7,937 levels", dense_cycle(), box_cycle()),
        pair("dense, 30 rows of operator 10", dense_line(16), any_label_cycle()),
        pair("dense, one row of operator 10", dense_line(16), never_a_return()),
        pair("dense, the same by nine boxes", dense_line(16), by_nine_boxes(&never_a_return())),
        pair("8 edges a node, operator 10", dense_line(8), never_a_return()),
        pair("8 edges a node, by nine boxes", dense_line(8), by_nine_boxes(&never_a_return())),
    ]);
    inputs.extend(cases("graph", "property")?);
    Ok(inputs)
}

pub fn growth() -> Vec<Series> {
    let mut random = Random::new(1);
    let mut judged = |nodes, edges| [graph(&mut random, nodes, edges), mixed(16)].into();
    let nodes =
        series("4 edges a node, 16 rows", "nodes", &NODES, |nodes| judged(nodes, 4 * nodes));
    let edges = series("256 nodes, 16 rows", "edges", &EDGES, |edges| judged(256, edges));
    let same = graph(&mut random, 256, 1024);
    let rows = |rows| [same.clone(), mixed(rows)].into();
    vec![nodes, edges, series("256 nodes, 1024 edges", "rows", &ROWS, rows)]
}

/// Boxes, "and" and "or" rows in turn, each over the next row; the "and" rows also demand the last one, "not return", so that every third row fails in many places.
fn mixed(rows: usize) -> Vec<u8> {
    let last = rows as u8 - 1;
    let row = |at: u8| match at % 3 {
        0 => [3, 9, at % 5, at + 1, 0, 0],
        1 => [3, 7, at + 1, last, 0, 0],
        _ => [3, 8, at + 1, last.min(at + 2), 0, 0],
    };
    (0..last).map(row).chain([[3, 6, 0, 0, 0, 0]]).flatten().collect()
}

const P6_GRAPH: [[u8; 6]; 3] = [[1, 1, 0, 1, 0, 0], [1, 1, 1, 0, 0, 0], [2, 0, 1, 1, 0, 0]];
const P6_PROPERTY: [[u8; 6]; 2] = [[3, 9, 1, 1, 0, 0], [3, 6, 0, 0, 0, 0]];

/// Boxes of all labels.
fn boxes() -> Vec<u8> {
    above_true(|row| [3, 9, row % 9, row + 1, 0, 0])
}

fn boxes_over_every_label() -> Vec<u8> {
    above_true(|row| [3, 10, row + 1, 0, 0, 0])
}

/// 31 rows, each over the next, and "true" at the end.
fn above_true(row: fn(u8) -> [u8; 6]) -> Vec<u8> {
    (0..31).map(row).chain([[3, 1, 0, 0, 0, 0]]).flatten().collect()
}

/// The property with its only box over every label written out.
fn by_nine_boxes(property: &[u8]) -> Vec<u8> {
    // There is no choice that the seed could make.
    written_out(&mut Random::new(0), property).expect("a box over every label, and room")
}
