//! Graphs and properties for the ranks of "or" rows: their operands turn false at different levels, and other rows have causes that depend on when.

use crate::generate::{Random, Size, LIMITS};
use crate::graphs::{graph_file, node, Edges};
use crate::properties::widened;
use second::record::{kind, Record};
use std::ops::Range;

/// A graph file and a property file that are about each other.
pub fn graded(random: &mut Random, size: Size) -> (Vec<u8>, Vec<u8>) {
    let (graph, records) = (line(random, size), graded_ors(random));
    (graph, widened(random, records))
}

/// Nodes on a line that ends in a return node, with steps of two labels to later nodes only: what is false at the end comes up node by node.
fn line(random: &mut Random, size: Size) -> Vec<u8> {
    let last = match size {
        Size::Small => 1 + random.below(10),
        Size::Large => LIMITS.nodes - 1,
    };
    let records: Vec<Record> =
        (0..=last).map(|at| node(1, at == last, at == 0 || random.once_in(4))).collect();
    let mut edges = Edges::new();
    for from in 0..last {
        let next = from as u8 + 1;
        edges.insert((from as u8, 0, next));
        if !random.once_in(3) {
            edges.insert((from as u8, 1, next + random.below(last - from) as u8));
        }
        if random.once_in(3) {
            edges.insert((from as u8, 0, next + random.below(last - from) as u8));
        }
    }
    graph_file(&records, &edges)
}

/// First rows that compare ranks, then "or" rows, then the loops whose rows fall, each at its own pace, and last the literal with which they begin.
fn graded_ors(random: &mut Random) -> Vec<Record> {
    let (comparing, ors) = (1 + random.below(3), 1 + random.below(4));
    let paces: Vec<usize> = (0..3 + random.below(2)).map(|_| 2 + random.below(4)).collect();
    let first_loop = comparing + ors;
    let literal = first_loop + paces.iter().sum::<usize>();
    let mut records: Vec<Record> = Vec::new();
    for at in 0..comparing {
        let or = row_of(random, comparing..first_loop);
        let first = if random.once_in(2) { at + 1 } else { first_loop };
        let other = row_of(random, first..literal);
        records.push(match random.below(5) {
            0 => [kind::ROW, 9, 0, or, 0, 0],
            1 | 2 => [kind::ROW, 7, or, other, 0, 0],
            _ => [kind::ROW, 7, other, or, 0, 0],
        });
    }
    for at in comparing..first_loop {
        let first = if random.once_in(4) { at + 1 } else { first_loop };
        let (a, b) = (row_of(random, first..literal), row_of(random, first..literal));
        records.push([kind::ROW, 8, a, b, 0, 0]);
    }
    for pace in paces {
        falling(random, &mut records, pace, literal as u8);
    }
    records.push([kind::ROW, 6, 0, 0, 0, 0]);
    records
}

fn row_of(random: &mut Random, rows: Range<usize>) -> u8 {
    (rows.start + random.below(rows.len())) as u8
}

/// A loop of so many rows: the literal and a box that leads back, with "and" rows between for the pace.
fn falling(random: &mut Random, records: &mut Vec<Record>, pace: usize, literal: u8) {
    let first = records.len() as u8;
    records.push([kind::ROW, 7, first + 1, literal, 0, 0]);
    for next in 2..pace as u8 {
        records.push([kind::ROW, 7, first + next, first + next, 0, 0]);
    }
    records.push([kind::ROW, 9, u8::from(random.once_in(4)), first, 0, 0]);
}
