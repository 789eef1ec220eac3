//! What all tests share: files written in decimals, and calls with enough
//! room for every result.

// Each test program uses a part of this.
#![allow(dead_code)]

use second::record::Row;
use second::{Limits, Outcome, Refusal, Sides, Unwritten};
use std::ops::RangeInclusive;
use std::path::Path;

pub const LIMITS: &Limits = &Limits::DESK;
const ENOUGH: usize = 1 << 20;

/// Records in decimals, separated by slashes; zeros at the end of a record
/// may be left out.
pub fn file(text: &str) -> Vec<u8> {
    text.split('/').filter(|record| !record.trim().is_empty()).flat_map(record).collect()
}

fn record(text: &str) -> [u8; 6] {
    let mut record = [0; 6];
    for (at, field) in text.split_whitespace().enumerate() {
        record[at] = field.parse().expect("a decimal byte");
    }
    record
}

/// A file of a case study: one record a line, and comments.
pub fn data(name: &str) -> Vec<u8> {
    let path = Path::new(env!("CARGO_MANIFEST_DIR")).join("../../cases").join(name);
    let text = std::fs::read_to_string(path).expect("a case study's file");
    text.lines().filter(|line| !line.starts_with('#')).flat_map(record).collect()
}

pub fn said(verdict: u32, values: &[u64], written: Vec<u8>) -> Outcome {
    Outcome::Said { verdict, values: values.to_vec(), written }
}

pub fn refused(number: u8, file: u8, record: usize) -> Outcome {
    Outcome::Refused(Refusal { number, file, record })
}

/// Verdict, values and written bytes of a call that is not refused.
pub fn parts(outcome: Outcome) -> (u32, Vec<u64>, Vec<u8>) {
    match outcome {
        Outcome::Said { verdict, values, written } => (verdict, values, written),
        Outcome::Refused(refusal) => panic!("{refusal:?}"),
    }
}

/// The labels of a box and the row that it looks at after them.
pub fn box_parts(row: Row) -> Option<(RangeInclusive<usize>, usize)> {
    match row {
        Row::Box { label, row } => Some((label..=label, row)),
        Row::BoxAll(row) => Some((0..=8, row)),
        _ => None,
    }
}

pub fn judge(graph: &[u8], property: &[u8]) -> Outcome {
    second::judge(LIMITS, graph, property, ENOUGH, 0, 0)
}

pub fn compare(first: &[u8], second: &[u8]) -> Outcome {
    second::compare(LIMITS, first, second, ENOUGH, 0, 0)
}

pub fn model(interface: &[u8], property: &[u8]) -> Outcome {
    second::model(LIMITS, interface, property, ENOUGH, 0, 0)
}

pub fn join(sides: [(&[u8], &[u8]); 2]) -> Outcome {
    let [(interface1, graph1), (interface2, graph2)] = sides;
    second::join(LIMITS, interface1, graph1, interface2, graph2, ENOUGH)
}

pub fn show(graph1: &[u8], graph2: &[u8], number: usize) -> Outcome {
    second::show(LIMITS, graph1, graph2, number)
}

pub fn watch(interface: &[u8], graph: &[u8], rules: &[u8], start: u8) -> Outcome {
    second::watch(LIMITS, interface, graph, rules, start, ENOUGH, 0, 0)
}

/// The composed verdict: the known graph joined with the model of the
/// unwritten side, watched.
pub fn composed(known: (&[u8], &[u8]), other: (&[u8], &[u8]), rules: &[u8], start: u8) -> Outcome {
    let (_, _, model) = parts(model(other.0, other.1));
    let (_, values, graph) = parts(join([known, (other.0, &model)]));
    let interface = [5, values[2] as u8, values[3] as u8, 0, 0, 0];
    watch(&interface, &graph, rules, start)
}

pub fn compose(sides: &Sides, rules: &[u8], start: u8) -> Outcome {
    second::compose(LIMITS, sides, rules, start, ENOUGH, [(0, 0); 2])
}

pub fn compose_both(sides: [&[u8]; 4], rules: &[u8], start: u8) -> Outcome {
    let [interface1, property1, interface2, property2] = sides;
    let sides = [(interface1, property1), (interface2, property2)]
        .map(|(interface, property)| Unwritten { interface, property });
    second::compose_both(LIMITS, &sides, rules, start, ENOUGH, [(0, 0); 2])
}

pub fn assemble(deliveries: &[u8]) -> Outcome {
    second::assemble(LIMITS, deliveries, ENOUGH)
}

pub fn judge_deliveries(deliveries: &[u8], property: &[u8]) -> Outcome {
    second::judge_deliveries(LIMITS, deliveries, property, ENOUGH, [(0, 0); 2])
}

/// Whether the fields of a record are in range, by its kind.
pub fn in_range(record: &[u8]) -> bool {
    let method = |m| (1..=8).contains(&m);
    let zero = |from: usize| record[from..].iter().all(|&byte| byte == 0);
    match (record[0], record[1]) {
        (1, m) => method(m) && record[2] < 2 && record[3] < 2 && zero(4),
        (2, _) => record[2] < 9 && zero(4),
        (3, 1 | 2 | 5 | 6) => zero(2),
        (3, 3 | 4) => method(record[2]) && zero(3),
        (3, 7 | 8) => zero(4),
        (3, 9) => record[2] < 9 && zero(4),
        (3, 10) => zero(3),
        (4, state) => {
            let event = record[2] == 1 || record[2] == 2;
            state < 7 && event && method(record[3]) && method(record[4]) && record[5] < 8
        }
        (5, _) => zero(3),
        (6, m) => method(m) && record[2] != 0 && zero(3),
        _ => false,
    }
}

/// Whether two neighbours of an ordered kind are out of order.
pub fn is_after(record: &[u8], next: &[u8]) -> bool {
    let key = if record[0] == 2 { 1..4 } else { 1..5 };
    record[0] == next[0] && [2, 4].contains(&next[0]) && record[key.clone()] >= next[key]
}

/// 7 or 8, if the record names what it must not.
pub fn misled(nodes: &[&[u8]], rows: usize, record: &[u8]) -> Option<u8> {
    let (a, b) = (usize::from(record[2]), usize::from(record[3]));
    match (record[0], record[1]) {
        (2, from) => match (nodes.get(usize::from(from)), nodes.get(b)) {
            (Some(from), Some(to)) => (from[1] != to[1]).then_some(8),
            _ => Some(7),
        },
        (3, 7 | 8) => (a.max(b) >= rows).then_some(7),
        (3, 9) => (b >= rows).then_some(7),
        (3, 10) => (a >= rows).then_some(7),
        _ => None,
    }
}
