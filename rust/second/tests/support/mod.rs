//! Files written in decimals, and calls with as much output and work space as they need.

#![allow(dead_code, reason = "each test file uses only some of these")]

use second::record::RECORD_LEN;
use second::{Limits, Outcome, Refusal, Sides, Unwritten};

/// More than any result needs.
pub const ENOUGH: usize = 1 << 20;

/// The bytes of records separated by "/"; missing fields are 0.
pub fn file(text: &str) -> Vec<u8> {
    text.split('/').filter(|record| !record.trim().is_empty()).flat_map(record).collect()
}

/// The bytes of a case study's file: one record a line, comments after "#".
pub fn case(path: &str) -> Vec<u8> {
    let root = concat!(env!("CARGO_MANIFEST_DIR"), "/../../cases");
    let text = std::fs::read_to_string(format!("{root}/{path}")).expect("a case file");
    let lines = text.lines().filter(|line| !line.starts_with('#') && !line.trim().is_empty());
    lines.flat_map(record).collect()
}

fn record(text: &str) -> [u8; RECORD_LEN] {
    let mut record = [0; RECORD_LEN];
    for (field, number) in record.iter_mut().zip(text.split_whitespace()) {
        *field = number.parse().expect("a decimal");
    }
    record
}

pub fn refused(number: u8, file: u8, record: usize) -> Outcome {
    Outcome::Refused(Refusal { number, file, record })
}

pub fn said(verdict: u32, values: &[u64], written: Vec<u8>) -> Outcome {
    Outcome::Said { verdict, values: values.to_vec(), written }
}

/// A negative verdict with the records that explain it.
pub fn explained(records: &str) -> Outcome {
    let written = file(records);
    said(2, &[(written.len() / RECORD_LEN) as u64], written)
}

/// A positive verdict without a result.
pub fn positive() -> Outcome {
    said(1, &[], vec![])
}

pub fn judge(graph: &[u8], property: &[u8]) -> Outcome {
    second::judge(&Limits::DESK, graph, property, ENOUGH, 0, 0)
}

pub fn compare(first: &[u8], second: &[u8]) -> Outcome {
    second::compare(&Limits::DESK, first, second, ENOUGH, 0, 0)
}

pub fn model(interface: &[u8], property: &[u8]) -> Outcome {
    second::model(&Limits::DESK, interface, property, ENOUGH, 0, 0)
}

/// The bytes of a model that is not refused.
pub fn model_bytes(interface: &[u8], property: &[u8]) -> Vec<u8> {
    match model(interface, property) {
        Outcome::Said { written, .. } => written,
        Outcome::Refused(refusal) => panic!("{refusal:?}"),
    }
}

/// Checks the numbers of nodes and edges of a model.
pub fn assert_model_size(outcome: &Outcome, nodes: u64, edges: u64) {
    let Outcome::Said { verdict: 1, values, .. } = outcome else {
        panic!("{outcome:?}");
    };
    assert_eq!(values, &[nodes, edges]);
}

pub fn join(sides: [&[u8]; 4]) -> Outcome {
    let [interface1, graph1, interface2, graph2] = sides;
    second::join(&Limits::DESK, interface1, graph1, interface2, graph2, ENOUGH)
}

pub fn show(first: &[u8], second: &[u8], number: usize) -> Outcome {
    second::show(&Limits::DESK, first, second, number)
}

pub fn watch(interface: &[u8], graph: &[u8], rules: &[u8], start: u8) -> Outcome {
    second::watch(&Limits::DESK, interface, graph, rules, start, ENOUGH, 0, 0)
}

pub fn compose(sides: &Sides, rules: &[u8], start: u8) -> Outcome {
    second::compose(&Limits::DESK, sides, rules, start, ENOUGH, [(0, 0); 2])
}

/// Interface and property of either side.
pub fn unwritten(sides: [&[u8]; 4]) -> [Unwritten<'_>; 2] {
    let [interface1, property1, interface2, property2] = sides;
    [(interface1, property1), (interface2, property2)]
        .map(|(interface, property)| Unwritten { interface, property })
}

pub fn compose_both(sides: [&[u8]; 4], rules: &[u8], start: u8) -> Outcome {
    let sides = unwritten(sides);
    second::compose_both(&Limits::DESK, &sides, rules, start, ENOUGH, [(0, 0); 2])
}
