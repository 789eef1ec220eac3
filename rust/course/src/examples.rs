//! Examples of the refusals and the limits, as records.

use crate::Example;

type Record = [u8; 6];

const NODE: Record = [1, 1, 0, 0, 0, 0];
const LOOP: Record = [2, 0, 0, 0, 0, 0];
const LITERAL: Record = [3, 6, 0, 0, 0, 0];

fn example(name: &str, records: &[Record]) -> Example {
    Example { name: format!("{name}.bin"), bytes: records.concat() }
}

pub fn small() -> Vec<Example> {
    let mut cut = example("graph-5-bytes", &[NODE]);
    cut.bytes.truncate(5);
    let mut all = vec![cut];
    all.extend(graphs());
    all.extend(others());
    all.extend(of_any_label());
    all.extend(openings());
    all
}

fn graphs() -> Vec<Example> {
    vec![
        example("graph-empty", &[]),
        example("graph-node-after-edge", &[NODE, LOOP, NODE]),
        example("graph-method-9", &[[1, 9, 0, 0, 0, 0]]),
        example("graph-unused-byte-not-0", &[[1, 1, 0, 0, 0, 1]]),
        example("graph-edge-twice", &[NODE, LOOP, LOOP]),
        example("graph-edges-in-order", &[NODE, LOOP, [2, 0, 1, 0, 0, 0]]),
        example("graph-edges-out-of-order", &[NODE, [2, 0, 1, 0, 0, 0], LOOP]),
        example("graph-edge-past-the-last-node", &[NODE, [2, 0, 0, 1, 0, 0]]),
        example("graph-edge-between-methods", &[NODE, [1, 2, 0, 0, 0, 0], [2, 0, 0, 1, 0, 0]]),
        example("graph-later-record-lower-number", &[[1, 9, 0, 0, 0, 0], LOOP, NODE]),
        example("graph-kind-of-a-row", &[LITERAL]),
    ]
}

fn others() -> Vec<Example> {
    let rule = [4, 0, 1, 1, 2, 7];
    let interface = [5, 1, 0, 0, 0, 0];
    vec![
        example("property-empty", &[]),
        example("property-operator-0", &[[3, 0, 0, 0, 0, 0]]),
        example("property-unused-byte-not-0", &[[3, 6, 0, 0, 1, 0]]),
        example("property-row-past-the-last", &[[3, 7, 0, 1, 0, 0]]),
        example("rules-empty", &[]),
        example("rules-one", &[rule]),
        example("rules-key-twice", &[rule, [4, 0, 1, 1, 2, 6]]),
        example("rules-of-state-7", &[[4, 7, 1, 1, 2, 7]]),
        example("interface-empty", &[]),
        example("interface-one", &[interface]),
        example("interface-two", &[interface, interface]),
        example("interface-unused-byte-not-0", &[[5, 1, 0, 1, 0, 0]]),
    ]
}

/// Operator 10: the row after each edge, whatever its label.
pub const fn any_label(row: u8) -> Record {
    [3, 10, row, 0, 0, 0]
}

fn of_any_label() -> Vec<Example> {
    vec![
        example("property-operator-11", &[[3, 11, 0, 0, 0, 0]]),
        example("property-any-second-operand-not-0", &[[3, 10, 0, 1, 0, 0]]),
        example("property-any-fifth-byte-not-0", &[[3, 10, 0, 0, 1, 0]]),
        example("property-any-sixth-byte-not-0", &[[3, 10, 0, 0, 0, 1]]),
        example("property-any-3-before-7", &[[3, 10, 255, 1, 0, 0]]),
        example("property-any-row-past-the-last", &[any_label(1)]),
        example("property-any-row-255", &[any_label(255)]),
        example("property-any-row-is-the-last", &[any_label(1), [3, 1, 0, 0, 0, 0]]),
        // More than there may be "or" rows.
        example("property-13-any-rows", &[any_label(0); 13]),
    ]
}

/// An opening stands in a file of deliveries only.
fn openings() -> Vec<Example> {
    let kinds = ["graph", "property", "rules", "interface"];
    kinds.map(|kind| example(&format!("{kind}-opening"), &[[6, 1, 1, 0, 0, 0]])).into()
}

pub fn at_the_limits() -> Vec<Example> {
    let mut all = Vec::new();
    for nodes in [256, 257] {
        all.push(example(&format!("graph-{nodes}-nodes"), &vec![NODE; nodes]));
    }
    for edges in [4096, 4097] {
        all.push(example(&format!("graph-{edges}-edges"), &with_edges(NODE, 256, edges)));
    }
    for rows in [32, 33] {
        all.push(example(&format!("property-{rows}-rows"), &vec![LITERAL; rows]));
    }
    for ors in [12, 13] {
        all.push(example(&format!("property-{ors}-or-rows"), &vec![[3, 8, 0, 0, 0, 0]; ors]));
    }
    all
}

/// So many nodes and the first edges in order, without a label.
pub fn with_edges(node: Record, nodes: usize, edges: usize) -> Vec<Record> {
    let numbers = || (0..nodes).map(|at| at as u8);
    let ends = numbers().flat_map(|from| numbers().map(move |to| [2, from, 0, to, 0, 0]));
    vec![node; nodes].into_iter().chain(ends.take(edges)).collect()
}
