//! What the composed verdict is timed on.

use crate::growth::{series, Series, NODES, ROWS};
use crate::inputs::{exactly, timed, Timed};
use crate::model::{interface_and_property, DEAR, FULL, PAST_STATES};
use crate::watch::{all_rules, clean_rules, TYPICAL_RULES};
use compare::Input;
use course::Study;
use generator::generate::{chain_of_boxes, scattered, Random};
use std::io;

/// Properties and start methods that the case studies speak of, and the names of their rows.
const STUDIES: [(&str, &str); 4] = [
    ("property-from-1-of-a-never-calls-b", "a-never-calls-b"),
    ("property-from-1-of-evenodd-composed", "evenodd-composed"),
    ("property-from-5-of-purse-decomposition", UNSATISFIABLE),
    ("property-weak-from-5-of-purse-decomposition", "purse-decomposition, weak"),
];

/// The row that is timed once more with a property that nothing satisfies.
const UNSATISFIABLE: &str = "purse-decomposition";

pub fn inputs() -> io::Result<Vec<Timed>> {
    // A seed with which the typical graph has a trail of more than a few records.
    let mut random = Random::new(98);
    let all_bad = all_rules(|state, _| state + 1);
    let never_bad = all_rules(|state, event| (state + event) % 7);
    let mut inputs = vec![
        composed("P11, its callee not written", p11(&TRUE), 1),
        composed("the same, unsatisfiable", p11(&FALSE), 1),
    ];
    inputs.extend(studied()?);
    let typical = typical(&mut random);
    let [fits, too_large] = [224, 225].map(|nodes| large_graph(&mut random, &SEVEN, nodes));
    let lacking = large_graph(&mut random, &SEVEN[..6], 224);
    inputs.extend([
        composed("40 + 6 nodes, 80 + 44 edges, 8 rules", typical, 1),
        composed("224 + 32 nodes, 4,096 edges", beside_chain(&fits, &all_bad), 1),
        composed("the same, clean", beside_chain(&fits, &never_bad), 1),
        composed("225 + 32 nodes, refused", beside_chain(&too_large, &never_bad), 1),
        composed("224 + 32 nodes, impossible", beside_lacking(&lacking, &all_bad), 1),
        composed("1 + 255 nodes, 4,096 edges, clean", beside(FULL, &[1], 1, &never_bad), 2),
        composed("14 + 242 nodes, dear, clean", beside(DEAR, &[3, 7, 8], 14, &never_bad), 1),
        composed("model of 257 states, refused", beside(PAST_STATES, &[5], 1, &never_bad), 5),
        composed("256 nodes, entry last, clean", beside_nothing(&[1], true), 1),
        composed("the same, one method not entered", beside_nothing(&[1, 2], true), 1),
        composed("256 nodes, no entry", beside_nothing(&[1], false), 1),
    ]);
    Ok(inputs)
}

/// The case studies, and one of them with "false" in place of the property.
fn studied() -> io::Result<Vec<Timed>> {
    let mut inputs = Vec::new();
    for Study { name, files, start } in course::studies()? {
        let Some((_, row)) = STUDIES.iter().find(|(study, _)| *study == name) else { continue };
        inputs.push(composed(row, files.clone(), start));
        if *row == UNSATISFIABLE {
            let [known, graph, other, _, rules] = files;
            let files = [known, graph, other, FALSE.to_vec(), rules];
            inputs.push(composed(&format!("{row}, \"false\""), files, start));
        }
    }
    Ok(inputs)
}

pub fn growth() -> Vec<Series> {
    let composed = |nodes, rows| {
        let labels = [0, 1, 2, 3, 4];
        let graph = exactly(&mut Random::new(1), &labels[1..4], &labels, nodes, 4 * nodes);
        let [known, other] = [[5, 7, 15, 0, 0, 0], [5, 8, 15, 0, 0, 0]].map(Vec::from);
        Input {
            files: vec![known, graph, other, chain_of_boxes(rows), clean_rules(896)],
            number: 1,
        }
    };
    let nodes = |nodes| composed(nodes, 8);
    let rows = |rows| composed(64, rows);
    vec![
        series("4 edges a node, 8 rows", "known nodes", &NODES[..4], nodes),
        series("64 known nodes, 256 edges", "rows", &ROWS[..4], rows),
    ]
}

pub fn composed(name: &str, files: [Vec<u8>; 5], start: u8) -> Timed {
    timed(name, Input { files: files.into(), number: start.into() })
}

/// Method 1 calls method 2, of which this is demanded; its return is bad.
fn p11(property: &[u8]) -> [Vec<u8>; 5] {
    let graph = [[1, 1, 0, 1, 0, 0], [1, 1, 1, 0, 0, 0], [2, 0, 2, 1, 0, 0]].concat();
    let [known, other] = [[5, 1, 2, 0, 0, 0], [5, 2, 0, 0, 0, 0]].map(Vec::from);
    [known, graph, other, property.to_vec(), P11_RULES.to_vec()]
}

pub const TRUE: [u8; 6] = [3, 1, 0, 0, 0, 0];
pub const FALSE: [u8; 6] = [3, 2, 0, 0, 0, 0];
/// Method 2 returns to method 1.
pub const P11_RULES: [u8; 6] = [4, 0, 2, 2, 1, 7];

/// Three methods beside a fourth, which calls 1 only after 2.
fn typical(random: &mut Random) -> [Vec<u8>; 5] {
    let graph = scattered(random, &[1, 2, 3], &[0, 1, 2, 3, 4], 40, 80);
    let [known, other] = [[5, 7, 15, 0, 0, 0], [5, 8, 7, 0, 0, 0]].map(Vec::from);
    [known, graph, other, AFTER_2.concat(), TYPICAL_RULES.concat()]
}

/// Method 1 is not called before method 2, also after internal steps and calls of method 3.
pub const AFTER_2: [[u8; 6]; 9] = [
    [3, 7, 1, 2, 0, 0],
    [3, 9, 1, 3, 0, 0],
    [3, 7, 4, 5, 0, 0],
    [3, 2, 0, 0, 0, 0],
    [3, 9, 0, 0, 0, 0],
    [3, 7, 6, 7, 0, 0],
    [3, 9, 3, 0, 0, 0],
    [3, 9, 2, 8, 0, 0],
    [3, 9, 0, 8, 0, 0],
];

const SEVEN: [u8; 7] = [1, 2, 3, 4, 5, 6, 7];

/// So many nodes, and as many edges as there is room for beside the chain.
fn large_graph(random: &mut Random, methods: &[u8], nodes: usize) -> Vec<u8> {
    scattered(random, methods, &[0, 1, 2, 3, 4, 5, 6, 7, 8], nodes, 4_096 - 576)
}

/// Beside a method of which after each of 14 internal steps another row is demanded: its model has 32 states and 576 edges.
fn beside_chain(graph: &[u8], rules: &[u8]) -> [Vec<u8>; 5] {
    let [known, other] = [[5, 127, 255, 0, 0, 0], [5, 128, 255, 0, 0, 0]].map(Vec::from);
    [known, graph.to_vec(), other, chain_of_boxes(15), rules.to_vec()]
}

/// Beside two methods of which only the second may have entries; as much is demanded of these, and the model is as large.
fn beside_lacking(graph: &[u8], rules: &[u8]) -> [Vec<u8>; 5] {
    let [known, other] = [[5, 63, 255, 0, 0, 0], [5, 192, 255, 0, 0, 0]].map(Vec::from);
    let boxes = (3..17).map(|next| [3, 9, 0, next, 0, 0]);
    let rows = [[3, 7, 1, 2, 0, 0], [3, 3, 8, 0, 0, 0]].into_iter().chain(boxes).chain([TRUE]);
    [known, graph.to_vec(), other, rows.flatten().collect(), rules.to_vec()]
}

/// As many nodes as a graph may have, all of method 1, of which at most the last is an entry; these methods are provided, and the other side has none.
fn beside_nothing(provided: &[u8], enters: bool) -> [Vec<u8>; 5] {
    let node = |at: u8| [1, 1, 0, u8::from(enters && at == 255), 0, 0];
    let graph = (0..=255).flat_map(node).collect();
    let known = vec![5, set_of(provided), 0, 0, 0, 0];
    [known, graph, vec![5, 0, 0, 0, 0, 0], TRUE.to_vec(), Vec::new()]
}

fn set_of(methods: &[u8]) -> u8 {
    methods.iter().map(|method| 1 << (method - 1)).sum()
}

/// So many nodes of these methods, which the interface does not provide, beside a model; each node steps to itself under five labels.
fn beside(model: &str, methods: &[u8], nodes: u8, rules: &[u8]) -> [Vec<u8>; 5] {
    let [other, property] = interface_and_property(model);
    let required = set_of(methods) | other[1];
    let calls = (1..=8).filter(|label| required >> (label - 1) & 1 == 1);
    let labels: Vec<u8> = [0].into_iter().chain(calls).take(5).collect();
    let method = |node: u8| methods[usize::from(node) % methods.len()];
    let records = (0..nodes).map(|node| [1, method(node), 0, 1, 0, 0]);
    let loops = |node| labels.iter().map(move |&label| [2, node, label, node, 0, 0]);
    let graph = records.chain((0..nodes).flat_map(loops)).flatten().collect();
    let known = vec![5, set_of(methods), required, 0, 0, 0];
    [known, graph, other, property, rules.to_vec()]
}
