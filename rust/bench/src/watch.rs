//! What watching is timed on.

use crate::growth::{series, Series, EDGES, NODES};
use crate::inputs::{exactly, largest_graph, timed, typical_graph, Timed};
use compare::Input;
use generator::extremes::{late_summary, longest_passing_trail, longest_trail, slow_summary};
use generator::generate::Random;

pub fn inputs() -> Vec<Timed> {
    // A seed with which the typical graph has a trail of more than a few records.
    let mut random = Random::new(94);
    let largest = largest_graph(&mut random);
    let all_bad = all_rules(|state, _| state + 1);
    let never_bad = all_rules(|state, event| (state + event) % 7);
    vec![
        watched("P11", [vec![5, 1, 1, 0, 0, 0], P11.concat(), vec![4, 0, 2, 1, 1, 7]]),
        watched("40 nodes, 80 edges, 8 rules", typical(&mut random)),
        watched("recursion through 8 methods", recursion()),
        watched("256 nodes, 4,096 edges, 896 rules", closed(&largest, all_bad)),
        watched("the same, clean", closed(&largest, never_bad)),
        watched("3,968 calls, summaries grow slowly", slow_summary()),
        watched("3,875 calls, summaries grow late", late_summary()),
        watched("trail of 1,793 records, entered", longest_trail()),
        watched("trail of 1,779 records, passed over", longest_passing_trail()),
    ]
}

pub fn growth() -> Vec<Series> {
    let watched = |nodes, edges, rules| {
        let files = [vec![5, 15, 15, 0, 0, 0], half_calls(nodes, edges), clean_rules(rules)];
        Input { files: files.into(), number: 1 }
    };
    let nodes = |nodes| watched(nodes, 4 * nodes, 896);
    let rules = |rules| watched(256, 1024, rules);
    vec![
        series("4 edges a node, 896 rules", "nodes", &NODES, nodes),
        series("256 nodes, 896 rules", "edges", &EDGES, |edges| watched(256, edges, 896)),
        series("256 nodes, 1024 edges", "rules", &[0, 8, 64, 256, 896], rules),
    ]
}

/// So many nodes of four methods and so many edges, half of which are calls.
fn half_calls(nodes: usize, edges: usize) -> Vec<u8> {
    // The same seed gives the same nodes.
    let methods = &[1, 2, 3, 4];
    let with = |labels| exactly(&mut Random::new(1), methods, labels, nodes, edges / 2);
    let [internal, calls] = [with(&[0]), with(methods)];
    let (nodes, steps) = internal.split_at(6 * nodes);
    let mut edges: Vec<&[u8]> = steps.chunks(6).chain(calls[nodes.len()..].chunks(6)).collect();
    edges.sort_unstable();
    [nodes, &edges.concat()].concat()
}

/// So many rules, spread over all states and events. They lead to any state but the bad one.
pub fn clean_rules(count: usize) -> Vec<u8> {
    let (mut all, mut random) = (all_rules(|_, _| 0), Random::new(1));
    all.chunks_mut(6).for_each(|rule| rule[5] = random.below(7) as u8);
    let rule = |at| &all[at * 896 / count * 6..][..6];
    (0..count).flat_map(rule).copied().collect()
}

const P11: [[u8; 6]; 4] =
    [[1, 1, 0, 1, 0, 0], [1, 1, 1, 0, 0, 0], [1, 1, 1, 1, 0, 0], [2, 0, 1, 1, 0, 0]];

/// From method 1.
fn watched(name: &str, files: [Vec<u8>; 3]) -> Timed {
    timed(name, Input { files: files.into(), number: 1 })
}

/// All methods are provided and required.
fn closed(graph: &[u8], rules: Vec<u8>) -> [Vec<u8>; 3] {
    [vec![5, 255, 255, 0, 0, 0], graph.to_vec(), rules]
}

/// A rule for every state and event.
pub fn all_rules(next: fn(u8, u8) -> u8) -> Vec<u8> {
    let pairs = || (1..=8).flat_map(|from| (1..=8).map(move |to| (from, to)));
    let keys = (0..7).flat_map(|state| [1, 2].map(|event| (state, event)));
    let rules = keys.flat_map(|(state, event)| {
        pairs().map(move |(from, to)| [4, state, event, from, to, next(state, event)])
    });
    rules.flatten().collect()
}

/// Three methods, watched by these rules.
fn typical(random: &mut Random) -> [Vec<u8>; 3] {
    [vec![5, 7, 7, 0, 0, 0], typical_graph(random), TYPICAL_RULES.concat()]
}

/// Calls and returns of method 2 count up to the bad state, and a call of 3 by 2 starts again.
pub const TYPICAL_RULES: [[u8; 6]; 8] = [
    [4, 0, 1, 1, 2, 1],
    [4, 1, 1, 2, 3, 0],
    [4, 1, 2, 2, 1, 2],
    [4, 2, 1, 2, 3, 0],
    [4, 2, 2, 2, 1, 3],
    [4, 3, 1, 2, 3, 0],
    [4, 3, 1, 3, 1, 4],
    [4, 4, 2, 2, 1, 7],
];

/// At each of its nodes but the last a method calls the next one or goes to the last, which returns; the state counts the calls that are open, up to 6.
fn recursion() -> [Vec<u8>; 3] {
    let nodes = (0..=255u8)
        .map(|at| [1, at / 32 + 1, u8::from(at % 32 == 31), u8::from(at % 32 == 0), 0, 0]);
    let edges = (0..=255u8).filter(|at| at % 32 != 31).flat_map(|at| {
        let next = (at / 32 + 1) % 8 + 1;
        let call = [2, at, next, at + 1, 0, 0];
        let end = [2, at, 0, at / 32 * 32 + 31, 0, 0];
        [end, call]
    });
    let graph: Vec<u8> = nodes.chain(edges).flatten().collect();
    closed(
        &graph,
        all_rules(|state, event| if event == 1 { (state + 1).min(6) } else { state.max(1) - 1 }),
    )
}
