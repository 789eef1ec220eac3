//! What several calls are timed on: graphs of a size, and the files of the case studies.

use compare::Input;
use generator::generate::{scattered, Random};
use std::collections::BTreeMap;
use std::io;

/// Inputs of a call that are timed together.
pub struct Timed {
    pub name: String,
    pub inputs: Vec<Input>,
}

pub fn timed(name: &str, input: impl Into<Input>) -> Timed {
    Timed { name: name.to_string(), inputs: vec![input.into()] }
}

pub fn pair(name: &str, first: Vec<u8>, second: Vec<u8>) -> Timed {
    timed(name, [first, second])
}

/// 40 nodes and 80 edges.
pub fn typical_graph(random: &mut Random) -> Vec<u8> {
    scattered(random, &[1, 2, 3], &[0, 1, 2, 3], 40, 80)
}

/// 256 nodes and 4,096 edges.
pub fn largest_graph(random: &mut Random) -> Vec<u8> {
    scattered(random, &[1, 2, 3, 4, 5, 6, 7, 8], &[0, 1, 2, 3, 4, 5, 6, 7, 8], 256, 4096)
}

/// So many nodes of four methods and so many edges.
pub fn graph(random: &mut Random, nodes: usize, edges: usize) -> Vec<u8> {
    exactly(random, &[1, 2, 3, 4], &[0, 1, 2, 3, 4], nodes, edges)
}

/// Nodes and edges anywhere, none fewer.
pub fn exactly(
    random: &mut Random,
    methods: &[u8],
    labels: &[u8],
    nodes: usize,
    edges: usize,
) -> Vec<u8> {
    let graph = scattered(random, methods, labels, nodes, edges);
    assert_eq!(graph.len(), 6 * (nodes + edges), "there is no room for all edges");
    graph
}

/// A file of a case study, by its name there.
type Named = (String, Vec<u8>);

/// For each case study, every pair of two different files whose names begin with `first` and `second`.
pub fn cases(first: &str, second: &str) -> io::Result<Vec<Timed>> {
    let mut cases: BTreeMap<String, Vec<Named>> = BTreeMap::new();
    for example in course::examples()? {
        if let Some((name, case)) = example.name.trim_end_matches(".bin").split_once("-of-") {
            cases.entry(case.to_string()).or_default().push((name.to_string(), example.bytes));
        }
    }
    let rows = cases.into_iter();
    let rows = rows.map(|(name, files)| Timed { name, inputs: pairs(&files, first, second) });
    Ok(rows.filter(|row| !row.inputs.is_empty()).collect())
}

fn pairs(files: &[Named], first: &str, second: &str) -> Vec<Input> {
    let of = |kind| files.iter().filter(move |(name, _)| name.starts_with(kind));
    let all = of(first).flat_map(|one| of(second).map(move |other| (one, other)));
    let different = all.filter(|(one, other)| one.0 != other.0);
    different.map(|(one, other)| [one.1.clone(), other.1.clone()].into()).collect()
}
