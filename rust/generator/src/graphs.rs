//! Random valid graphs.

use crate::generate::{Random, Size, LIMITS};
use second::record::{kind, Record, LABELS, METHODS, RECORD_LEN};
use std::collections::BTreeSet;

pub fn graph(random: &mut Random, size: Size) -> Vec<u8> {
    graph_of(random, size, u8::MAX, u8::MAX)
}

/// A graph of the interface with these two sets.
pub fn graph_of(random: &mut Random, size: Size, provided: u8, required: u8) -> Vec<u8> {
    let (methods, labels) = (members(provided), labels_of(required));
    if methods.is_empty() {
        return Vec::new();
    }
    match (size, random.below(4)) {
        (Size::Small, 0) => call_chain(random, &methods, &labels),
        (Size::Small, _) => {
            let (nodes, edges) = (random.below(9), random.below(17));
            let methods = &methods[..1 + random.below(methods.len().min(3))];
            // Most calls are of methods that have nodes.
            let few = if random.once_in(4) { LABELS } else { 1 + methods.len() };
            scattered(random, methods, &labels[..few.min(labels.len())], nodes, edges)
        }
        (Size::Large, 0) => cycle(random, methods[0], &labels),
        (Size::Large, 1) => {
            let (nodes, edges) = (random.below(LIMITS.nodes + 1), random.below(LIMITS.edges + 1));
            scattered(random, &methods, &labels, nodes, edges)
        }
        (Size::Large, _) => scattered(random, &methods, &labels, LIMITS.nodes, LIMITS.edges),
    }
}

pub(crate) fn members(set: u8) -> Vec<u8> {
    (1..=METHODS as u8).filter(|m| set >> (m - 1) & 1 == 1).collect()
}

/// The internal step and the calls that a graph may have.
pub(crate) fn labels_of(required: u8) -> Vec<u8> {
    [vec![0], members(required)].concat()
}

pub(crate) type Edges = BTreeSet<(u8, u8, u8)>;

/// Nodes and edges anywhere; fewer edges where there is no room for more.
pub fn scattered(
    random: &mut Random,
    methods: &[u8],
    labels: &[u8],
    nodes: usize,
    edges: usize,
) -> Vec<u8> {
    let records: Vec<Record> = (0..nodes)
        .map(|_| node(random.pick(methods), random.once_in(3), random.once_in(2)))
        .collect();
    let mut places = vec![Vec::new(); LABELS];
    for (at, record) in records.iter().enumerate() {
        places[usize::from(record[1])].push(at as u8);
    }
    let mut chosen = Edges::new();
    for _ in 0..edges * 2 {
        if chosen.len() == edges || nodes == 0 {
            break;
        }
        let from = random.below(nodes);
        let to = random.pick(&places[usize::from(records[from][1])]);
        chosen.insert((from as u8, random.pick(labels), to));
    }
    graph_file(&records, &chosen)
}

/// Every node of one method on one cycle with few calls, perhaps only of
/// the method itself: the longest ways that faults and runs can take.
fn cycle(random: &mut Random, method: u8, labels: &[u8]) -> Vec<u8> {
    let last = LIMITS.nodes - 1;
    let records: Vec<Record> = (0..=last)
        .map(|at| node(method, at == last && random.once_in(2), at == 0 || random.once_in(64)))
        .collect();
    let own = labels.contains(&method) && random.once_in(2);
    let calls = if own { &[method] } else { labels };
    let spacing = random.pick(&[64, 256]);
    let mut edges = Edges::new();
    for from in 0..=last {
        let label = if random.once_in(spacing) { random.pick(calls) } else { 0 };
        edges.insert((from as u8, label, ((from + 1) % LIMITS.nodes) as u8));
    }
    graph_file(&records, &edges)
}

/// Each method calls the next one and returns, and the last may call the
/// first or return at once: recursion through all of them.
fn call_chain(random: &mut Random, methods: &[u8], labels: &[u8]) -> Vec<u8> {
    let mut records = Vec::new();
    let mut edges = Edges::new();
    for (at, &method) in methods.iter().enumerate() {
        let first = records.len() as u8;
        records.push(node(method, false, true));
        records.push(node(method, true, random.once_in(4)));
        let next = methods[(at + 1) % methods.len()];
        if labels.contains(&next) && (at + 1 < methods.len() || random.once_in(2)) {
            edges.insert((first, next, first + 1));
        }
        if at + 1 == methods.len() || random.once_in(4) {
            edges.insert((first, random.pick(labels), first + random.below(2) as u8));
        }
    }
    graph_file(&records, &edges)
}

/// The graph with one edge less, if it has one.
pub fn without_an_edge(random: &mut Random, graph: &[u8]) -> Vec<u8> {
    let (records, _) = graph.as_chunks::<RECORD_LEN>();
    let mut records = records.to_vec();
    let nodes = records.iter().filter(|record| record[0] == kind::NODE).count();
    if nodes < records.len() {
        records.remove(nodes + random.below(records.len() - nodes));
    }
    records.concat()
}

pub(crate) fn node(method: u8, returns: bool, entry: bool) -> Record {
    [kind::NODE, method, u8::from(returns), u8::from(entry), 0, 0]
}

pub(crate) fn graph_file(nodes: &[Record], edges: &Edges) -> Vec<u8> {
    let edges = edges.iter().map(|&(from, label, to)| [kind::EDGE, from, label, to, 0, 0]);
    nodes.iter().copied().chain(edges).flatten().collect()
}
