//! Pairs of random graphs whose largest simulation is slow to find: one method, few kinds of nodes, and for each label edges of one family.

use crate::generate::{Random, LIMITS};
use crate::graphs::{graph_file, node, Edges};

const LABELS: usize = 9;
const LEAST_NODES: usize = 16;

#[derive(Clone)]
struct Graph {
    returns: Vec<bool>,
    edges: Edges,
}

/// How the edges of one label lead, by the number of a node among `nodes` and how many ends each has.
type Family = fn(usize, usize, usize) -> Vec<usize>;

const FAMILIES: [Family; 6] = [
    |node, _, _| vec![node],
    |node, nodes, _| vec![(node + 1) % nodes],
    |node, nodes, _| (node + 1..nodes).take(1).collect(),
    |node, nodes, ends| (node..nodes).take(ends + 1).collect(),
    |node, nodes, ends| (1..=ends).map(|far| (node + far) % nodes).collect(),
    |_, nodes, ends| (0..ends).map(|hub| hub * (nodes / ends)).collect(),
];

/// The second graph is another one, the same, or the same without some edges.
pub fn hard_pair(random: &mut Random) -> [Vec<u8>; 2] {
    let first = graph(random);
    let second = match random.below(3) {
        0 => graph(random),
        1 => first.clone(),
        _ => thinned(random, &first),
    };
    [first, second].map(|graph| file(&graph))
}

fn graph(random: &mut Random) -> Graph {
    let nodes = LEAST_NODES + random.below(LIMITS.nodes - LEAST_NODES + 1);
    let numbers = numbering(random, nodes);
    let labels = 1 + random.below(LABELS);
    let most = LIMITS.edges / labels / nodes;
    let mut edges = Edges::new();
    for label in 0..labels as u8 {
        let ends = 1 + random.below(most.max(1));
        for (from, to) in family(random, nodes, ends) {
            edges.insert((numbers[from], label, numbers[to]));
        }
    }
    let rare = random.pick(&[1, 8, nodes]);
    let returns = (0..nodes).map(|_| rare > 1 && random.once_in(rare)).collect();
    let mut graph = Graph { returns, edges };
    while graph.edges.len() > LIMITS.edges {
        drop_edge(random, &mut graph);
    }
    graph
}

/// Edges of one family, or the same turned round, or anywhere.
fn family(random: &mut Random, nodes: usize, ends: usize) -> Vec<(usize, usize)> {
    if random.once_in(FAMILIES.len() + 1) {
        return (0..nodes * ends).map(|_| (random.below(nodes), random.below(nodes))).collect();
    }
    let family = random.pick(&FAMILIES);
    let turned = random.once_in(2);
    let edges =
        (0..nodes).flat_map(|from| family(from, nodes, ends).into_iter().map(move |to| (from, to)));
    edges.map(|(from, to)| if turned { (to, from) } else { (from, to) }).collect()
}

/// The numbers of the nodes: in order, backward, or shuffled.
fn numbering(random: &mut Random, nodes: usize) -> Vec<u8> {
    let mut numbers: Vec<u8> = (0..nodes).map(|node| node as u8).collect();
    match random.below(3) {
        0 => {}
        1 => numbers.reverse(),
        _ => random.shuffle(&mut numbers),
    }
    numbers
}

fn thinned(random: &mut Random, graph: &Graph) -> Graph {
    let mut graph = graph.clone();
    for _ in 0..=random.below(8) {
        drop_edge(random, &mut graph);
    }
    graph
}

fn drop_edge(random: &mut Random, graph: &mut Graph) {
    if let Some(&edge) = graph.edges.iter().nth(random.below(graph.edges.len().max(1))) {
        graph.edges.remove(&edge);
    }
}

fn file(graph: &Graph) -> Vec<u8> {
    let nodes: Vec<_> = graph.returns.iter().map(|&returns| node(1, returns, true)).collect();
    graph_file(&nodes, &graph.edges)
}
