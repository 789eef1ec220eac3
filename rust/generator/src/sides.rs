//! Two sides to be joined, each of an interface and a graph.

use crate::generate::{graph_of, interface_of, scattered, Random, Size, LIMITS};

/// Interface and graph of the first side, then of the second.
pub type Sides = [Vec<u8>; 4];

/// In one pair of eight a method may be provided by both, and one graph in eight may have nodes or calls that are not of its interface.
pub fn sides(random: &mut Random) -> Sides {
    let provided = random.byte();
    let free = if random.once_in(8) { u8::MAX } else { !provided };
    let provided = [provided, random.byte() & free];
    paired(provided.map(|provided| {
        let required = random.byte();
        let [methods, calls] = foreign(random, 8);
        let graph = graph_of(random, Size::Small, provided | methods, required | calls);
        [interface_of(provided, required), graph]
    }))
}

/// Methods that a graph has and methods that it calls though its interface may not have them: none but once in `times`.
pub(crate) fn foreign(random: &mut Random, times: usize) -> [u8; 2] {
    match random.below(2 * times) {
        0 => [random.byte(), 0],
        1 => [0, random.byte()],
        _ => [0, 0],
    }
}

/// Together the sides have about as many nodes as a graph may have, and half of them about as many edges.
pub fn sides_at_the_limits(random: &mut Random) -> Sides {
    let nodes = about(random, LIMITS.nodes);
    let edges = if random.once_in(2) { about(random, LIMITS.edges) } else { random.below(64) };
    // Either side has nodes enough for all edges.
    let first_nodes = LIMITS.nodes / 4 + random.below(LIMITS.nodes / 2);
    let first_edges = random.below(edges + 1);
    paired([
        side(random, [1, 2], first_nodes, first_edges),
        side(random, [3, 4], nodes - first_nodes, edges - first_edges),
    ])
}

pub(crate) fn about(random: &mut Random, limit: usize) -> usize {
    limit - 4 + random.below(9)
}

/// A side that provides two methods and requires all, with so many nodes and edges.
fn side(random: &mut Random, methods: [u8; 2], nodes: usize, edges: usize) -> [Vec<u8>; 2] {
    let provided = methods.iter().map(|method| 1 << (method - 1)).sum();
    let graph = scattered(random, &methods, &[0, 1, 2, 3, 4, 5, 6, 7, 8], nodes, edges);
    [interface_of(provided, u8::MAX), graph]
}

fn paired([first, second]: [[Vec<u8>; 2]; 2]) -> Sides {
    let ([interface1, graph1], [interface2, graph2]) = (first, second);
    [interface1, graph1, interface2, graph2]
}
