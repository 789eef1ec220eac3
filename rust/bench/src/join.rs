//! What joining is timed on.

use crate::growth::{series, Series, EDGES};
use crate::inputs::{exactly, timed, Timed};
use generator::generate::{Random, Sides};

pub fn inputs() -> Vec<Timed> {
    let mut random = Random::new(1);
    vec![
        timed("40 + 40 nodes, 80 + 80 edges", sides(&mut random, [40, 40], 80)),
        timed("128 + 128 nodes, 2,048 + 2,048 edges", sides(&mut random, [128, 128], 2048)),
        timed("200 + 57 nodes, 2,048 + 2,048 edges", sides(&mut random, [200, 57], 2048)),
    ]
}

pub fn growth() -> Vec<Series> {
    let mut random = Random::new(1);
    let joined = |edges| sides(&mut random, [128, 128], edges).into();
    vec![series("128 + 128 nodes", "edges each", &EDGES[..4], joined)]
}

/// Sides with four methods, so many nodes and so many edges each.
fn sides(random: &mut Random, nodes: [usize; 2], edges: usize) -> Sides {
    let mut graph = |methods: &[u8], nodes: usize| {
        exactly(random, methods, &[0, 1, 2, 3, 4, 5, 6, 7, 8], nodes, edges)
    };
    let graphs = [graph(&[1, 2, 3, 4], nodes[0]), graph(&[5, 6, 7, 8], nodes[1])];
    let interfaces = [0x0f, 0xf0].map(|provided| vec![5, provided, 255, 0, 0, 0]);
    let ([graph1, graph2], [interface1, interface2]) = (graphs, interfaces);
    [interface1, graph1, interface2, graph2]
}
