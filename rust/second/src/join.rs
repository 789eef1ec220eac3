//! Joining two flow graphs.

use crate::graph::Graph;
use crate::record::Limits;

/// Both graphs in one; `None` when this passes the limits.
pub(crate) fn joined_within(limits: &Limits, first: &Graph, second: &Graph) -> Option<Graph> {
    fit_joined(limits, first, second).then(|| joined(first, second))
}

/// Whether both graphs in one would be within the limits.
pub(crate) fn fit_joined(limits: &Limits, first: &Graph, second: &Graph) -> bool {
    let nodes = first.nodes.len() + second.nodes.len();
    let edges = first.edges.len() + second.edges.len();
    limits.allow(nodes, edges)
}

/// Both graphs in one, the second's nodes after the first's. The edges are then in order: all
/// sources of the second come after those of the first.
pub fn joined(first: &Graph, second: &Graph) -> Graph {
    let shift = first.nodes.len();
    let nodes = [first.nodes.as_slice(), &second.nodes].concat();
    let moved = second.edges.iter().map(|edge| edge.moved(shift));
    let edges = first.edges.iter().copied().chain(moved).collect();
    Graph::new(nodes, edges)
}
