//! Flow graphs with their edges found by source and by target.

use crate::record::{Edge, Interface, Node, LABELS};

/// A flow graph. Its edges ascend by (from, label, to).
#[derive(Clone, Debug)]
pub struct Graph {
    pub nodes: Vec<Node>,
    pub edges: Vec<Edge>,
    by_source: Index,
    by_target: Index,
    /// The edges again, ascending by (to, label, from).
    reversed: Vec<Edge>,
}

/// Where the edges of each (node, label) start in a list ordered by node and label.
#[derive(Clone, Debug)]
struct Index {
    starts: Vec<usize>,
}

impl Index {
    fn new(nodes: usize, edges: &[Edge], node: impl Fn(&Edge) -> usize) -> Index {
        let mut starts = vec![0; nodes * LABELS + 1];
        for edge in edges {
            starts[node(edge) * LABELS + edge.label + 1] += 1;
        }
        for slot in 1..starts.len() {
            starts[slot] += starts[slot - 1];
        }
        Index { starts }
    }

    fn of_node<'a>(&self, edges: &'a [Edge], node: usize) -> &'a [Edge] {
        &edges[self.starts[node * LABELS]..self.starts[(node + 1) * LABELS]]
    }

    fn of_label<'a>(&self, edges: &'a [Edge], node: usize, label: usize) -> &'a [Edge] {
        let slot = node * LABELS + label;
        &edges[self.starts[slot]..self.starts[slot + 1]]
    }
}

impl Graph {
    /// Builds the indexes; `edges` must ascend and join nodes of the graph.
    pub fn new(nodes: Vec<Node>, edges: Vec<Edge>) -> Graph {
        let by_source = Index::new(nodes.len(), &edges, |edge| edge.from);
        let by_target = Index::new(nodes.len(), &edges, |edge| edge.to);
        let mut next = by_target.starts.clone();
        let mut reversed = edges.clone();
        for edge in &edges {
            let slot = &mut next[edge.to * LABELS + edge.label];
            reversed[*slot] = *edge;
            *slot += 1;
        }
        Graph { nodes, edges, by_source, by_target, reversed }
    }

    /// The graph as a file.
    pub fn bytes(&self) -> Vec<u8> {
        let nodes = self.nodes.iter().map(Node::record);
        let edges = self.edges.iter().map(Edge::record);
        nodes.chain(edges).flatten().collect()
    }

    /// The edges from a node, ascending by (label, to).
    pub fn outgoing(&self, node: usize) -> &[Edge] {
        self.by_source.of_node(&self.edges, node)
    }

    /// The edges to a node, ascending by (label, from).
    pub fn incoming(&self, node: usize) -> &[Edge] {
        self.by_target.of_node(&self.reversed, node)
    }

    /// The edges from a node with one label, ascending by target.
    pub(crate) fn outgoing_with(&self, node: usize, label: usize) -> &[Edge] {
        self.by_source.of_label(&self.edges, node, label)
    }

    /// The edges to a node with one label, ascending by source.
    pub(crate) fn incoming_with(&self, node: usize, label: usize) -> &[Edge] {
        self.by_target.of_label(&self.reversed, node, label)
    }

    /// The entry nodes of all methods, ascending.
    pub fn entries(&self) -> impl Iterator<Item = usize> + '_ {
        (0..self.nodes.len()).filter(|&node| self.nodes[node].entry)
    }

    /// The entry nodes of one method, ascending.
    pub(crate) fn entries_of(&self, method: usize) -> impl Iterator<Item = usize> + '_ {
        self.entries().filter(move |&node| self.nodes[node].method == method)
    }

    /// Whether each provided method has an entry node: a loader rejects the graph otherwise.
    pub(crate) fn has_all_entries(&self, interface: &Interface) -> bool {
        interface.provided_methods().all(|method| self.entries_of(method).next().is_some())
    }
}
