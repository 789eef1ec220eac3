//! The largest simulation between two flow graphs.

use crate::graph::Graph;
use crate::record::{Edge, LABELS, METHODS};
use crate::set::ByteSet;

/// For each node of the first graph, the nodes of the second that simulate it.
pub(crate) fn largest_simulation(first: &Graph, second: &Graph) -> Vec<ByteSet> {
    let mut refinement = Refinement::new(first, second);
    let order = postorder(first);
    // Successors first: what a row loses is then handed on in few and large parts.
    while refinement.pending > 0 {
        order.iter().for_each(|&node| refinement.settle(node));
    }
    refinement.related
}

/// The lowest entry of the first graph that is related to no entry of the second.
pub(crate) fn uncovered_entry(first: &Graph, second: &Graph, related: &[ByteSet]) -> Option<usize> {
    let entries = second.entries().collect();
    first.entries().find(|&node| related[node].is_disjoint(&entries))
}

/// The nodes in the order in which a depth-first search leaves them, so that a node comes after
/// its successors wherever there is no cycle.
fn postorder(graph: &Graph) -> Vec<usize> {
    let mut order = Vec::with_capacity(graph.nodes.len());
    let mut seen = ByteSet::EMPTY;
    for root in 0..graph.nodes.len() {
        let mut path = Vec::new();
        if !seen.contains(root) {
            seen.insert(root);
            path.push((root, graph.outgoing(root).iter()));
        }
        while let Some((node, edges)) = path.last_mut() {
            let Some(edge) = edges.find(|edge| !seen.contains(edge.to)) else {
                order.push(*node);
                path.pop();
                continue;
            };
            seen.insert(edge.to);
            path.push((edge.to, graph.outgoing(edge.to).iter()));
        }
    }
    order
}

/// For each node and label, the nodes at the other end of its edges.
type Neighbours = Vec<[ByteSet; LABELS]>;

fn neighbours(graph: &Graph, ends: impl Fn(&Edge) -> (usize, usize)) -> Neighbours {
    let mut neighbours = vec![[ByteSet::EMPTY; LABELS]; graph.nodes.len()];
    for edge in &graph.edges {
        let (node, other) = ends(edge);
        neighbours[node][edge.label].insert(other);
    }
    neighbours
}

/// For each label, the nodes that have an edge with it.
fn labelled(successors: &Neighbours) -> [ByteSet; LABELS] {
    let has = |node: usize, label: usize| !successors[node][label].is_empty();
    let nodes = 0..successors.len();
    std::array::from_fn(|label| nodes.clone().filter(|&node| has(node, label)).collect())
}

/// For each method and return flag, the nodes that have them.
fn alike(graph: &Graph) -> [[ByteSet; 2]; METHODS] {
    let mut alike = [[ByteSet::EMPTY; 2]; METHODS];
    for (at, node) in graph.nodes.iter().enumerate() {
        alike[node.method - 1][usize::from(node.returns)].insert(at);
    }
    alike
}

/// Removes pairs from the relation until it is a simulation.
struct Refinement<'a> {
    first: &'a Graph,
    successors: Neighbours,
    predecessors: Neighbours,
    related: Vec<ByteSet>,
    /// What each row of the relation has lost since it was last taken.
    lost: Vec<ByteSet>,
    /// For each node of the first graph and each label, the nodes of the second known to have such
    /// an edge to a related node. A node that leaves this set never comes back to it.
    able: Neighbours,
    /// How many rows have lost something.
    pending: usize,
}

impl<'a> Refinement<'a> {
    /// Starts from nodes that agree on method, flag and having labels.
    fn new(first: &'a Graph, second: &Graph) -> Refinement<'a> {
        let successors = neighbours(second, |edge| (edge.from, edge.to));
        let predecessors = neighbours(second, |edge| (edge.to, edge.from));
        let labelled = labelled(&successors);
        let alike = alike(second);
        let mut related = Vec::new();
        let mut lost = Vec::new();
        for (at, node) in first.nodes.iter().enumerate() {
            let of_method = &alike[node.method - 1];
            let row = first
                .outgoing(at)
                .iter()
                .map(|edge| &labelled[edge.label])
                .fold(of_method[usize::from(node.returns)], |row, able| row.intersection(able));
            // Edges stay inside a method, so only nodes of the same method can be missed.
            lost.push(of_method[0].union(&of_method[1]).without(&row));
            related.push(row);
        }
        let pending = lost.iter().filter(|lost| !lost.is_empty()).count();
        let able = vec![labelled; first.nodes.len()];
        Refinement { first, successors, predecessors, related, lost, able, pending }
    }

    /// Takes a node until its row has nothing to hand on, not even to itself over an edge.
    fn settle(&mut self, node: usize) {
        while !self.lost[node].is_empty() {
            self.pending -= 1;
            self.take(node);
        }
    }

    /// Hands on what the row of a node has lost to the rows of its predecessors.
    fn take(&mut self, node: usize) {
        let lost = std::mem::take(&mut self.lost[node]);
        let first = self.first;
        for edges in first.incoming(node).chunk_by(|a, b| a.label == b.label) {
            let label = edges[0].label;
            let unable = self.unable(node, label, &lost);
            if unable.is_empty() {
                continue;
            }
            self.able[node][label] = self.able[node][label].without(&unable);
            for edge in edges {
                self.remove(edge.from, &unable);
            }
        }
    }

    /// The nodes of the second graph that no longer have an edge to a node related to `node`. It is
    /// found from what is lost or from what is left, whichever is less.
    fn unable(&self, node: usize, label: usize, lost: &ByteSet) -> ByteSet {
        let able = &self.able[node][label];
        let related = &self.related[node];
        if related.len() <= lost.len() {
            return able.without(&self.before(related, label));
        }
        let affected = self.before(lost, label).intersection(able);
        affected
            .iter()
            .filter(|&other| self.successors[other][label].is_disjoint(related))
            .collect()
    }

    /// The nodes of the second graph with an edge to one of `nodes`.
    fn before(&self, nodes: &ByteSet, label: usize) -> ByteSet {
        nodes.iter().fold(ByteSet::EMPTY, |all, node| all.union(&self.predecessors[node][label]))
    }

    fn remove(&mut self, node: usize, unable: &ByteSet) {
        let gone = self.related[node].intersection(unable);
        if gone.is_empty() {
            return;
        }
        self.related[node] = self.related[node].without(&gone);
        if self.lost[node].is_empty() {
            self.pending += 1;
        }
        self.lost[node] = self.lost[node].union(&gone);
    }
}
