//! Flow graphs that conform to an interface and a property: they map into its maximal model, or are any that a judge lets pass. They may be larger than a file can be.

use crate::generate::{graph_of, Random, Size, LIMITS};
use crate::graphs::{labels_of, members};
use second::files::check_graph;
use second::graph::Graph;
use second::record::{Edge, Interface, Node};

/// A side that is not written: its interface, and the maximal model of its property.
pub struct Conforming<'a> {
    interface: Interface,
    model: &'a Graph,
    entries: Vec<usize>,
}

impl Conforming<'_> {
    pub fn new(interface: Interface, model: &Graph) -> Conforming<'_> {
        Conforming { interface, model, entries: model.entries().collect() }
    }

    /// A graph all of whose entries map into the model. One in sixteen may be larger than the model and one in 512 than a file may be; one in eight has further nodes,
    /// which nothing leads to and the property says nothing of.
    pub fn mapped(&self, random: &mut Random) -> Graph {
        let steps = match random.below(512) {
            0 => 2 * LIMITS.nodes + random.below(LIMITS.nodes),
            1..32 => 3 * self.model.nodes.len(),
            _ => random.below(16),
        };
        let mut mapped =
            Mapped { model: self.model, images: Vec::new(), edges: Vec::new(), nodes: Vec::new() };
        if !self.entries.is_empty() {
            for _ in 0..1 + random.below(4) {
                mapped.add(random.pick(&self.entries), true);
            }
            (0..steps).for_each(|_| mapped.grow(random));
        }
        if random.once_in(8) && self.interface.provided != 0 {
            self.add_unreachable(random, &mut mapped);
        }
        mapped.graph()
    }

    /// A random graph of the interface, if the judge lets it pass.
    pub fn judged(&self, random: &mut Random, judge: impl Fn(&Graph) -> bool) -> Option<Graph> {
        let Interface { provided, required } = self.interface;
        let file = graph_of(random, Size::Small, provided, required);
        check_graph(&file, &LIMITS).ok().filter(judge)
    }

    fn add_unreachable(&self, random: &mut Random, mapped: &mut Mapped) {
        let Interface { provided, required } = self.interface;
        let labels = labels_of(required);
        for _ in 0..1 + random.below(2) {
            let method = random.pick(&members(provided)).into();
            let from = mapped.nodes.len();
            mapped.nodes.push(Node { method, returns: random.once_in(2), entry: false });
            let to = random.below(mapped.nodes.len());
            if mapped.nodes[to].method == method {
                mapped.edges.push(Edge { from, label: random.pick(&labels).into(), to });
            }
        }
    }
}

/// A graph whose nodes are copies of model states, its edges copies of model edges.
struct Mapped<'a> {
    model: &'a Graph,
    /// The state that each node is a copy of.
    images: Vec<usize>,
    nodes: Vec<Node>,
    edges: Vec<Edge>,
}

impl Mapped<'_> {
    fn add(&mut self, image: usize, entry: bool) -> usize {
        self.images.push(image);
        self.nodes.push(Node { entry, ..self.model.nodes[image] });
        self.images.len() - 1
    }

    /// A copy of an edge from some node, to a copy of its target that may be a new one.
    fn grow(&mut self, random: &mut Random) {
        let from = random.below(self.images.len());
        let edges = self.model.outgoing(self.images[from]);
        if edges.is_empty() {
            return;
        }
        let Edge { label, to, .. } = random.pick(edges);
        let turn = random.below(self.images.len());
        let (before, after) = self.images.split_at(turn);
        let found = after.iter().chain(before).position(|&image| image == to);
        let to = match found {
            Some(at) if random.once_in(2) => (turn + at) % self.images.len(),
            _ => self.add(to, self.model.nodes[to].entry && random.once_in(2)),
        };
        self.edges.push(Edge { from, label, to });
    }

    fn graph(mut self) -> Graph {
        self.edges.sort_unstable();
        self.edges.dedup();
        Graph::new(self.nodes, self.edges)
    }
}
