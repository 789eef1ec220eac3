//! A side that is not written, and graphs that conform to it.

use generator::conforming::Conforming;
use generator::generate::Random;
use second::files::{check_graph, check_interface, check_property};
use second::graph::Graph;
use second::record::{Interface, Limits, Node, Row, METHODS};
use second::unlimited::satisfies;
use second::Outcome;
use std::borrow::Cow;
use tintboulder::{judge, Judged};

/// Its files, which are not refused, and the model.
pub struct Unwritten<'a> {
    interface: Interface,
    property: &'a [u8],
    rows: Vec<Row>,
    pub model: Graph,
}

pub const ACCEPTED: &str = "a file that is not refused";

impl<'a> Unwritten<'a> {
    pub fn of(interface: &[u8], property: &'a [u8]) -> Unwritten<'a> {
        let limits = &Limits::DESK;
        let Outcome::Said { written: model, .. } =
            second::model(limits, interface, property, usize::MAX, 0, 0)
        else {
            panic!("{ACCEPTED}");
        };
        Unwritten {
            interface: check_interface(interface).expect(ACCEPTED),
            property,
            rows: check_property(property, limits).expect(ACCEPTED),
            model: check_graph(&model, limits).expect(ACCEPTED),
        }
    }

    /// The model itself, then graphs that map into it, and in place of one in eight a random one if it satisfies the property.
    pub fn graph(&self, at: u64, random: &mut Random) -> Cow<'_, Graph> {
        let conforming = Conforming::new(self.interface, &self.model);
        let any = (at % 8 == 1).then(|| conforming.judged(random, |graph| self.holds(graph)));
        match any.flatten() {
            _ if at == 0 => Cow::Borrowed(&self.model),
            Some(graph) => Cow::Owned(graph),
            None => Cow::Owned(conforming.mapped(random)),
        }
    }

    /// A provided method of which no entry satisfies the property, whatever graph it is in. The model is not asked: without edges every box holds, so that an entry that
    /// satisfies it in some graph also does alone.
    pub fn unentered(&self) -> Option<usize> {
        let stands = |method, returns| {
            self.holds(&Graph::new(vec![Node { method, returns, entry: true }], Vec::new()))
        };
        provided(self.interface).find(|&method| !stands(method, false) && !stands(method, true))
    }

    /// Whether each provided method has an entry in the graph.
    pub fn loads(&self, graph: &Graph) -> bool {
        missing_entry(self.interface, graph).is_none()
    }

    fn holds(&self, graph: &Graph) -> bool {
        satisfies(graph, &self.rows)
    }

    /// The graph satisfies the property, also by the proved judge where it can be a file. Tells whether it can.
    pub fn check(&self, graph: &Graph, work: &mut [u8]) -> Result<bool, &'static str> {
        let Limits { nodes, edges, .. } = Limits::DESK;
        let is_file = graph.nodes.len() <= nodes && graph.edges.len() <= edges;
        if !self.holds(graph) {
            return Err("the second judge fails");
        }
        if is_file && judge(&graph.bytes(), self.property, &mut [], work) != Ok(Judged::Holds) {
            return Err("the proved judge fails");
        }
        Ok(is_file)
    }
}

fn provided(interface: Interface) -> impl Iterator<Item = usize> {
    (1..=METHODS).filter(move |&method| interface.provides(method))
}

/// A method that the interface provides and the graph has no entry of.
pub fn missing_entry(interface: Interface, graph: &Graph) -> Option<usize> {
    let entered = |method| graph.entries().any(|node| graph.nodes[node].method == method);
    provided(interface).find(|&method| !entered(method))
}
