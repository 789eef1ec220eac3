//! The maximal model of an interface and a property.

use crate::graph::Graph;
use crate::record::{Edge, Interface, Limits, Node, Row, INTERNAL, METHODS};
use crate::set::ByteSet;
use crate::support::Place;
use std::collections::BTreeMap;

/// The maximal model; `None` when it passes the limits on nodes or edges.
pub(crate) fn maximal_model(limits: &Limits, interface: &Interface, rows: &[Row]) -> Option<Graph> {
    let mut builder = Builder::new(limits, interface, rows);
    for method in interface.provided_methods() {
        builder.successors(method, ByteSet::single(0))?;
    }
    let entries = builder.states.len();
    while builder.steps.len() < builder.states.len() {
        builder.explore(builder.steps.len())?;
    }
    Some(builder.graph(entries))
}

/// States are ordered by method, flag, then the sum of 2^row.
#[derive(Clone, Copy, PartialEq, Eq, PartialOrd, Ord)]
struct State {
    method: usize,
    returns: bool,
    rows: ByteSet,
}

struct Builder<'a> {
    limits: &'a Limits,
    rows: &'a [Row],
    labels: Vec<usize>,
    /// For each provided method, what the rows demand under either flag.
    places: BTreeMap<usize, [Place; 2]>,
    /// The states in the order in which they were found.
    states: Vec<State>,
    /// The place of each state in `states`.
    found: BTreeMap<State, usize>,
    /// Lists of states, one for each method and set of obligations.
    targets: Vec<Vec<usize>>,
    /// The place in `targets` of the list of each method and set of obligations.
    worked: BTreeMap<(usize, ByteSet), usize>,
    /// For each state explored and each label, the place in `targets` of its successors.
    steps: Vec<Vec<usize>>,
    edges: usize,
}

impl<'a> Builder<'a> {
    fn new(limits: &'a Limits, interface: &Interface, rows: &'a [Row]) -> Builder<'a> {
        let required = (1..=METHODS).filter(|&method| interface.requires(method));
        let place = |method| [false, true].map(|returns| Place::new(rows, method, returns));
        Builder {
            limits,
            rows,
            labels: std::iter::once(INTERNAL).chain(required).collect(),
            places: interface.provided_methods().map(|method| (method, place(method))).collect(),
            states: Vec::new(),
            found: BTreeMap::new(),
            targets: Vec::new(),
            worked: BTreeMap::new(),
            steps: Vec::new(),
            edges: 0,
        }
    }

    /// The place in `targets` of the minimal supports of a set of rows, under either flag.
    fn successors(&mut self, method: usize, obligations: ByteSet) -> Option<usize> {
        if let Some(&list) = self.worked.get(&(method, obligations)) {
            return Some(list);
        }
        let mut targets = Vec::new();
        for returns in [false, true] {
            let place = &self.places[&method][usize::from(returns)];
            for rows in place.minimal_supports(&obligations) {
                targets.push(self.number(State { method, returns, rows })?);
            }
        }
        let list = self.targets.len();
        self.targets.push(targets);
        self.worked.insert((method, obligations), list);
        Some(list)
    }

    /// The place of a state; `None` when there are more states than the limit allows.
    fn number(&mut self, state: State) -> Option<usize> {
        let next = self.states.len();
        let number = *self.found.entry(state).or_insert(next);
        if number == next {
            self.states.push(state);
        }
        (self.states.len() <= self.limits.nodes).then_some(number)
    }

    /// Finds the successors of a state; `None` when the model passes the limits.
    fn explore(&mut self, state: usize) -> Option<()> {
        let State { method, rows, .. } = self.states[state];
        let mut lists = Vec::new();
        for at in 0..self.labels.len() {
            let label = self.labels[at];
            let obligations = rows.iter().filter_map(|row| self.rows[row].box_operand(label));
            let list = self.successors(method, obligations.collect())?;
            self.edges += self.targets[list].len();
            lists.push(list);
        }
        self.steps.push(lists);
        (self.edges <= self.limits.edges).then_some(())
    }

    /// The states and their edges as a graph; the states found first are its entries.
    fn graph(&self, entries: usize) -> Graph {
        let mut numbers = vec![0; self.states.len()];
        for (number, &state) in self.found.values().enumerate() {
            numbers[state] = number;
        }
        let renumbered = self.targets.iter().map(|states| {
            let mut nodes: Vec<usize> = states.iter().map(|&state| numbers[state]).collect();
            nodes.sort_unstable();
            nodes
        });
        let targets: Vec<Vec<usize>> = renumbered.collect();
        let mut nodes = Vec::with_capacity(self.states.len());
        let mut edges = Vec::with_capacity(self.edges);
        for (from, (state, &at)) in self.found.iter().enumerate() {
            let State { method, returns, .. } = *state;
            nodes.push(Node { method, returns, entry: at < entries });
            for (&label, &list) in self.labels.iter().zip(&self.steps[at]) {
                edges.extend(targets[list].iter().map(|&to| Edge { from, label, to }));
            }
        }
        Graph::new(nodes, edges)
    }
}
