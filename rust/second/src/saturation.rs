//! What a run from a call can reach in the callee's own nodes, each with the derivation that was
//! found first: a derivation names only what was derived before it, so it can be unfolded to a run.

use crate::graph::Graph;
use crate::monitor::Monitor;
use crate::record::{Event, INTERNAL, METHODS, STATES};

/// A node and a monitor state that a run meets, where `entered` is the state in which it came into
/// the node's method.
#[derive(Clone, Copy)]
pub(crate) struct Reached {
    pub node: usize,
    pub entered: usize,
    pub state: usize,
    pub derivation: Derivation,
    /// The steps of the run from the entry, or as many as can be counted.
    pub steps: u64,
}

/// The items named here are numbers of `Reached` below the item's own.
#[derive(Clone, Copy)]
pub(crate) enum Derivation {
    /// An entry of the method called.
    Entry,
    Internal {
        from: usize,
    },
    /// A call, a run of the callee from an entry to the item `end`, and its return.
    Passed {
        from: usize,
        end: usize,
    },
}

/// A method called in one state.
#[derive(Default)]
struct Call {
    entered: bool,
    /// The items that make the call, each with the node at which it goes on.
    waiting: Vec<(usize, usize)>,
    /// For each state at a return node, the first item that has it.
    ends: [Option<usize>; STATES],
}

/// Derives items for the calls that are entered, and for those that these make.
pub(crate) struct Saturation<'a> {
    graph: &'a Graph,
    monitor: &'a Monitor,
    pub reached: Vec<Reached>,
    /// For each node, state at the entry and state, whether there is such an item.
    derived: Vec<[[bool; STATES]; STATES]>,
    calls: [[Call; STATES]; METHODS],
    /// The first item whose steps are not yet worked off.
    next: usize,
}

impl<'a> Saturation<'a> {
    pub fn new(graph: &'a Graph, monitor: &'a Monitor) -> Saturation<'a> {
        Saturation {
            graph,
            monitor,
            reached: Vec::new(),
            derived: vec![[[false; STATES]; STATES]; graph.nodes.len()],
            calls: Default::default(),
            next: 0,
        }
    }

    /// Derives all that runs reach after a call of the method in this state.
    pub fn saturate(&mut self, method: usize, state: usize) {
        self.enter(method, state);
        while self.next < self.reached.len() {
            self.work_off(self.next);
            self.next += 1;
        }
    }

    /// The items in which runs after a call of the method in this state can end, one for each of
    /// their states.
    pub fn ends(&self, method: usize, state: usize) -> impl Iterator<Item = usize> + '_ {
        self.calls[method - 1][state].ends.iter().copied().flatten()
    }

    fn enter(&mut self, method: usize, state: usize) {
        if std::mem::replace(&mut self.calls[method - 1][state].entered, true) {
            return;
        }
        for node in self.graph.entries_of(method) {
            self.derive(node, state, state, Derivation::Entry);
        }
    }

    fn derive(&mut self, node: usize, entered: usize, state: usize, derivation: Derivation) {
        if std::mem::replace(&mut self.derived[node][entered][state], true) {
            return;
        }
        let steps = match derivation {
            Derivation::Entry => 0,
            Derivation::Internal { from } => self.reached[from].steps.saturating_add(1),
            Derivation::Passed { from, end } => {
                let around = self.reached[from].steps.saturating_add(2);
                around.saturating_add(self.reached[end].steps)
            }
        };
        self.reached.push(Reached { node, entered, state, derivation, steps });
    }

    fn work_off(&mut self, item: usize) {
        let Reached { node, entered, state, .. } = self.reached[item];
        let graph = self.graph;
        if graph.nodes[node].returns {
            return self.end(item);
        }
        for edge in graph.outgoing(node) {
            match edge.label {
                INTERNAL => {
                    self.derive(edge.to, entered, state, Derivation::Internal { from: item });
                }
                label => self.call(item, label, edge.to),
            }
        }
    }

    fn call(&mut self, from: usize, label: usize, target: usize) {
        let Reached { node, state, .. } = self.reached[from];
        let caller = self.graph.nodes[node].method;
        let state = self.monitor.after(state, Event::Call, caller, label);
        self.enter(label, state);
        let call = &mut self.calls[label - 1][state];
        call.waiting.push((from, target));
        for end in call.ends.into_iter().flatten() {
            self.pass(from, target, end);
        }
    }

    /// Lets every waiting caller go on, unless another run ended in the same state.
    fn end(&mut self, item: usize) {
        let Reached { node, entered, state, .. } = self.reached[item];
        let method = self.graph.nodes[node].method;
        let call = &mut self.calls[method - 1][entered];
        if call.ends[state].is_some() {
            return;
        }
        call.ends[state] = Some(item);
        for at in 0..call.waiting.len() {
            let (from, target) = self.calls[method - 1][entered].waiting[at];
            self.pass(from, target, item);
        }
    }

    fn pass(&mut self, from: usize, target: usize, end: usize) {
        let Reached { node, state, .. } = self.reached[end];
        let [callee, caller] = [node, target].map(|node| self.graph.nodes[node].method);
        let state = self.monitor.after(state, Event::Return, callee, caller);
        let entered = self.reached[from].entered;
        self.derive(target, entered, state, Derivation::Passed { from, end });
    }
}
