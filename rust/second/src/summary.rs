//! Summaries: the monitor states in which a whole call can end.

use crate::graph::Graph;
use crate::monitor::{members, Monitor, States};
use crate::record::{Edge, Event, INTERNAL, METHODS, STATES};
use crate::set::ByteSet;
use std::collections::VecDeque;

/// For each method and monitor state at its entry, the states at its return nodes.
pub(crate) type Summaries = [[States; STATES]; METHODS];

pub(crate) fn summaries(graph: &Graph, monitor: &Monitor) -> Summaries {
    let mut closure = Closure {
        graph,
        monitor,
        reached: vec![[0; STATES]; graph.nodes.len()],
        fresh: vec![[0; STATES]; graph.nodes.len()],
        waiting: [[[ByteSet::EMPTY; STATES]; STATES]; METHODS],
        summaries: [[0; STATES]; METHODS],
        queue: VecDeque::new(),
    };
    for node in graph.entries() {
        for entry_state in 0..STATES {
            closure.add(Point { node, entry_state }, 1 << entry_state);
        }
    }
    while let Some(point) = closure.queue.pop_front() {
        closure.take(point);
    }
    closure.summaries
}

/// A node and the monitor state in which the run of its method began.
#[derive(Clone, Copy)]
struct Point {
    node: usize,
    entry_state: usize,
}

/// Finds the states in which every point is reached.
struct Closure<'a> {
    graph: &'a Graph,
    monitor: &'a Monitor,
    /// For each node and entry state, the states in which it is reached.
    reached: Vec<[States; STATES]>,
    /// Those of the reached states that are new since the point was last taken.
    fresh: Vec<[States; STATES]>,
    /// For each method called, its entry state and the caller's entry state, the nodes at which
    /// callers go on.
    waiting: [[[ByteSet; STATES]; STATES]; METHODS],
    summaries: Summaries,
    /// The points with new states.
    queue: VecDeque<Point>,
}

impl Closure<'_> {
    fn add(&mut self, point: Point, states: States) {
        let Point { node, entry_state } = point;
        let new = states & !self.reached[node][entry_state];
        if new == 0 {
            return;
        }
        if self.fresh[node][entry_state] == 0 {
            self.queue.push_back(point);
        }
        self.reached[node][entry_state] |= new;
        self.fresh[node][entry_state] |= new;
    }

    fn take(&mut self, point: Point) {
        let states = std::mem::take(&mut self.fresh[point.node][point.entry_state]);
        let graph = self.graph;
        if graph.nodes[point.node].returns {
            return self.end_call(point, states);
        }
        for edges in graph.outgoing(point.node).chunk_by(|a, b| a.label == b.label) {
            let next = match edges[0].label {
                INTERNAL => states,
                _ => self.call(point, states, edges),
            };
            for edge in edges {
                self.add(Point { node: edge.to, ..point }, next);
            }
        }
    }

    /// Lets runs wait at the targets of edges that call one method, and gives the states in which
    /// they go on after the returns known so far.
    fn call(&mut self, point: Point, states: States, edges: &[Edge]) -> States {
        let callee = edges[0].label;
        let caller = self.graph.nodes[point.node].method;
        let targets = edges.iter().map(|edge| edge.to).collect();
        let mut ends = 0;
        for entered in members(self.monitor.after_any(states, Event::Call, caller, callee)) {
            let waiting = &mut self.waiting[callee - 1][entered][point.entry_state];
            *waiting = waiting.union(&targets);
            ends |= self.summaries[callee - 1][entered];
        }
        self.monitor.after_any(ends, Event::Return, callee, caller)
    }

    /// Lets every waiting caller go on with those states at a return node that are new to the
    /// summary.
    fn end_call(&mut self, point: Point, states: States) {
        let callee = self.graph.nodes[point.node].method;
        let summary = &mut self.summaries[callee - 1][point.entry_state];
        let new = states & !*summary;
        *summary |= new;
        if new == 0 {
            return;
        }
        for entry_state in 0..STATES {
            let waiting = self.waiting[callee - 1][point.entry_state][entry_state];
            for node in waiting.iter() {
                let caller = self.graph.nodes[node].method;
                let next = self.monitor.after_any(new, Event::Return, callee, caller);
                self.add(Point { node, entry_state }, next);
            }
        }
    }
}
