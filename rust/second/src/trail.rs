//! The trail: a shortest way of a run to the bad monitor state.

use crate::graph::Graph;
use crate::monitor::{members, Monitor};
use crate::record::{Event, Record, BAD, INTERNAL, METHODS, STATES};
use crate::summary::{summaries, Summaries};
use std::collections::VecDeque;

/// Third byte of a trail record.
pub(crate) mod step {
    pub const START: usize = 0;
    pub const INTERNAL: usize = 1;
    pub const CALL_ENTERED: usize = 2;
    pub const CALL_PASSED: usize = 3;
}

/// A node and a monitor state.
type Position = (usize, usize);

/// The trail with the fewest records and, among those, the smallest bytes; `None` when no run from
/// the start method is bad.
pub(crate) fn bad_trail(graph: &Graph, monitor: &Monitor, start: usize) -> Option<Vec<Record>> {
    let mut search = Search {
        graph,
        monitor,
        summaries: summaries(graph, monitor),
        reached_by: vec![[None; STATES]; graph.nodes.len()],
        entered: [[false; STATES]; METHODS],
        queue: VecDeque::new(),
        bad: None,
    };
    for node in graph.entries_of(start) {
        search.visit((node, 0), step::START, INTERNAL, (node, 0));
    }
    while search.bad.is_none() {
        let position = search.queue.pop_front()?;
        search.expand(position);
    }
    search.bad.map(|position| search.trail_to(position))
}

/// Breadth-first search. Positions of equal distance are taken in the order of their smallest
/// trails and steps are tried in the order of their bytes, so a position is first reached by its
/// smallest trail.
struct Search<'a> {
    graph: &'a Graph,
    monitor: &'a Monitor,
    summaries: Summaries,
    /// For each position, the last record of its trail, which begins with the position before.
    reached_by: Vec<[Option<Record>; STATES]>,
    /// The methods and states for which all entries have been reached by a call.
    entered: [[bool; STATES]; METHODS],
    queue: VecDeque<Position>,
    /// The first bad position reached.
    bad: Option<Position>,
}

impl Search<'_> {
    fn visit(&mut self, from: Position, step: usize, label: usize, to: Position) {
        let reached_by = &mut self.reached_by[to.0][to.1];
        if reached_by.is_some() {
            return;
        }
        let fields = [from.0, from.1, step, label, to.0, to.1];
        *reached_by = Some(fields.map(|field| field as u8));
        self.queue.push_back(to);
        if to.1 == BAD {
            self.bad.get_or_insert(to);
        }
    }

    fn expand(&mut self, from: Position) {
        let (node, state) = from;
        let graph = self.graph;
        if graph.nodes[node].returns {
            return;
        }
        for edge in graph.outgoing_with(node, INTERNAL) {
            self.visit(from, step::INTERNAL, INTERNAL, (edge.to, state));
        }
        for label in 1..=METHODS {
            self.enter_calls(from, label);
        }
        for label in 1..=METHODS {
            self.pass_calls(from, label);
        }
    }

    fn state_entered(&self, (node, state): Position, label: usize) -> usize {
        self.monitor.after(state, Event::Call, self.graph.nodes[node].method, label)
    }

    fn enter_calls(&mut self, from: Position, label: usize) {
        let state = self.state_entered(from, label);
        let calls = !self.graph.outgoing_with(from.0, label).is_empty();
        if !calls || std::mem::replace(&mut self.entered[label - 1][state], true) {
            return;
        }
        let graph = self.graph;
        for entry in graph.entries_of(label) {
            self.visit(from, step::CALL_ENTERED, label, (entry, state));
        }
    }

    fn pass_calls(&mut self, from: Position, label: usize) {
        let (graph, monitor) = (self.graph, self.monitor);
        let method = graph.nodes[from.0].method;
        let ends = self.summaries[label - 1][self.state_entered(from, label)];
        let states = monitor.after_any(ends, Event::Return, label, method);
        for edge in graph.outgoing_with(from.0, label) {
            for state in members(states) {
                self.visit(from, step::CALL_PASSED, label, (edge.to, state));
            }
        }
    }

    fn trail_to(&self, position: Position) -> Vec<Record> {
        let record_of = |(node, state): Position| self.reached_by[node][state];
        let before = |record: &Record| {
            let started = usize::from(record[2]) == step::START;
            let position = (usize::from(record[0]), usize::from(record[1]));
            if started {
                None
            } else {
                record_of(position)
            }
        };
        let mut trail: Vec<Record> = std::iter::successors(record_of(position), before).collect();
        trail.reverse();
        trail
    }
}
