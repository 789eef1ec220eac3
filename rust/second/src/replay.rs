//! Replays a trail as one run with its stack.

use crate::graph::Graph;
use crate::monitor::Monitor;
use crate::record::{Event, Rule, BAD, INTERNAL, METHODS, RECORD_LEN};
use crate::run::{Run, Step};
use crate::saturation::{Derivation, Saturation};
use crate::trail::step;

/// Longer runs are not executed.
pub const MOST_STEPS: u64 = 1_000_000;

/// What becomes of a trail.
#[derive(Clone, Copy, Debug, PartialEq, Eq)]
pub enum Replayed {
    /// A run of so many steps meets the trail's nodes and states in order and is bad at its end.
    Bad { steps: u64 },
    /// The run that was found has more than `MOST_STEPS` steps.
    TooLong,
    /// No such run was found, because of this record.
    Refused { record: usize, reason: &'static str },
}

/// Replays the bytes of a trail from the start method.
pub fn replay(graph: &Graph, rules: &[Rule], start: u8, trail: &[u8]) -> Replayed {
    let (records, rest) = trail.as_chunks::<RECORD_LEN>();
    let monitor = &Monitor::new(rules);
    let saturation = Saturation::new(graph, monitor);
    let mut replay = Replay { graph, monitor, saturation, run: Run::default(), steps: 0 };
    for (record, bytes) in records.iter().enumerate() {
        let fields = bytes.map(usize::from);
        let done = match record {
            0 => replay.start(start.into(), fields),
            _ => replay.follow(fields),
        };
        match done {
            Ok(()) => {}
            Err(Stop::TooLong) => return Replayed::TooLong,
            Err(Stop::Wrong(reason)) => return Replayed::Refused { record, reason },
        }
    }
    match (rest, replay.run.state) {
        ([], BAD) => Replayed::Bad { steps: replay.steps },
        _ => Replayed::Refused { record: records.len(), reason: "ends before the run is bad" },
    }
}

/// Why a replay goes no further.
enum Stop {
    TooLong,
    Wrong(&'static str),
}

fn check(condition: bool, reason: &'static str) -> Result<(), Stop> {
    if condition {
        Ok(())
    } else {
        Err(Stop::Wrong(reason))
    }
}

struct Replay<'a> {
    graph: &'a Graph,
    monitor: &'a Monitor,
    saturation: Saturation<'a>,
    run: Run,
    /// The steps that the run has taken.
    steps: u64,
}

impl Replay<'_> {
    /// Takes the first record.
    fn start(&mut self, method: usize, fields: [usize; RECORD_LEN]) -> Result<(), Stop> {
        let node = fields[0];
        let started = [node, 0, step::START, INTERNAL, node, 0];
        check(fields == started, "no start in state 0")?;
        let entry = self.graph.entries_of(method).any(|entry| entry == node);
        check(entry, "no entry of the start method")?;
        self.run.node = node;
        Ok(())
    }

    /// Takes a later record, by as many steps as it stands for.
    fn follow(&mut self, fields: [usize; RECORD_LEN]) -> Result<(), Stop> {
        let [node, state, step, label, to, to_state] = fields;
        let at = (self.run.node, self.run.state);
        check((node, state) == at, "does not start where the one before ended")?;
        match step {
            step::INTERNAL if label == INTERNAL => self.take(Step::Internal { to })?,
            step::CALL_ENTERED => {
                let target = self.first_target(label)?;
                self.take(Step::Call { label, target, entry: to })?;
            }
            step::CALL_PASSED if (1..=METHODS).contains(&label) => {
                let depth = self.run.stack.len();
                self.pass(label, to, to_state)?;
                check(self.run.stack.len() == depth, "the stack is not as before the call")?;
            }
            _ => return Err(Stop::Wrong("no such step")),
        }
        let at = (self.run.node, self.run.state);
        check((to, to_state) == at, "does not end where the run is")
    }

    fn take(&mut self, step: Step) -> Result<(), Stop> {
        if self.steps == MOST_STEPS {
            return Err(Stop::TooLong);
        }
        self.steps += 1;
        self.run.take(self.graph, self.monitor, step).map_err(Stop::Wrong)
    }

    /// The target of one edge that calls the method: any will do, for the trail stays in the callee.
    fn first_target(&self, label: usize) -> Result<usize, Stop> {
        let mut edges = self.graph.outgoing(self.run.node).iter();
        let edge = edges.find(|edge| edge.label == label);
        edge.map(|edge| edge.to).ok_or(Stop::Wrong("no such edge"))
    }

    /// A call, a run of the callee that comes back in this state, and its return.
    fn pass(&mut self, label: usize, target: usize, state: usize) -> Result<(), Stop> {
        let (monitor, caller) = (self.monitor, self.graph.nodes[self.run.node].method);
        let entered = monitor.after(self.run.state, Event::Call, caller, label);
        self.saturation.saturate(label, entered);
        let reached = &self.saturation.reached;
        let returned = |end: usize| monitor.after(reached[end].state, Event::Return, label, caller);
        let ends = self.saturation.ends(label, entered).filter(|&end| returned(end) == state);
        let end = ends.min_by_key(|&end| reached[end].steps);
        let end = end.ok_or(Stop::Wrong("no run of the callee comes back in this state"))?;
        if reached[end].steps > MOST_STEPS {
            return Err(Stop::TooLong);
        }
        let run = Unfolding::of(self.graph, &self.saturation, end);
        self.take(Step::Call { label, target, entry: run.entry })?;
        run.steps.into_iter().rev().try_for_each(|step| self.take(step))?;
        self.take(Step::Return)
    }
}

/// The run of a derivation, written from its end.
struct Unfolding {
    /// The steps, the last one first.
    steps: Vec<Step>,
    /// What comes before them, the nearest last.
    open: Vec<Open>,
    /// The entry that was met last: that of the call that comes before it, or of the whole run.
    entry: usize,
}

enum Open {
    Item(usize),
    Call { label: usize, target: usize },
}

impl Unfolding {
    fn of(graph: &Graph, saturation: &Saturation, item: usize) -> Unfolding {
        let open = vec![Open::Item(item)];
        let mut unfolding = Unfolding { steps: Vec::new(), open, entry: 0 };
        while let Some(part) = unfolding.open.pop() {
            match part {
                Open::Item(item) => unfolding.unfold(graph, saturation, item),
                Open::Call { label, target } => {
                    let entry = unfolding.entry;
                    unfolding.steps.push(Step::Call { label, target, entry });
                }
            }
        }
        unfolding
    }

    fn unfold(&mut self, graph: &Graph, saturation: &Saturation, item: usize) {
        let reached = saturation.reached[item];
        match reached.derivation {
            Derivation::Entry => self.entry = reached.node,
            Derivation::Internal { from } => {
                self.steps.push(Step::Internal { to: reached.node });
                self.open.push(Open::Item(from));
            }
            Derivation::Passed { from, end } => {
                let label = graph.nodes[saturation.reached[end].node].method;
                self.steps.push(Step::Return);
                self.open.push(Open::Item(from));
                self.open.push(Open::Call { label, target: reached.node });
                self.open.push(Open::Item(end));
            }
        }
    }
}
