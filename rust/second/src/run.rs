//! One run with its stack, step by step. It knows nothing of summaries.

use crate::graph::Graph;
use crate::monitor::Monitor;
use crate::record::{Edge, Event, INTERNAL};

/// Where a run is; the stack holds the nodes at which its callers go on.
#[derive(Default)]
pub(crate) struct Run {
    pub node: usize,
    pub state: usize,
    pub stack: Vec<usize>,
}

#[derive(Clone, Copy)]
pub(crate) enum Step {
    Internal { to: usize },
    Call { label: usize, target: usize, entry: usize },
    Return,
}

impl Run {
    /// Takes a step, or says why the run cannot.
    pub fn take(
        &mut self,
        graph: &Graph,
        monitor: &Monitor,
        step: Step,
    ) -> Result<(), &'static str> {
        let node = graph.nodes[self.node];
        let has_edge =
            |from, label, to| graph.edges.binary_search(&Edge { from, label, to }).is_ok();
        match step {
            Step::Return if !node.returns => return Err("only a return node returns"),
            Step::Return => {
                let target = self.stack.pop().ok_or("there is no caller to return to")?;
                let caller = graph.nodes[target].method;
                self.node = target;
                self.state = monitor.after(self.state, Event::Return, node.method, caller);
            }
            _ if node.returns => return Err("a return node runs no edge"),
            Step::Internal { to } if has_edge(self.node, INTERNAL, to) => self.node = to,
            Step::Call { label, target, entry }
                if label != INTERNAL && has_edge(self.node, label, target) =>
            {
                let callee = graph.nodes.get(entry).filter(|callee| callee.entry);
                if callee.is_none_or(|callee| callee.method != label) {
                    return Err("no entry of the method called");
                }
                self.stack.push(target);
                self.node = entry;
                self.state = monitor.after(self.state, Event::Call, node.method, label);
            }
            Step::Internal { .. } | Step::Call { .. } => return Err("no such edge"),
        }
        Ok(())
    }
}
