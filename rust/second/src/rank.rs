//! Where a property's rows are false in a flow graph, and from which level on.

use crate::graph::Graph;
use crate::record::{Row, LABELS};
use std::collections::VecDeque;

/// The rank of every (node, row): the first level at which the row is false there.
pub(crate) struct Ranks {
    rows: usize,
    /// 0 where the row holds; ranks start at 1.
    ranks: Vec<u32>,
}

impl Ranks {
    pub fn new(graph: &Graph, rows: &[Row]) -> Ranks {
        let users = users(rows);
        let mut propagation = Propagation::new(graph, rows, &users);
        while let Some((node, row)) = propagation.queue.pop_front() {
            propagation.take(node, row);
        }
        propagation.ranks
    }

    /// The rank of a row that is false at a node; `None` where it holds.
    pub fn rank(&self, node: usize, row: usize) -> Option<u32> {
        Some(self.ranks[node * self.rows + row]).filter(|&rank| rank != 0)
    }
}

/// The rows that name one row as an operand.
#[derive(Clone, Default)]
struct Users {
    ands: Vec<usize>,
    /// Each "or" with its other operand.
    ors: Vec<(usize, usize)>,
    /// For each label, the boxes that look at the row after it.
    boxes: [Vec<usize>; LABELS],
}

fn users(rows: &[Row]) -> Vec<Users> {
    let mut users = vec![Users::default(); rows.len()];
    for (number, row) in rows.iter().enumerate() {
        match *row {
            Row::And(a, b) => {
                users[a].ands.push(number);
                users[b].ands.push(number);
            }
            Row::Or(a, b) => {
                users[a].ors.push((number, b));
                users[b].ors.push((number, a));
            }
            _ => {}
        }
        for label in 0..LABELS {
            if let Some(operand) = row.box_operand(label) {
                users[operand].boxes[label].push(number);
            }
        }
    }
    users
}

/// Carries falsity from operands to the rows that name them. The queue is in order of rank, so a
/// pair is first reached from the operand that makes it false earliest.
struct Propagation<'a> {
    graph: &'a Graph,
    users: &'a [Users],
    ranks: Ranks,
    queue: VecDeque<(usize, usize)>,
}

impl<'a> Propagation<'a> {
    fn new(graph: &'a Graph, rows: &[Row], users: &'a [Users]) -> Propagation<'a> {
        let ranks = Ranks { rows: rows.len(), ranks: vec![0; graph.nodes.len() * rows.len()] };
        let mut propagation = Propagation { graph, users, ranks, queue: VecDeque::new() };
        for (at, node) in graph.nodes.iter().enumerate() {
            for (number, row) in rows.iter().enumerate() {
                if row.is_false_at(node.method, node.returns) {
                    propagation.set(at, number, 1);
                }
            }
        }
        propagation
    }

    fn set(&mut self, node: usize, row: usize, rank: u32) {
        let slot = &mut self.ranks.ranks[node * self.ranks.rows + row];
        if *slot == 0 {
            *slot = rank;
            self.queue.push_back((node, row));
        }
    }

    fn take(&mut self, node: usize, row: usize) {
        let Some(rank) = self.ranks.rank(node, row) else {
            return;
        };
        let users = self.users;
        let users = &users[row];
        for &and in &users.ands {
            self.set(node, and, rank + 1);
        }
        for &(or, other) in &users.ors {
            // An operand of higher rank is still in the queue and will make the row false itself.
            if self.ranks.rank(node, other).is_some_and(|other| other <= rank) {
                self.set(node, or, rank + 1);
            }
        }
        for (label, boxes) in users.boxes.iter().enumerate() {
            for &number in boxes {
                self.set_sources(node, label, number, rank + 1);
            }
        }
    }

    /// Makes a box false at every node with an edge of this label to `node`.
    fn set_sources(&mut self, node: usize, label: usize, number: usize, rank: u32) {
        for edge in self.graph.incoming_with(node, label) {
            self.set(edge.from, number, rank);
        }
    }
}
