//! Files within the limits that make judging go through the most levels and watching write the most records, for tests of the limits and for timing.

use crate::generate::{interface_of, LIMITS};
use crate::graphs::{graph_file, node, Edges};
use crate::runs::{CALL, RETURN_TO};
use second::record::{kind, Record, BAD, LABELS};

const LAST: u8 = (LIMITS.nodes - 1) as u8;
const LITERAL: u8 = (LIMITS.rows - 1) as u8;

/// All nodes of method 1 on one internal cycle; the last one is the entry, and returns if it is said to.
pub fn cycle(last_returns: bool) -> Vec<u8> {
    graph_file(&cycle_nodes(last_returns), &cycle_edges())
}

/// The same cycle, and calls from each node to itself and to as many of the lowest nodes as there is room for: they turn false after it.
pub fn dense_cycle() -> Vec<u8> {
    let mut edges = cycle_edges();
    let lower = LIMITS.edges / LIMITS.nodes - 2;
    for from in 0..=LAST {
        edges.insert((from, 1, from));
        edges.extend((0..from).take(lower).map(|to| (from, 1, to)));
    }
    graph_file(&cycle_nodes(true), &edges)
}

/// A line from the entry to a return node by the last label, and steps of each node to itself and to nodes before it, as many as to make up the number of edges a node, by
/// every other label in turn: they turn false after it, and the entry last.
pub fn dense_line(edges_a_node: usize) -> Vec<u8> {
    let last_label = LABELS as u8 - 1;
    let nodes: Vec<Record> = (0..=LAST).map(|at| node(1, at == LAST, at == 0)).collect();
    let mut edges: Edges = (0..LAST).map(|at| (at, last_label, at + 1)).collect();
    for from in 0..=LAST {
        let back = (0..=from).rev().take(edges_a_node - 1);
        edges.extend(back.map(|to| (from, (from - to) % last_label, to)));
    }
    graph_file(&nodes, &edges)
}

/// Row 0 comes back to itself through a box and "and" rows, the last of which also demands the literal at the end: 7,937 levels on the cycle.
pub fn row_cycle() -> Vec<u8> {
    rows_around(STEP, |next| [kind::ROW, 7, next, next, 0, 0])
}

/// The same with boxes in place of the "and" rows, each of which looks at all calls of a node: as many levels on the dense cycle.
pub fn box_cycle() -> Vec<u8> {
    rows_around(STEP, |next| [kind::ROW, 9, 1, next, 0, 0])
}

/// The same with 30 boxes over every label: each row leads on by a node, so there are few levels, but all edges are looked at for each.
pub fn any_label_cycle() -> Vec<u8> {
    rows_around(any_label(1), any_label)
}

/// No return node after any step, however many: one box over every label and two more rows.
pub fn never_a_return() -> Vec<u8> {
    [any_label(1), [kind::ROW, 7, 2, 0, 0, 0], [kind::ROW, 6, 0, 0, 0, 0]].concat()
}

/// Row 1 after each internal step.
const STEP: Record = [kind::ROW, 9, 0, 1, 0, 0];

fn any_label(row: u8) -> Record {
    [kind::ROW, 10, row, 0, 0, 0]
}

fn cycle_nodes(last_returns: bool) -> Vec<Record> {
    (0..=LAST).map(|at| node(1, last_returns && at == LAST, at == LAST)).collect()
}

fn cycle_edges() -> Edges {
    (0..=LAST).map(|at| (at, 0, at.wrapping_add(1))).collect()
}

/// A box, rows that each lead to the next, and a row that leads back to the first and to the literal.
fn rows_around(first: Record, leading_to: fn(u8) -> Record) -> Vec<u8> {
    let last = [[kind::ROW, 7, LITERAL, 0, 0, 0], [kind::ROW, 6, 0, 0, 0, 0]];
    let between = (2..LITERAL).map(leading_to);
    [first].into_iter().chain(between).chain(last).flatten().collect()
}

/// Interface, graph and rules with the longest trail, 1,793 records: method 1 goes through all its nodes and calls itself, and each call steps the monitor.
pub fn longest_trail() -> [Vec<u8>; 3] {
    let nodes: Vec<Record> = (0..=LAST).map(|at| node(1, false, at == 0)).collect();
    let mut edges: Edges = (0..LAST).map(|at| (at, 0, at + 1)).collect();
    edges.insert((LAST, 1, 0));
    runs(1, graph_file(&nodes, &edges), CALL, 1)
}

/// The longest trail of calls that are passed over, 1,779 records: each step calls method 2, and the last one method 3, whose return steps the monitor.
pub fn longest_passing_trail() -> [Vec<u8>; 3] {
    let last = LAST - 2;
    let way = (0..=last).map(|at| node(1, false, at == 0));
    let nodes: Vec<Record> = way.chain([2, 3].map(|method| node(method, true, true))).collect();
    let mut edges: Edges = (0..last).map(|at| (at, 2, at + 1)).collect();
    edges.insert((last, 3, 0));
    runs(7, graph_file(&nodes, &edges), RETURN_TO, 3)
}

/// Half of the nodes lie on one way, and each calls method 1 with as many of the others, which return, as there is room for. Each return of the method to itself steps
/// the monitor, around and never to the bad state: the summary of an entry state grows by one state at a time, and every time all calls have one more end.
pub fn slow_summary() -> [Vec<u8>; 3] {
    let half = LIMITS.nodes / 2;
    let nodes: Vec<Record> =
        (0..LIMITS.nodes).map(|at| node(1, at >= half, at == 0 || at == half)).collect();
    let way = (0..half - 1).map(|at| (at as u8, 0, at as u8 + 1));
    let ends = LIMITS.edges / half - 1;
    let calls = |at: usize| (half..half + ends).map(move |to| (at as u8, 1, to as u8));
    let edges: Edges = way.chain((0..half).flat_map(calls)).collect();
    let step = |state| [kind::RULE, state, RETURN_TO, 1, 1, (state + 1) % BAD as u8];
    let rules = (0..BAD as u8).flat_map(step).collect();
    [interface_of(1, 1), graph_file(&nodes, &edges), rules]
}

/// Nodes of method 1, reached in every state, call method 2 over as many edges as there is room for. Method 2 returns after one more step of the monitor each time, on a longer
/// way: its summary still grows when all calls have been run, and each growth concerns every one of them.
pub fn late_summary() -> [Vec<u8>; 3] {
    let turn = BAD as u8;
    let (callers, way) = (200, 2 * turn);
    let ends = callers + way + 1;
    let once = ends + turn;
    let method = |at| 1 + u8::from(at >= callers) + u8::from(at >= once);
    let entry = |at| [0, callers, once].contains(&at);
    let nodes: Vec<Record> = (0..=once).map(|at| node(method(at), at >= ends, entry(at))).collect();
    let spread = (0..callers - 1).map(|at| (at, 0, at + 1)).chain([(0, 3, 0)]);
    let longer = (0..way)
        .map(|step| (callers + step, if step % 2 == 0 { 3 } else { 0 }, callers + step + 1));
    let leave = (0..turn).map(|step| (callers + 2 * step, 0, ends + step));
    let mut edges: Edges = spread.chain(longer).chain(leave).collect();
    let room = LIMITS.edges - edges.len();
    let target = |at: u8, far: u16| ((u16::from(at) + far) % u16::from(callers)) as u8;
    let calls = (0..callers).flat_map(|at| (1..=20).map(move |far| (at, 2, target(at, far))));
    edges.extend(calls.take(room));
    let step =
        |state| [1, 2].map(|caller| [kind::RULE, state, RETURN_TO, 3, caller, (state + 1) % turn]);
    [interface_of(7, 7), graph_file(&nodes, &edges), (0..turn).flat_map(step).flatten().collect()]
}

/// A closed side, and rules by which this event between the method and method 1 steps the monitor.
fn runs(provided: u8, graph: Vec<u8>, event: u8, method: u8) -> [Vec<u8>; 3] {
    let step = |state| [kind::RULE, state, event, method, 1, state + 1];
    [interface_of(provided, provided), graph, (0..BAD as u8).flat_map(step).collect()]
}
