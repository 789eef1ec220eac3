//! What the composed verdicts take: a known interface and graph, the other side's interface and property, rules and a start method; or the interface and property of
//! either side in place of these.

use crate::generate::{
    graph_of, interface_of, property, rule_file, scattered, Key, Random, Size, LIMITS,
};
use crate::graphs::{labels_of, members, node};
use crate::properties::{any_rows, chain_of_boxes, guarded, narrowed, widened};
use crate::runs::{CALL, RETURN_TO};
use crate::sides::foreign;
use second::record::{kind, Interface, Record, BAD, METHODS, RECORD_LEN};
use std::collections::{BTreeMap, BTreeSet};

/// Known interface and graph, other interface, property and rules, and the start method; or a property in place of the graph.
pub type Composition = ([Vec<u8>; 5], u8);

/// The property mostly forbids some calls, and one monitor in three is bad only by one of these. One start method in 32 is any number below 10, and one in six is of the
/// other side.
pub fn composition(random: &mut Random) -> Composition {
    let count = random.pick(&COUNTS);
    let [known, other] = interfaces(random, count);
    let graph = known_graph(random, known);
    let forbidden = other.required & random.byte();
    let property = other_property(random, other, forbidden);
    let not_allowed = calls_of(Interface { required: forbidden, ..other });
    let rules = monitor(random, [known, other], &not_allowed);
    let start = match (random.below(32), &graph[..]) {
        (0, _) => random.below(METHODS + 2) as u8,
        (6.., [kind::NODE, method, ..]) => *method,
        _ => random.pick(&members(other.provided)),
    };
    let [known, other] = [known, other].map(|side| interface_of(side.provided, side.required));
    ([known, graph, other, property, rules], start)
}

/// Each property mostly forbids some calls, and one monitor in three is bad only by one of these. One start method in 32 is any number below 10. The models of
/// one pair in 128 have together about as many states as a graph may have, or too many edges.
pub fn unwritten(random: &mut Random) -> Composition {
    let large = random.once_in(128);
    let count = if large { random.pick(&[4, METHODS]) } else { random.pick(&COUNTS) };
    let mut sides = interfaces(random, count);
    if random.once_in(2) {
        sides.reverse();
    }
    let forbidden = sides.map(|side| side.required & random.byte());
    let [property1, property2] = match large {
        true => chains(random, count),
        false => [0, 1].map(|at| other_property(random, sides[at], forbidden[at])),
    };
    let not_allowed =
        [0, 1].map(|at| calls_of(Interface { required: forbidden[at], ..sides[at] })).concat();
    let rules = monitor(random, sides, &not_allowed);
    let start = match random.below(32) {
        0 => random.below(METHODS + 2) as u8,
        _ => random.pick(&members(sides[0].provided | sides[1].provided)),
    };
    let [first, second] = sides.map(|side| interface_of(side.provided, side.required));
    ([first, property1, second, property2, rules], start)
}

/// The models of so many methods, four or more, have about as many states together as a graph may have.
fn chains(random: &mut Random, methods: usize) -> [Vec<u8>; 2] {
    let rows = LIMITS.nodes / (2 * methods);
    [(); 2].map(|()| chain_of_boxes(rows - random.below(3)))
}

/// Methods of both sides.
const COUNTS: [usize; 11] = [2, 2, 2, 2, 3, 3, 3, 3, 4, 4, METHODS];

/// Of the known side, then of the other, which has one method or two of so many. Three pairs in 64 may have a method that both provide, or that is required and not provided.
fn interfaces(random: &mut Random, count: usize) -> [Interface; 2] {
    let all = u8::MAX >> (METHODS - count);
    let mut one = || 1 << random.below(count);
    let other = one() | one();
    let mut sides = [all & !other, other].map(|provided| {
        let some = random.byte();
        Interface { provided, required: all & random.pick(&[u8::MAX, u8::MAX, some]) }
    });
    let (any, [known, other]) = (random.byte(), &mut sides);
    match random.below(64) {
        0 => other.provided |= any,
        1 => known.required |= any,
        2 => other.required |= any,
        _ => {}
    }
    sides
}

/// One graph in 32 may not be of its interface, and one in 128 is about as large as a graph may be. In one of 32 a provided method is left without an entry, and in one of
/// 32 they stand as they come; in all others every provided method has one.
fn known_graph(random: &mut Random, interface: Interface) -> Vec<u8> {
    let graph = any_known_graph(random, interface);
    match (random.below(32), &members(interface.provided)[..]) {
        (0, methods @ [_, ..]) => without_entry(graph, random.pick(methods)),
        (1, _) => graph,
        (_, methods) => methods.iter().fold(graph, |graph, &method| with_entry(graph, method)),
    }
}

/// In most graphs every method that has a node has an entry.
fn any_known_graph(random: &mut Random, interface: Interface) -> Vec<u8> {
    let [methods, calls] = foreign(random, 32);
    let [provided, required] = [interface.provided | methods, interface.required | calls];
    if provided == 0 || random.once_in(8) {
        return graph_of(random, Size::Small, provided, required);
    }
    let (nodes, edges) = match random.once_in(128) {
        true => (LIMITS.nodes - random.below(24), 64),
        false => (2 + random.below(8), 2 + random.below(32)),
    };
    let mut graph = scattered(random, &members(provided), &labels_of(required), nodes, edges);
    enter_first(&mut graph);
    graph
}

/// The first node of each method becomes an entry that does not return.
fn enter_first(graph: &mut [u8]) {
    let (records, _) = graph.as_chunks_mut::<RECORD_LEN>();
    let mut met = BTreeSet::new();
    for record in records.iter_mut().filter(|record| record[0] == kind::NODE) {
        let [_, method, returns, entry, ..] = record;
        if met.insert(*method) {
            [*returns, *entry] = [0, 1];
        }
    }
}

/// No node of the method is an entry.
fn without_entry(mut graph: Vec<u8>, method: u8) -> Vec<u8> {
    let (records, _) = graph.as_chunks_mut::<RECORD_LEN>();
    for record in records.iter_mut().filter(|record| record[..2] == [kind::NODE, method]) {
        record[3] = 0;
    }
    graph
}

/// A method without an entry gets one: its last node, or one more.
fn with_entry(mut graph: Vec<u8>, method: u8) -> Vec<u8> {
    let (records, _) = graph.as_chunks_mut::<RECORD_LEN>();
    let nodes = records.partition_point(|record| record[0] == kind::NODE);
    let is_entry = |record: &Record| record[1] == method && record[3] == 1;
    if records[..nodes].iter().any(is_entry) {
        return graph;
    }
    match records[..nodes].iter_mut().rfind(|record| record[1] == method) {
        Some(last) => last[3] = 1,
        None => {
            let end = RECORD_LEN * nodes;
            graph.splice(end..end, node(method, true, true));
        }
    }
    graph
}

/// One property in 64 is large, where most models pass the limits, one in 32 also demands something of the entries themselves, and one in four is of any rows.
fn other_property(random: &mut Random, interface: Interface, forbidden: u8) -> Vec<u8> {
    match random.below(64) {
        0 => property(random, Size::Large),
        1..=16 => {
            let rows = 1 + random.below(4);
            let records = any_rows(random, rows);
            widened(random, records)
        }
        17 | 18 => {
            let property = guarded(random, interface, forbidden);
            narrowed(random, &property)
        }
        _ => guarded(random, interface, forbidden),
    }
}

/// Any call of either side may be bad, or if there are some, only those that are not allowed.
fn monitor(random: &mut Random, sides: [Interface; 2], not_allowed: &[(u8, u8)]) -> Vec<u8> {
    let calls = sides.map(calls_of).concat();
    let any = not_allowed.is_empty() || !random.once_in(3);
    chain(random, &calls, if any { &calls } else { not_allowed })
}

/// The callers and callees of an interface.
fn calls_of(side: Interface) -> Vec<(u8, u8)> {
    let callees = &members(side.required);
    let of = |caller| callees.iter().map(move |&callee| (caller, callee));
    members(side.provided).into_iter().flat_map(of).collect()
}

/// Calls and their returns lead through a chain of states, the last ones to the bad state; there may be a way back.
fn chain(random: &mut Random, calls: &[(u8, u8)], last: &[(u8, u8)]) -> Vec<u8> {
    if calls.is_empty() {
        return Vec::new();
    }
    let states = random.pick(&[1, 1, 1, 2, 2, 3, 4]);
    let mut next = BTreeMap::<Key, u8>::new();
    for state in 0..states {
        let (calls, after) = match state + 1 < states {
            true => (calls, state + 1),
            false => (last, BAD as u8),
        };
        for after in [after, after, after, 0].into_iter().take(1 + random.below(4)) {
            let (caller, callee) = random.pick(calls);
            let events = [(state, CALL, caller, callee), (state, RETURN_TO, callee, caller)];
            next.insert(random.pick(&events), after);
        }
    }
    rule_file(next)
}
