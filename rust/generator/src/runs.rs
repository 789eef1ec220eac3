//! What watching takes: an interface, a graph of it, rules and a start method.

use crate::generate::{graph_of, interface_of, rule_file, rules, Key, Random, Size, LIMITS};
use crate::graphs::{graph_file, members, node, Edges};
use crate::sides::foreign;
use second::record::{kind, BAD, METHODS, RECORD_LEN};
use std::collections::BTreeMap;

/// Interface, graph and rules, and the start method.
pub type Runs = ([Vec<u8>; 3], u8);

/// One in four has a long way to the bad state. Of the others one interface in sixteen may require what it does not provide, and one graph in eight may have nodes or
/// calls that are not of it. Of all one start method in sixteen is any number below 10.
pub fn runs(random: &mut Random, size: Size) -> Runs {
    let files = match random.once_in(4) {
        true => long_way(random, size),
        false => of_an_interface(random, size),
    };
    let provided = members(files[0][1]);
    let start = match random.below(16) {
        0 => random.below(METHODS + 2) as u8,
        1 => random.pick(&provided),
        _ => provided[0],
    };
    (files, start)
}

fn of_an_interface(random: &mut Random, size: Size) -> [Vec<u8>; 3] {
    let any = random.bytes(3);
    let provided = random.pick(&[1, 3, 7, u8::MAX, any[0] | 1]);
    let open = if random.once_in(16) { any[1] } else { 0 };
    let required = provided & random.pick(&[u8::MAX, any[2]]) | open;
    let [methods, calls] = foreign(random, 8);
    let mut graph = graph_of(random, size, provided | methods, required | calls);
    // One method without a return node, or without an entry.
    if random.once_in(4) {
        let method = random.pick(&members(provided));
        clear(&mut graph, method, random.pick(&[RETURN, ENTRY]));
    }
    let rules = match random.once_in(2) {
        true => depths(random),
        false => rules(random, size),
    };
    [interface_of(provided, required), graph, rules]
}

/// Fields of a node record.
const RETURN: usize = 2;
const ENTRY: usize = 3;

fn clear(graph: &mut [u8], method: u8, field: usize) {
    let (records, _) = graph.as_chunks_mut::<RECORD_LEN>();
    let nodes = records.iter_mut().filter(|record| record[0] == kind::NODE);
    nodes.filter(|node| node[1] == method).for_each(|node| node[field] = 0);
}

/// The state counts the calls that are open, of all methods or of one; a count from 1 to 7 is bad.
fn depths(random: &mut Random) -> Vec<u8> {
    let bad_from = 1 + random.below(BAD) as u8;
    let one = random.once_in(2).then(|| 1 + random.below(3) as u8);
    let methods = || 1..=METHODS as u8;
    let mut next = BTreeMap::<Key, u8>::new();
    for (outer, inner) in methods().flat_map(|outer| methods().map(move |inner| (outer, inner))) {
        if one.is_some_and(|one| one != inner) {
            continue;
        }
        for state in 0..BAD as u8 {
            let deeper = if state + 1 < bad_from { state + 1 } else { BAD as u8 };
            next.insert((state, CALL, outer, inner), deeper);
            next.insert((state, RETURN_TO, inner, outer), state.saturating_sub(1));
        }
    }
    rule_file(next)
}

pub(crate) const CALL: u8 = 1;
pub(crate) const RETURN_TO: u8 = 2;

/// Method 1 goes round all its nodes, and only the last call of a round steps the monitor: one of method 1, which is entered, or of method 4, which is passed over. On
/// the way are calls of method 2, which return, seldom one of method 3, which never does, and seldom edges that make the way shorter.
fn long_way(random: &mut Random, size: Size) -> [Vec<u8>; 3] {
    let length = match size {
        Size::Small => 1 + random.below(24),
        Size::Large => LIMITS.nodes - 3,
    };
    let callees = [node(2, true, true), node(3, false, true), node(4, true, true)];
    let way = (0..length).map(|at| node(1, false, at == 0));
    let nodes: Vec<_> = way.chain(callees).collect();
    let mut edges = Edges::new();
    for at in 0..length - 1 {
        let label = if random.once_in(512) { 3 } else { random.pick(&[0, 0, 2]) };
        edges.insert((at as u8, label, at as u8 + 1));
    }
    let counted = random.pick(&[1, 4]);
    edges.insert((length as u8 - 1, counted, 0));
    if random.once_in(4) {
        let [from, to] = [(); 2].map(|()| random.below(length) as u8);
        edges.insert((from, random.pick(&[0, 1, 2, 3, 4]), to));
    }
    let event = if counted == 1 { CALL } else { RETURN_TO };
    let mut next: BTreeMap<Key, u8> =
        (0..BAD as u8).map(|state| ((state, event, counted, 1), state + 1)).collect();
    // One state may stay, lead back or lead on.
    if random.once_in(4) {
        next.insert((random.below(BAD) as u8, event, counted, 1), random.below(BAD + 1) as u8);
    }
    [interface_of(0x0f, 0x0f), graph_file(&nodes, &edges), rule_file(next)]
}
