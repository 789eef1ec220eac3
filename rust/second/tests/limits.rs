//! At and one past every limit and every length.

mod support;

use second::{Limits, Outcome, Sides};
use support::*;

/// Entry nodes of a method and the first of all internal edges between them.
fn graph(method: usize, nodes: usize, edges: usize) -> Vec<u8> {
    let node = std::iter::repeat_n(format!("1 {method} 0 1"), nodes);
    let pairs = (0..nodes).flat_map(|from| (0..nodes).map(move |to| (from, to)));
    let edge = pairs.take(edges).map(|(from, to)| format!("2 {from} 0 {to}"));
    file(&node.chain(edge).collect::<Vec<_>>().join("/"))
}

/// Seven independent choices between two boxes, and no successor: 128 states under either flag.
fn wide_property() -> Vec<u8> {
    let ands = (0..7).map(|at| format!("3 7 {} {}", at + 1, at + 7)).take(6);
    let last = "3 7 13 28".to_string();
    let ors = (0..7).map(|at| format!("3 8 {} {}", 14 + at * 2, 15 + at * 2));
    let boxes = vec!["3 9 1 0".to_string(); 14];
    let rows: Vec<String> = ands.chain([last]).chain(ors).chain(boxes).collect();
    file(&(rows.join("/") + "/3 9 0 29/3 2"))
}

/// Runs a call with each length and expects `number` exactly for the first of them.
fn assert_refused_below(number: u8, least: usize, call: impl Fn(usize) -> Outcome) {
    assert_eq!(call(least - 1), refused(number, 0, 0));
    assert!(matches!(call(least), Outcome::Said { .. }), "{:?}", call(least));
}

#[test]
fn nodes_and_edges_of_a_graph() {
    let property = file("3 1");
    assert_eq!(judge(&graph(1, 256, 4096), &property), positive());
    assert_eq!(judge(&graph(1, 256, 4097), &property), refused(5, 1, 0));
    assert_eq!(judge(&graph(1, 257, 0), &property), refused(5, 1, 0));
    assert_eq!(compare(&[], &graph(1, 256, 4097)), refused(5, 2, 0));
    let full = graph(1, 256, 4096);
    assert_eq!(show(&full, &full, 511), said(1, &[], file("1 1 0 1")));
    assert_eq!(show(&full, &full, 512), refused(7, 0, 0));
}

#[test]
fn rows_of_a_property() {
    for (row, most) in [("3 1", 32), ("3 8 0 0", 12)] {
        let property = |count| file(&vec![row; count].join("/"));
        assert!(matches!(model(&file("5 1"), &property(most)), Outcome::Said { .. }));
        assert_eq!(model(&file("5 1"), &property(most + 1)), refused(5, 2, 0));
    }
}

#[test]
fn states_and_edges_of_a_model() {
    let interface = file("5 1");
    assert_model_size(&model(&interface, &wide_property()), 256, 0);
    assert_eq!(model(&file("5 3"), &wide_property()), refused(11, 0, 0));
    let true_everywhere = (file("5 255 255"), file("3 1"), 32, 576);
    for (interface, property, nodes, edges) in
        [(interface, wide_property(), 256, 0), true_everywhere]
    {
        let size = |nodes, edges| {
            let limits = Limits { nodes, edges, ..Limits::DESK };
            second::model(&limits, &interface, &property, ENOUGH, 0, 0)
        };
        assert_model_size(&size(nodes, edges), nodes as u64, edges as u64);
        assert_eq!(size(nodes - 1, edges), refused(11, 0, 0));
        if edges > 0 {
            assert_eq!(size(nodes, edges - 1), refused(11, 0, 0));
        }
    }
}

#[test]
fn nodes_and_edges_of_a_joined_graph() {
    let interfaces = [file("5 1"), file("5 2")];
    let sizes =
        [(200, 0, 56, 0), (200, 0, 57, 0), (256, 0, 1, 0), (90, 4000, 90, 96), (90, 4000, 90, 97)];
    for (nodes1, edges1, nodes2, edges2) in sizes {
        let [first, second] = [graph(1, nodes1, edges1), graph(2, nodes2, edges2)];
        let outcome = join([&interfaces[0], &first, &interfaces[1], &second]);
        if nodes1 + nodes2 <= 256 && edges1 + edges2 <= 4096 {
            let values = [nodes1 + nodes2, edges1 + edges2, 3, 0].map(|value| value as u64);
            assert!(
                matches!(&outcome, Outcome::Said { values: said, .. } if *said == values),
                "{outcome:?}"
            );
        } else {
            assert_eq!(outcome, refused(11, 0, 0));
        }
    }
}

#[test]
fn joined_graph_of_a_composed_verdict() {
    let property = file("3 1");
    let compose_with = |nodes| {
        let sides = Sides {
            known_interface: &file("5 1"),
            known_graph: &graph(1, nodes, 0),
            other_interface: &file("5 2"),
            property: &property,
        };
        compose(&sides, &[], 1)
    };
    assert_eq!(compose_with(252), positive());
    assert_eq!(compose_with(253), refused(11, 0, 0));
}

#[test]
fn output() {
    let desk = &Limits::DESK;
    let node = file("1 1 0 1");
    let returning = file("1 1 0 1 / 1 1 1 0 / 1 1 1 1 / 2 0 1 1");
    let (interface, empty, rules) = (file("5 1 1"), file("5"), file("4 0 2 1 1 7"));
    let sides = Sides {
        known_interface: &interface,
        known_graph: &returning,
        other_interface: &empty,
        property: &file("3 1"),
    };
    assert_refused_below(12, 6, |len| second::judge(desk, &node, &file("3 5"), len, 0, 0));
    assert_refused_below(12, 32, |len| second::compare(desk, &node, &node, len, 0, 0));
    assert_refused_below(12, 32, |len| second::compare(desk, &node, &[], len, 0, 0));
    assert_refused_below(12, 72, |len| {
        second::model(desk, &file("5 1"), &file("3 8 0 0"), len, 0, 0)
    });
    assert_refused_below(12, 6, |len| second::join(desk, &interface, &node, &empty, &[], len));
    assert_refused_below(12, 12, |len| {
        second::watch(desk, &interface, &returning, &rules, 1, len, 0, 0)
    });
    assert_refused_below(12, 12, |len| second::compose(desk, &sides, &rules, 1, len, [(0, 0); 2]));
    assert_eq!(second::judge(desk, &node, &file("3 6"), 0, 0, 0), positive());
    assert_eq!(second::watch(desk, &interface, &returning, &[], 1, 0, 0, 0), positive());
}

#[test]
fn work_space() {
    let desk = &Limits::DESK;
    let (one, two, property) = (file("5 1"), file("5 2"), file("3 1"));
    let sides = Sides {
        known_interface: &one,
        known_graph: &graph(1, 1, 0),
        other_interface: &two,
        property: &property,
    };
    assert_refused_below(13, 100, |len| second::judge(desk, &[], &property, 0, len, 100));
    assert_refused_below(13, 100, |len| second::compare(desk, &[], &[], 0, len, 100));
    assert_refused_below(13, 100, |len| second::model(desk, &one, &property, ENOUGH, len, 100));
    assert_refused_below(13, 100, |len| second::watch(desk, &one, &[], &[], 1, 0, len, 100));
    let lent =
        |first, second| second::compose(desk, &sides, &[], 1, 0, [(first, 100), (second, 100)]);
    assert_refused_below(13, 100, |len| lent(len, 100));
    assert_refused_below(13, 100, |len| lent(100, len));
}

#[test]
fn other_limits() {
    let limits = &Limits { nodes: 2, edges: 1, rows: 200, ors: 60 };
    let property = |count| file(&vec!["3 8 0 0"; count].join("/"));
    let judge = |graph: &[u8], property: &[u8]| second::judge(limits, graph, property, 0, 0, 0);
    assert_eq!(judge(&graph(1, 2, 1), &property(60)), positive());
    assert_eq!(judge(&graph(1, 2, 1), &property(61)), refused(5, 2, 0));
    assert_eq!(judge(&graph(1, 2, 2), &property(60)), refused(5, 1, 0));
    assert_eq!(judge(&graph(1, 3, 0), &property(60)), refused(5, 1, 0));
    let rows = |count| file(&vec!["3 1"; count].join("/"));
    assert_eq!(judge(&[], &rows(200)), positive());
    assert_eq!(judge(&[], &rows(201)), refused(5, 2, 0));
    // Row 199 is false at the only state there would be.
    let far = file(&("3 7 198 199/".to_string() + &"3 1/".repeat(198) + "3 2"));
    let modelled = second::model(limits, &file("5 1"), &far, 0, 0, 0);
    assert_eq!(modelled, said(1, &[0, 0], vec![]));
}
