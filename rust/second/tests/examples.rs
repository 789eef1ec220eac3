//! Every example of the refusal table and of the course.

mod support;

use second::{Limits, Sides};
use support::*;

const ONE_NODE: &str = "1 1 0 1";

// The refusal table.

#[test]
fn number_1_length() {
    assert_eq!(judge(&[1, 1, 0, 0, 0], &file("3 1")), refused(1, 1, 0));
    assert_eq!(judge(&[9; 7], &file("3 1")), refused(1, 1, 0));
}

#[test]
fn number_2_kind() {
    assert_eq!(judge(&file("1 1 / 2 0 0 0 / 1 1"), &file("3 1")), refused(2, 1, 2));
    assert_eq!(model(&file("5 1 / 5 1"), &file("3 1")), refused(2, 1, 1));
    assert_eq!(model(&file("5 1 / 7 1"), &file("3 1")), refused(2, 1, 1));
    assert_eq!(model(&file("4 1"), &file("3 1")), refused(2, 1, 0));
    assert_eq!(judge(&file("1 9 / 1 1 / 3 1"), &file("3 1")), refused(2, 1, 2));
}

#[test]
fn number_3_range() {
    assert_eq!(judge(&file("1 9"), &file("3 1")), refused(3, 1, 0));
    let graphs = ["1 0", "1 1 2", "1 1 0 2", "1 1 0 0 1", "1 1 / 2 0 9 0", "1 1 / 2 0 0 0 0 1"];
    for (graph, record) in graphs.into_iter().zip([0, 0, 0, 0, 1, 1]) {
        assert_eq!(judge(&file(graph), &file("3 1")), refused(3, 1, record), "{graph}");
    }
    let rows = ["3 0", "3 11", "3 1 1", "3 2 0 1", "3 3 0", "3 3 9", "3 4 1 1", "3 5 1", "3 6 0 1"];
    let rows = rows.into_iter().chain(["3 7 0 0 1", "3 9 9 0", "3 9 0 0 0 1"]);
    for row in rows.chain(["3 10 0 1", "3 10 1 1", "3 10 0 0 1", "3 10 0 0 0 1"]) {
        assert_eq!(judge(&[], &file(row)), refused(3, 2, 0), "{row}");
    }
}

#[test]
fn number_3_range_of_watching() {
    let rules = ["4 7 1 1 1 0", "4 0 0 1 1 0", "4 0 3 1 1 0", "4 0 1 0 1 0", "4 0 1 1 9 0"];
    for rule in rules.into_iter().chain(["4 0 1 1 1 8"]) {
        assert_eq!(watch(&file("5 1"), &[], &file(rule), 1), refused(3, 3, 0), "{rule}");
    }
    assert_eq!(model(&file("5 1 1 1"), &file("3 1")), refused(3, 1, 0));
    assert_eq!(watch(&file("5 1"), &[], &[], 0), refused(3, 0, 0));
    assert_eq!(watch(&file("5 1"), &[], &[], 9), refused(3, 0, 0));
}

#[test]
fn number_4_order() {
    assert_eq!(judge(&file("1 1 / 2 0 0 0 / 2 0 0 0"), &file("3 1")), refused(4, 1, 2));
    let rules = "4 0 1 1 1 7 / 4 0 1 1 2 1 / 4 0 1 1 2 3";
    assert_eq!(watch(&file("5 1"), &[], &file(rules), 1), refused(4, 3, 2));
}

#[test]
fn number_5_limit() {
    assert_eq!(judge(&file(&vec![ONE_NODE; 257].join("/")), &file("3 1")), refused(5, 1, 0));
}

#[test]
fn number_6_empty() {
    assert_eq!(judge(&[], &[]), refused(6, 2, 0));
    assert_eq!(model(&[], &file("3 1")), refused(6, 1, 0));
}

#[test]
fn number_7_past_the_last() {
    assert_eq!(judge(&file("1 1 / 2 0 0 1"), &file("3 1")), refused(7, 1, 1));
    assert_eq!(judge(&[], &file("3 7 0 1")), refused(7, 2, 0));
    assert_eq!(judge(&[], &file("3 1 / 3 9 8 2")), refused(7, 2, 1));
    for row in ["3 10 1", "3 10 9", "3 10 255"] {
        assert_eq!(judge(&[], &file(row)), refused(7, 2, 0), "{row}");
    }
}

#[test]
fn number_8_between_methods() {
    assert_eq!(judge(&file("1 1 / 1 2 / 2 0 0 1"), &file("3 1")), refused(8, 1, 2));
}

#[test]
fn number_9_not_of_interface() {
    let (first, node) = (file("5 1"), file(ONE_NODE));
    assert_eq!(join([&first, &[], &first, &[]]), refused(9, 0, 0));
    assert_eq!(join([&first, &[], &file("5 2"), &node]), refused(9, 4, 0));
    assert_eq!(watch(&first, &file("1 1 / 2 0 1 0"), &[], 1), refused(9, 2, 1));
    let sides = Sides {
        known_interface: &first,
        known_graph: &node,
        other_interface: &first,
        property: &file("3 1"),
    };
    assert_eq!(compose(&sides, &[], 1), refused(9, 0, 0));
}

#[test]
fn number_10_not_provided() {
    assert_eq!(watch(&file("5 1 2"), &[], &[], 1), refused(10, 0, 0));
    assert_eq!(watch(&file("5 1"), &[], &[], 2), refused(10, 0, 0));
}

#[test]
fn number_11_too_large() {
    let [many, rest] = [200, 57].map(|count| vec![ONE_NODE; count].join("/"));
    let rest = rest.replace("1 1", "1 2");
    let [one, two] = ["5 1", "5 2"].map(file);
    assert_eq!(join([&one, &file(&many), &two, &file(&rest)]), refused(11, 0, 0));
    let fits = file(rest.strip_suffix("/1 2 0 1").expect("the last node"));
    let outcome = join([&one, &file(&many), &two, &fits]);
    assert_eq!(outcome, said(1, &[256, 0, 3, 0], [file(&many), fits].concat()));
}

#[test]
fn number_12_short_output() {
    let (graph, property) = (file(ONE_NODE), file("3 5"));
    let outcome = |out_len| second::judge(&Limits::DESK, &graph, &property, out_len, 0, 0);
    assert_eq!(outcome(5), refused(12, 0, 0));
    assert_eq!(outcome(6), explained("0 0 0 255 0 255"));
}

#[test]
fn number_13_short_work() {
    let outcome = |work_len| second::judge(&Limits::DESK, &[1], &[], 0, work_len, 1);
    assert_eq!(outcome(0), refused(13, 0, 0));
    assert_eq!(outcome(1), refused(1, 1, 0));
    let sides =
        Sides { known_interface: &[], known_graph: &[], other_interface: &[], property: &[] };
    for (lent, number, file) in
        [([(0, 1), (1, 1)], 13, 0), ([(1, 1), (0, 1)], 13, 0), ([(1, 1); 2], 6, 1)]
    {
        let outcome = second::compose(&Limits::DESK, &sides, &[], 1, 0, lent);
        assert_eq!(outcome, refused(number, file, 0));
    }
}

#[test]
fn showing_refuses_by_7_past_both_graphs() {
    let (first, second) = (file(ONE_NODE), file("1 2 1 0 / 1 2 0 0 / 2 1 0 1"));
    assert_eq!(show(&first, &second, 0), said(1, &[], first.clone()));
    assert_eq!(show(&first, &second, 1), said(1, &[], file("1 2 1 0")));
    assert_eq!(show(&first, &second, 2), said(1, &[], file("1 2 0 0")));
    assert_eq!(show(&first, &second, 3), refused(7, 0, 0));
    assert_eq!(show(&first, &file("1 0"), 3), refused(3, 2, 0));
}

// The course.

#[test]
fn course_1_model() {
    let nodes = "1 1 0 0 / 1 1 1 0 / 1 1 1 1";
    let edges = "2 0 0 0 / 2 0 0 1 / 2 0 1 0 / 2 0 1 1 / 2 1 0 0 / 2 1 0 1 / 2 1 1 0 / 2 1 1 1";
    let expected = file(&format!("{nodes} / {edges} / 2 2 0 0 / 2 2 0 1"));
    let property = file("3 7 1 3 / 3 9 1 2 / 3 2 / 3 5");
    assert_eq!(model(&file("5 1 1"), &property), said(1, &[3, 10], expected));
}

#[test]
fn course_2_to_4_greatest_solution_and_false() {
    assert_model_size(&model(&file("5 1"), &file("3 8 0 0")), 4, 8);
    assert_eq!(model(&file("5 1"), &file("3 2")), said(1, &[0, 0], vec![]));
    assert_eq!(judge(&[], &file("3 2")), positive());
    assert_eq!(judge(&file(ONE_NODE), &file("3 8 0 0")), positive());
}

#[test]
fn course_5_to_7_sheets() {
    assert_eq!(judge(&file(ONE_NODE), &file("3 5")), explained("0 0 0 255 0 255"));
    let graph = file("1 1 0 1 / 1 1 1 0 / 2 0 1 1");
    let sheet = "0 0 1 1 0 255 / 1 1 0 255 0 255";
    assert_eq!(judge(&graph, &file("3 9 1 1 / 3 6")), explained(sheet));
    assert_eq!(judge(&graph, &file("3 9 0 1 / 3 6")), positive());
}

#[test]
fn course_8_and_9_simulation() {
    let cycle = file("1 1 0 1 / 1 1 0 1 / 2 0 0 1 / 2 1 0 0");
    let own_loop = file("1 1 0 1 / 2 0 0 0");
    let row = |byte: u8| [&[byte][..], &[0; 31]].concat();
    assert_eq!(compare(&cycle, &own_loop), said(1, &[], [row(1), row(1)].concat()));
    assert_eq!(compare(&own_loop, &cycle), said(1, &[], row(3)));
    assert_eq!(compare(&own_loop, &file(ONE_NODE)), said(2, &[0], row(0)));
}

#[test]
fn course_10_and_11_trails() {
    let (interface, rules) = (file("5 1 1"), file("4 0 2 1 1 7"));
    let never_returns = file("1 1 0 1 / 1 1 1 0 / 2 0 1 1");
    assert_eq!(watch(&interface, &never_returns, &rules, 1), positive());
    let returns = file("1 1 0 1 / 1 1 1 0 / 1 1 1 1 / 2 0 1 1");
    let trail = "0 0 0 0 0 0 / 0 0 3 1 1 7";
    assert_eq!(watch(&interface, &returns, &rules, 1), explained(trail));
}

#[test]
fn course_12_limits() {
    assert_eq!(judge(&file(&vec![ONE_NODE; 256].join("/")), &file("3 1")), positive());
    for (row, most) in [("3 1", 32), ("3 8 0 0", 12)] {
        let property = |count| file(&vec![row; count].join("/"));
        assert_eq!(judge(&[], &property(most)), positive());
        assert_eq!(judge(&[], &property(most + 1)), refused(5, 2, 0));
    }
}

// The box over every label.

#[test]
fn box_all_holds_where_no_edge_leads_to_a_false_row() {
    let own_loops = file("1 1 0 1 / 2 0 0 0 / 2 0 8 0");
    for graph in [vec![], file(ONE_NODE), own_loops] {
        assert_eq!(judge(&graph, &file("3 10 0")), positive());
    }
    assert_eq!(judge(&file(ONE_NODE), &file("3 10 1 / 3 2")), positive());
}

#[test]
fn box_all_has_the_target_of_lowest_rank_whatever_its_label() {
    let graph = file("1 1 0 1 / 1 1 1 0 / 1 1 0 0 / 2 0 1 1 / 2 0 2 2");
    let sheet = "0 0 2 1 0 255 / 2 1 0 255 0 255";
    assert_eq!(judge(&graph, &file("3 10 1 / 3 5")), explained(sheet));
    // Equal ranks: the lowest node, though its label is the higher one.
    let graph = file("1 1 0 1 / 1 1 / 1 1 / 2 0 1 2 / 2 0 2 1");
    let sheet = "0 0 1 1 0 255 / 1 1 0 255 0 255";
    assert_eq!(judge(&graph, &file("3 10 1 / 3 5")), explained(sheet));
    // Row 1 has rank 3 at node 1 and rank 2 at node 2.
    let graph = file("1 1 0 1 / 1 1 1 0 / 1 1 0 0 / 2 0 0 1 / 2 0 3 2 / 2 1 5 2");
    let sheet = "0 0 2 1 0 255 / 2 1 2 3 0 255 / 2 3 0 255 0 255";
    assert_eq!(judge(&graph, &file("3 10 1 / 3 7 2 3 / 3 10 3 / 3 5")), explained(sheet));
}

#[test]
fn box_all_obliges_under_every_label_of_the_model() {
    let nodes = "1 1 0 1 / 1 1 1 1";
    let targets = |(from, label): (u8, u8)| format!("2 {from} {label} 0 / 2 {from} {label} 1");
    let sources = [(0, 0), (0, 2), (0, 3), (1, 0), (1, 2), (1, 3)].map(targets);
    let expected = file(&format!("{nodes} / {}", sources.join("/")));
    assert_eq!(model(&file("5 1 6"), &file("3 10 0")), said(1, &[2, 12], expected));
    let no_step = said(1, &[2, 0], file(nodes));
    assert_eq!(model(&file("5 1 1"), &file("3 10 1 / 3 2")), no_step);
}

#[test]
fn box_all_is_no_or_row() {
    let property = |count| file(&vec!["3 10 0"; count].join("/"));
    assert_eq!(judge(&[], &property(32)), positive());
    assert_eq!(judge(&[], &property(33)), refused(5, 2, 0));
}
