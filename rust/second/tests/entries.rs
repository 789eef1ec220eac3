//! Composed verdicts where a provided method has no entry.

mod support;

use second::{Limits, Outcome, Sides};
use support::*;

const TRUE: &str = "3 1";
const FALSE: &str = "3 2";
const IN_1: &str = "3 3 1";
const IN_2: &str = "3 3 2";
/// An entry of method 1.
const ENTRY: &str = "1 1 0 1";
/// Calls of either method by the other, and returns to it.
const ANY_CALL: &str = "4 0 1 1 2 7 / 4 0 1 2 1 7 / 4 0 2 1 2 7 / 4 0 2 2 1 7";
/// Of methods 2 and 3, only 2 has entries: the model has 4 states and 8 edges.
const LACKING: [&str; 2] = ["5 6", IN_2];
/// 336 states with seven of the methods and one label.
const LARGE: &str = "3 9 1 4 / 3 9 1 2 / 3 9 1 5 / 3 7 1 0 / 3 8 1 0 / 3 9 1 3";

fn impossible() -> Outcome {
    said(3, &[], vec![])
}

fn one_sided(limits: &Limits, sides: [&str; 4], rules: &str, start: u8, len: usize) -> Outcome {
    let [known_interface, known_graph, other_interface, property] = &sides.map(file);
    let sides = Sides { known_interface, known_graph, other_interface, property };
    second::compose(limits, &sides, &file(rules), start, len, [(0, 0); 2])
}

fn two_sided(limits: &Limits, sides: [&str; 4], rules: &str, start: u8, len: usize) -> Outcome {
    let sides = sides.map(file);
    let sides = unwritten(sides.each_ref().map(Vec::as_slice));
    second::compose_both(limits, &sides, &file(rules), start, len, [(0, 0); 2])
}

/// Interface and graph of the known side, interface and property of the other.
fn known(sides: [&str; 4], start: u8) -> Outcome {
    one_sided(&Limits::DESK, sides, "", start, ENOUGH)
}

/// Interface and property of either side.
fn both(sides: [&str; 4], start: u8) -> Outcome {
    two_sided(&Limits::DESK, sides, "", start, ENOUGH)
}

#[test]
fn a_model_without_an_entry_is_impossible() {
    for start in [1, 2] {
        assert_eq!(known(["5 1", ENTRY, "5 2", FALSE], start), impossible());
        assert_eq!(known(["5 1", ENTRY, "5 2", TRUE], start), positive());
    }
    // One method without an entry is enough, whatever the others have.
    assert_eq!(known(["5 1", ENTRY, "5 6", IN_2], 1), impossible());
    assert_eq!(known(["5 1", ENTRY, "5 2", IN_2], 1), positive());
    // No node is both.
    assert_eq!(known(["5 1", ENTRY, "5 2", "3 7 1 2 / 3 5 / 3 6"], 1), impossible());
    assert_eq!(known(["5 1", ENTRY, "5 2", "3 8 1 2 / 3 5 / 3 6"], 1), positive());
}

#[test]
fn successors_need_not_be_possible() {
    // Nothing can stand after an edge, but an entry needs none.
    let no_edge = "3 10 1 / 3 2";
    assert_eq!(known(["5 1", ENTRY, "5 2", no_edge], 2), positive());
    assert_eq!(both(["5 1", no_edge, "5 2", no_edge], 2), positive());
}

#[test]
fn either_of_two_models_is_impossible() {
    for (property1, property2) in [(TRUE, FALSE), (FALSE, TRUE), (FALSE, FALSE)] {
        for start in [1, 2] {
            let sides = ["5 1 2", property1, "5 2 1", property2];
            assert_eq!(two_sided(&Limits::DESK, sides, ANY_CALL, start, 0), impossible());
        }
    }
    assert_eq!(both(["5 5", IN_1, "5 2", TRUE], 1), impossible());
    assert_eq!(both(["5 2", TRUE, "5 5", IN_1], 1), impossible());
    assert_eq!(both(["5 1", IN_1, "5 2", IN_2], 1), positive());
}

#[test]
fn impossible_stands_in_place_of_bad() {
    let own_call = "4 0 1 1 1 7";
    let calling = ["5 1 1", "1 1 0 1 / 2 0 1 0"];
    let with = |side, property| {
        let sides = [calling[0], calling[1], side, property];
        one_sided(&Limits::DESK, sides, own_call, 1, ENOUGH)
    };
    assert_eq!(with("5 2", TRUE), explained("0 0 0 0 0 0 / 0 0 2 1 0 7"));
    assert_eq!(with("5 2", FALSE), impossible());
    let unwritten = |property| {
        two_sided(&Limits::DESK, ["5 1 3", TRUE, "5 2 1", property], own_call, 1, ENOUGH)
    };
    assert_eq!(unwritten(TRUE), explained("1 0 0 0 1 0 / 1 0 2 1 1 7"));
    assert_eq!(unwritten(FALSE), impossible());
}

#[test]
fn a_side_that_provides_nothing_is_never_impossible() {
    for property in [TRUE, FALSE] {
        assert_eq!(known(["5 1", ENTRY, "5 0 1", property], 1), positive());
        assert_eq!(both(["5 1", TRUE, "5 0 1", property], 1), positive());
        assert_eq!(both(["5 0 1", property, "5 1", TRUE], 1), positive());
        // Nor does its empty graph lack an entry.
        assert_eq!(known(["5", "", "5 1", property], 1), possible_if(property == TRUE));
    }
}

fn possible_if(condition: bool) -> Outcome {
    if condition {
        positive()
    } else {
        impossible()
    }
}

#[test]
fn nothing_is_written() {
    assert_eq!(one_sided(&Limits::DESK, ["5 1", ENTRY, "5 2", FALSE], "", 1, 0), impossible());
    assert_eq!(two_sided(&Limits::DESK, ["5 1", FALSE, "5 2", TRUE], "", 1, 0), impossible());
}

#[test]
fn a_known_graph_without_an_entry_is_refused_by_16() {
    let other = ["5 2", TRUE];
    let with = |interface, graph| known([interface, graph, other[0], other[1]], 2);
    assert_eq!(with("5 1", ""), refused(16, 0, 0));
    // Nodes are not enough, nor are entries of the other methods.
    assert_eq!(with("5 1", "1 1 0 0 / 1 1 1 0 / 2 0 0 1"), refused(16, 0, 0));
    assert_eq!(with("5 5", "1 1 0 1 / 1 3 1 0"), refused(16, 0, 0));
    assert_eq!(with("5 133", "1 1 0 1 / 1 3 1 1"), refused(16, 0, 0));
    assert_eq!(with("5 133", "1 1 0 1 / 1 3 1 1 / 1 8 0 0 / 1 8 1 1"), positive());
}

#[test]
fn number_16_comes_after_9() {
    // Not of the interface, then a shared method.
    assert_eq!(known(["5 1", "1 2 0 1", "5 4", TRUE], 1), refused(9, 2, 0));
    assert_eq!(known(["5 1", "1 1 / 2 0 1 0", "5 4", TRUE], 1), refused(9, 2, 1));
    assert_eq!(known(["5 1", "", "5 1", TRUE], 1), refused(9, 0, 0));
    // The start method's 3 comes earlier still.
    assert_eq!(known(["5 1", "", "5 1", TRUE], 9), refused(3, 0, 0));
}

#[test]
fn number_16_comes_before_10_and_11() {
    for property in [TRUE, FALSE] {
        assert_eq!(known(["5 1 4", "", "5 2", property], 1), refused(16, 0, 0));
        assert_eq!(known(["5 1", "", "5 2", property], 8), refused(16, 0, 0));
        assert_eq!(known(["5 1", "", "5 2", property], 1), refused(16, 0, 0));
    }
    assert_eq!(known(["5 1", "", "5 254 1", LARGE], 1), refused(16, 0, 0));
    let nodes = vec!["1 1"; 253].join("/");
    assert_eq!(known(["5 1", &nodes, "5 2", TRUE], 1), refused(16, 0, 0));
}

#[test]
fn impossible_comes_after_9_and_10() {
    assert_eq!(known(["5 1", ENTRY, "5 1", FALSE], 1), refused(9, 0, 0));
    assert_eq!(known(["5 1", ENTRY, "5 2 4", FALSE], 1), refused(10, 0, 0));
    assert_eq!(known(["5 1", ENTRY, "5 2", FALSE], 3), refused(10, 0, 0));
    assert_eq!(both(["5 1", FALSE, "5 1", FALSE], 1), refused(9, 0, 0));
    assert_eq!(both(["5 1 4", TRUE, "5 2", FALSE], 1), refused(10, 0, 0));
    assert_eq!(both(["5 1", FALSE, "5 2", TRUE], 3), refused(10, 0, 0));
}

#[test]
fn impossible_comes_after_a_model_that_is_too_large() {
    assert_eq!(both(["5 1", FALSE, "5 254 1", LARGE], 1), refused(11, 0, 0));
    assert_eq!(both(["5 254 1", LARGE, "5 1", FALSE], 1), refused(11, 0, 0));
    // The side that lacks an entry may itself be too large.
    let within = |nodes, edges| {
        let limits = Limits { nodes, edges, ..Limits::DESK };
        one_sided(&limits, ["5 1", ENTRY, LACKING[0], LACKING[1]], "", 1, 0)
    };
    assert_eq!(within(5, 8), impossible());
    assert_eq!(within(3, 8), refused(11, 0, 0));
    assert_eq!(within(5, 7), refused(11, 0, 0));
}

#[test]
fn impossible_comes_after_a_joined_graph_that_is_too_large() {
    assert_model_size(&model(&file(LACKING[0]), &file(LACKING[1])), 4, 8);
    let nodes = |count| vec![ENTRY; count].join("/");
    assert_eq!(known(["5 1", &nodes(252), LACKING[0], LACKING[1]], 1), impossible());
    assert_eq!(known(["5 1", &nodes(253), LACKING[0], LACKING[1]], 1), refused(11, 0, 0));
    let within =
        |nodes, edges, sides| two_sided(&Limits { nodes, edges, ..Limits::DESK }, sides, "", 1, 0);
    for sides in [["5 1", TRUE, LACKING[0], LACKING[1]], [LACKING[0], LACKING[1], "5 1", TRUE]] {
        assert_eq!(within(8, 16, sides), impossible());
        assert_eq!(within(7, 16, sides), refused(11, 0, 0));
        assert_eq!(within(8, 15, sides), refused(11, 0, 0));
    }
}

#[test]
fn the_other_calls_allow_a_method_without_entry() {
    let [one, two, graph] = ["5 1", "5 2", "1 1"].map(file);
    assert_eq!(judge(&graph, &file(FALSE)), positive());
    assert_eq!(model(&one, &file(FALSE)), said(1, &[0, 0], vec![]));
    assert_eq!(compare(&graph, &[]), said(1, &[], vec![0; 32]));
    assert_eq!(join([&one, &graph, &two, &[]]), said(1, &[1, 0, 3, 0], graph.clone()));
    assert_eq!(watch(&one, &graph, &[], 1), positive());
}
