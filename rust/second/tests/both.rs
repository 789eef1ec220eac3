//! The composed verdict on two sides that are not written.

mod support;

use second::{Limits, Outcome};
use support::*;

const TRUE: &str = "3 1";
const FALSE: &str = "3 2";
/// No call of method 1, now or after any step: an entry of either flag and no other state.
const NO_CALL_OF_1: &str = "3 7 1 2 / 3 9 1 3 / 3 10 0 / 3 2";

/// Method 1 may call method 2, and method 2 method 1.
fn calling(property1: &str, property2: &str, rules: &str, start: u8) -> Outcome {
    in_decimals(["5 1 2", property1, "5 2 1", property2], rules, start)
}

fn in_decimals(sides: [&str; 4], rules: &str, start: u8) -> Outcome {
    let sides = sides.map(file);
    compose_both(sides.each_ref().map(Vec::as_slice), &file(rules), start)
}

#[test]
fn models_are_joined_the_first_side_first() {
    // A model of "true" has an entry of either flag, and what comes after them before each.
    let returns_to_1 = "4 0 2 2 1 7";
    let trail = "1 0 0 0 1 0 / 1 0 3 2 0 7";
    assert_eq!(calling(TRUE, TRUE, returns_to_1, 1), explained(trail));
    let exchanged = in_decimals(["5 2 1", TRUE, "5 1 2", TRUE], returns_to_1, 1);
    assert_eq!(exchanged, explained("5 0 0 0 5 0 / 5 0 3 2 4 7"));
    assert_eq!(calling(TRUE, TRUE, "", 1), positive());
}

#[test]
fn either_property_can_keep_it_clean() {
    let calls_1 = "4 0 1 2 1 7";
    assert_eq!(calling(TRUE, TRUE, calls_1, 1), explained("1 0 0 0 1 0 / 1 0 3 2 0 7"));
    assert_eq!(calling(TRUE, NO_CALL_OF_1, calls_1, 1), positive());
    assert_eq!(calling(NO_CALL_OF_1, TRUE, calls_1, 2), explained("3 0 0 0 3 0 / 3 0 2 1 0 7"));
    let calls_2 = "4 0 1 1 2 7";
    assert_eq!(calling(TRUE, NO_CALL_OF_1, calls_2, 1), explained("1 0 0 0 1 0 / 1 0 2 2 4 7"));
    assert_eq!(calling("3 9 2 1 / 3 2", TRUE, calls_2, 1), explained(AFTER_A_STEP));
    assert_eq!(calling("3 7 1 2 / 3 9 2 3 / 3 10 0 / 3 2", TRUE, calls_2, 1), positive());
}

/// Nothing is said of what comes after the first step: it may call.
const AFTER_A_STEP: &str = "1 0 0 0 1 0 / 1 0 1 0 0 0 / 0 0 2 2 5 7";

#[test]
fn a_side_may_provide_nothing() {
    let own_call = "4 0 1 1 1 7";
    let trail = "1 0 0 0 1 0 / 1 0 2 1 1 7";
    assert_eq!(in_decimals(["5 1 1", TRUE, "5 0 0", TRUE], own_call, 1), explained(trail));
    assert_eq!(in_decimals(["5 0 1", FALSE, "5 1 1", TRUE], own_call, 1), explained(trail));
    assert_eq!(in_decimals(["5 0 0", TRUE, "5 0 0", TRUE], "", 1), refused(10, 0, 0));
}

#[test]
fn files_are_refused_in_order_each_by_its_lowest_number() {
    let good = ["5 1 2", TRUE, "5 2 1", TRUE, ""];
    let bad = ["5 1 2 1", "3 7 0 1", "5 2 1 / 5 2 1", "", "4 7 1 1 1 0"];
    let expected = [(3, 1, 0), (7, 2, 0), (2, 3, 1), (6, 4, 0), (3, 5, 0)];
    for (at, &(number, position, record)) in expected.iter().enumerate() {
        let files: Vec<&str> =
            (0..5).map(|file| if file < at { good } else { bad }[file]).collect();
        let sides = [files[0], files[1], files[2], files[3]];
        for start in [0, 1, 9] {
            assert_eq!(in_decimals(sides, files[4], start), refused(number, position, record));
        }
    }
    // A later record carries the lower number.
    assert_eq!(calling("3 7 0 9 / 3 11", TRUE, "", 1), refused(3, 2, 1));
}

#[test]
fn calls_are_refused_by_3_then_9_then_10_then_11() {
    let shared = ["5 1 8", TRUE, "5 1 0", TRUE];
    for start in [0, 9, 255] {
        assert_eq!(in_decimals(shared, "", start), refused(3, 0, 0));
    }
    for start in [1, 2] {
        assert_eq!(in_decimals(shared, "", start), refused(9, 0, 0));
    }
    assert_eq!(in_decimals(["5 1 4", TRUE, "5 2 0", TRUE], "", 1), refused(10, 0, 0));
    assert_eq!(in_decimals(["5 1 0", TRUE, "5 2 4", TRUE], "", 1), refused(10, 0, 0));
    assert_eq!(calling(TRUE, TRUE, "", 3), refused(10, 0, 0));
    // Each side may require what it provides itself.
    assert_eq!(in_decimals(["5 1 1", TRUE, "5 2 2", TRUE], "", 2), positive());
}

/// Each of two models has 4 states and 24 edges.
fn within(nodes: usize, edges: usize, start: u8) -> Outcome {
    let limits = Limits { nodes, edges, ..Limits::DESK };
    let [first, second, property] = ["5 1 3", "5 2 3", TRUE].map(file);
    let sides = unwritten([&first, &property, &second, &property]);
    second::compose_both(&limits, &sides, &[], start, 0, [(0, 0); 2])
}

#[test]
fn models_and_joined_graph_have_limits() {
    assert_eq!(within(8, 48, 1), positive());
    for (nodes, edges) in [(7, 48), (8, 47), (4, 48), (8, 24), (3, 48), (8, 23)] {
        assert_eq!(within(nodes, edges, 1), refused(11, 0, 0), "{nodes} {edges}");
    }
    assert_eq!(within(3, 23, 3), refused(10, 0, 0));
}

#[test]
fn either_model_alone_can_pass_the_limits() {
    // 336 states with seven of the methods and one label.
    let large = "3 9 1 4 / 3 9 1 2 / 3 9 1 5 / 3 7 1 0 / 3 8 1 0 / 3 9 1 3";
    for property in [TRUE, FALSE] {
        let first = ["5 254 1", large, "5 1", property];
        let second = ["5 1", property, "5 254 1", large];
        assert_eq!(in_decimals(first, "", 1), refused(11, 0, 0));
        assert_eq!(in_decimals(second, "", 1), refused(11, 0, 0));
    }
}

#[test]
fn output_is_as_long_as_the_trail() {
    let [first, second, property] = ["5 1 2", "5 2 1", TRUE].map(file);
    let sides = unwritten([&first, &property, &second, &property]);
    let with = |rules: &str, len| {
        second::compose_both(&Limits::DESK, &sides, &file(rules), 1, len, [(0, 0); 2])
    };
    let trail = "1 0 0 0 1 0 / 1 0 2 2 5 7";
    assert_eq!(with("4 0 1 1 2 7", 12), explained(trail));
    assert_eq!(with("4 0 1 1 2 7", 11), refused(12, 0, 0));
    assert_eq!(with("", 0), positive());
}

#[test]
fn either_buffer_can_be_short() {
    let sides = unwritten([&[5], &[], &[], &[]]);
    for (lent, number, file) in
        [([(0, 1), (1, 1)], 13, 0), ([(1, 1), (0, 1)], 13, 0), ([(1, 1); 2], 1, 1)]
    {
        let outcome = second::compose_both(&Limits::DESK, &sides, &[], 0, 0, lent);
        assert_eq!(outcome, refused(number, file, 0));
    }
}
