//! The refusal table, its order, and how its sentences are read.

mod oracle;

use oracle::*;
use second::refusal::number;

const TRUE: &str = "3 1";

fn in_graph(graph: &[u8]) -> (u8, usize) {
    second::files::check_graph(graph, LIMITS).expect_err("a damaged graph")
}

fn in_property(property: &str) -> (u8, usize) {
    second::files::check_property(&file(property), LIMITS).expect_err("a damaged property")
}

fn in_rules(rules: &str) -> (u8, usize) {
    second::files::check_rules(&file(rules)).expect_err("damaged rules")
}

fn in_interface(interface: &[u8]) -> (u8, usize) {
    second::files::check_interface(interface).expect_err("a damaged interface")
}

#[test]
fn length() {
    assert_eq!(judge(&[1, 1, 0, 1, 0], &file(TRUE)), refused(number::LENGTH, 1, 0));
    assert_eq!(in_interface(&[5; 13]), (1, 0));
}

#[test]
fn kind() {
    assert_eq!(in_graph(&file("1 1 / 2 0 0 0 / 1 1")), (number::KIND, 2));
    assert_eq!(in_graph(&file("1 1 / 3 1 / 1 1")), (2, 1));
    assert_eq!(in_interface(&file("5 1 1 / 5 2 2")), (2, 1));
    assert_eq!(in_interface(&file("5 1 1 1 / 9 9 9")), (2, 1));
    assert_eq!(in_interface(&file("4 / 5")), (2, 0));
    assert_eq!(in_property("3 1 / 2 1"), (2, 1));
    assert_eq!(in_rules("5 0 1 1 1 1"), (2, 0));
}

#[test]
fn range() {
    assert_eq!(in_graph(&file("1 9")), (number::RANGE, 0));
    for graph in ["1 0", "1 1 2", "1 1 0 2", "1 1 0 0 1", "1 1 0 0 0 1"] {
        assert_eq!(in_graph(&file(graph)), (3, 0), "{graph}");
    }
    for edge in ["2 0 9 0", "2 0 0 0 1", "2 0 0 0 0 1"] {
        assert_eq!(in_graph(&file(&format!("1 1 / {edge}"))), (3, 1), "{edge}");
    }
    for row in ["3 0", "3 11", "3 1 1", "3 2 0 1", "3 3", "3 3 9", "3 3 1 1", "3 4 0", "3 5 1"] {
        assert_eq!(in_property(row), (3, 0), "{row}");
    }
    for row in ["3 6 0 1", "3 9 9 0", "3 7 0 0 1", "3 8 0 0 0 1", "3 10 0 1", "3 10 9 1"] {
        assert_eq!(in_property(row), (3, 0), "{row}");
    }
    for rule in ["4 7 1 1 1 0", "4 0 0 1 1 0", "4 0 3 1 1 0", "4 0 1 0 1 0", "4 0 1 1 9 0"] {
        assert_eq!(in_rules(rule), (3, 0), "{rule}");
    }
    assert_eq!(in_rules("4 0 1 1 1 8"), (3, 0));
    for interface in ["5 0 0 1", "5 0 0 0 1", "5 0 0 0 0 1"] {
        assert_eq!(in_interface(&file(interface)), (3, 0), "{interface}");
    }
}

#[test]
fn order() {
    assert_eq!(in_graph(&file("1 1 / 2 0 0 0 / 2 0 0 0")), (number::ORDER, 2));
    assert_eq!(in_graph(&file("1 1 / 2 0 1 0 / 2 0 0 9")), (4, 2));
    assert_eq!(in_rules("4 0 1 1 1 1 / 4 0 1 1 1 2"), (4, 1));
    assert_eq!(in_rules("4 0 1 1 2 1 / 4 0 2 1 1 1 / 4 0 1 1 1 1"), (4, 2));
}

#[test]
fn limit() {
    assert_eq!(in_graph(&file("1 1").repeat(257)), (number::LIMIT, 0));
    let edge =
        |code: usize| [2, (code / 1024) as u8, (code / 128 % 8) as u8, (code % 128) as u8, 0, 0];
    let edges = |count: usize| (0..count).flat_map(edge).collect();
    let graph = |count| [file("1 1").repeat(256), edges(count)].concat();
    assert!(second::files::check_graph(&graph(4096), LIMITS).is_ok());
    assert_eq!(in_graph(&graph(4097)), (5, 0));
    assert_eq!(in_property(&"3 8 0 99 /".repeat(13)), (5, 0));
}

#[test]
fn empty() {
    assert_eq!(in_property(""), (number::EMPTY, 0));
    assert_eq!(in_interface(&[]), (6, 0));
    assert!(second::files::check_graph(&[], LIMITS).is_ok());
    assert!(second::files::check_rules(&[]).is_ok());
}

#[test]
fn past_the_last() {
    assert_eq!(in_graph(&file("1 1 / 2 0 0 1")), (number::PAST_THE_LAST, 1));
    assert_eq!(in_graph(&file("2 0 0 0")), (7, 0));
    assert_eq!(in_graph(&file("1 1 / 1 1 / 2 0 0 1 / 2 255 0 0")), (7, 3));
    assert_eq!(in_property("3 7 0 200"), (7, 0));
    assert_eq!(in_property("3 9 0 0 / 3 8 2 0"), (7, 1));
    assert_eq!(in_property("3 10 1"), (7, 0));
    assert_eq!(in_property("3 10 1 / 3 10 2"), (7, 1));
    // A later record carries the lower number.
    assert_eq!(in_property("3 10 9 / 3 10 0 1"), (3, 1));
}

#[test]
fn between_methods() {
    assert_eq!(in_graph(&file("1 1 / 1 2 / 2 0 0 1")), (number::BETWEEN_METHODS, 2));
    // A later record carries the lower number.
    assert_eq!(in_graph(&file("1 1 / 1 2 / 2 0 0 1 / 2 0 0 2")), (7, 3));
}

#[test]
fn not_of_interface() {
    let (one, two) = (file("1 1 0 1"), file("1 2 0 1"));
    let shared = join([(&file("5 1"), &one), (&file("5 1"), &one)]);
    assert_eq!(shared, refused(number::NOT_OF_INTERFACE, 0, 0));
    // Graphs come before a shared method.
    assert_eq!(join([(&file("5 1"), &one), (&file("5 1"), &two)]), refused(9, 4, 0));
    assert_eq!(join([(&file("5 1"), &two), (&file("5 1"), &two)]), refused(9, 2, 0));
    // A call of a method that the same side provides must be required too.
    let calling = file("1 1 0 1 / 2 0 0 0 / 2 0 1 0");
    assert_eq!(watch(&file("5 1 0"), &calling, &[], 1), refused(9, 2, 2));
}

#[test]
fn not_provided() {
    let graph = file("1 1 0 1");
    assert_eq!(watch(&file("5 1 2"), &graph, &[], 1), refused(number::NOT_PROVIDED, 0, 0));
    assert_eq!(watch(&file("5 1 1"), &graph, &[], 2), refused(10, 0, 0));
    assert_eq!(watch(&file("5 1 1"), &graph, &[], 1), said(1, &[], vec![]));
}

#[test]
fn too_large() {
    let side = |method: u8, count| [1, method, 0, 1, 0, 0].repeat(count);
    let joined = |count| join([(&file("5 1"), &side(1, 200)), (&file("5 2"), &side(2, count))]);
    assert_eq!(joined(57), refused(number::TOO_LARGE, 0, 0));
    assert_eq!(parts(joined(56)).1, [256, 0, 3, 0]);
    let property = file("3 9 1 4 / 3 9 1 2 / 3 9 1 5 / 3 7 1 0 / 3 8 1 0 / 3 9 1 3");
    assert_eq!(model(&file("5 255 1"), &property), refused(11, 0, 0));
}

#[test]
fn short_output() {
    let (graph, property) = (file("1 1 0 1"), file("3 5"));
    let judged = |room| second::judge(LIMITS, &graph, &property, room, 0, 0);
    assert_eq!(judged(5), refused(number::SHORT_OUTPUT, 0, 0));
    assert_eq!(judged(6), said(2, &[1], file("0 0 0 255 0 255")));
    assert_eq!(second::compare(LIMITS, &graph, &[], 31, 0, 0), refused(12, 0, 0));
    assert_eq!(second::compare(LIMITS, &graph, &[], 32, 0, 0), said(2, &[0], vec![0; 32]));
    assert_eq!(second::model(LIMITS, &file("5 1"), &file("3 8 0 0"), 71, 0, 0), refused(12, 0, 0));
    assert_eq!(second::join(LIMITS, &file("5 1"), &graph, &file("5"), &[], 5), refused(12, 0, 0));
    // Nothing is written, so no length is too short.
    assert_eq!(second::judge(LIMITS, &graph, &file(TRUE), 0, 0, 0), said(1, &[], vec![]));
    assert_eq!(second::compare(LIMITS, &[], &graph, 0, 0, 0), said(1, &[], vec![]));
    assert_eq!(
        second::model(LIMITS, &file("5 1"), &file("3 2"), 0, 0, 0),
        said(1, &[0, 0], vec![])
    );
    assert_eq!(second::join(LIMITS, &file("5"), &[], &file("5"), &[], 0), said(1, &[0; 4], vec![]));
}

#[test]
fn short_work_comes_first() {
    let short = refused(number::SHORT_WORK, 0, 0);
    assert_eq!(second::judge(LIMITS, &[1], &[], 0, 0, 1), short);
    assert_eq!(second::compare(LIMITS, &[1], &[], 0, 9, 10), short);
    assert_eq!(second::model(LIMITS, &[1], &[], 0, 9, 10), short);
    assert_eq!(second::watch(LIMITS, &[1], &[], &[], 0, 0, 9, 10), short);
    assert_eq!(second::judge(LIMITS, &[1], &[], 0, 1, 1), refused(1, 1, 0));
}

#[test]
fn file_order_beats_number() {
    let between = file("1 1 / 1 2 / 2 0 0 1");
    assert_eq!(judge(&between, &[3]), refused(8, 1, 2));
    assert_eq!(compare(&[], &between), refused(8, 2, 2));
    assert_eq!(join([(&file("5"), &[]), (&[5], &between)]), refused(1, 3, 0));
    assert_eq!(watch(&file("5"), &[], &[4], 9), refused(1, 3, 0));
}

#[test]
fn start_method_after_the_files() {
    let outside = file("1 2 0 1");
    assert_eq!(watch(&file("5 1 2"), &outside, &[], 0), refused(3, 0, 0));
    assert_eq!(watch(&file("5 1 2"), &outside, &[], 9), refused(3, 0, 0));
    assert_eq!(watch(&file("5 1 2"), &outside, &[], 1), refused(9, 2, 0));
}

#[test]
fn shown_number_past_both_counts() {
    let graph = file("1 1").repeat(256);
    assert_eq!(show(&graph, &graph, 511), said(1, &[], file("1 1")));
    assert_eq!(show(&graph, &graph, 512), refused(7, 0, 0));
    assert_eq!(show(&graph, &graph, usize::MAX), refused(7, 0, 0));
    assert_eq!(show(&[], &[], 0), refused(7, 0, 0));
    assert_eq!(show(&[], &[1], 9), refused(1, 2, 0));
}
