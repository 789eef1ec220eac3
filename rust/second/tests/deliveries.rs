//! Files of several deliveries: which of them stand, and what is refused.

mod oracle;

use oracle::*;
use second::Outcome;

/// Deliveries whose standing graph has these nodes and edges, in decimals.
#[track_caller]
fn assert_assembled(deliveries: &str, nodes: &str, edges: &str) {
    let [nodes, edges] = [nodes, edges].map(file);
    let sizes = [&nodes, &edges].map(|part| part.len() as u64 / 6);
    let expected = said(1, &sizes, [nodes, edges].concat());
    assert_eq!(assemble(&file(deliveries)), expected, "{deliveries}");
}

/// Deliveries that are refused as file 1, or by a number that no single file causes.
#[track_caller]
fn assert_refused(deliveries: &str, number: u8, at: (u8, usize)) {
    assert_eq!(assemble(&file(deliveries)), refused(number, at.0, at.1), "{deliveries}");
}

fn nodes(method: u8, count: usize) -> Vec<u8> {
    [1, method, 0, 1, 0, 0].repeat(count)
}

fn opening(method: u8, revision: u8) -> Vec<u8> {
    vec![6, method, revision, 0, 0, 0]
}

#[test]
fn nothing_stands_where_there_is_no_node() {
    for deliveries in ["", "6 1 1", "6 8 255", "6 1 1 / 6 2 1 / 6 1 2"] {
        assert_assembled(deliveries, "", "");
    }
}

#[test]
fn the_highest_revision_stands() {
    assert_assembled("6 1 255 / 1 1 0 1 / 6 1 1 / 1 1 1 1", "1 1 0 1", "");
    assert_assembled("6 1 1 / 1 1 1 1 / 6 1 255 / 1 1 0 1", "1 1 0 1", "");
    assert_assembled("6 1 1 / 1 1 / 2 0 0 0 / 6 1 2 / 1 1 / 2 0 0 0", "1 1", "2 0 0 0");
    // One without nodes empties its method.
    assert_assembled("6 1 1 / 1 1 0 1 / 6 1 2", "", "");
    assert_assembled("6 1 2 / 6 2 1 / 1 2 / 6 1 1 / 1 1 0 1", "1 2", "");
}

#[test]
fn methods_ascend_and_numbers_move() {
    assert_assembled("6 2 1 / 1 2 0 1 / 6 1 1 / 1 1 0 1", "1 1 0 1 / 1 2 0 1", "");
    let deliveries = "6 2 3 / 1 2 0 1 / 2 0 0 0 / 6 1 9 / 1 1 0 1 / 1 1 1 0 / 2 0 2 1";
    assert_assembled(deliveries, "1 1 0 1 / 1 1 1 0 / 1 2 0 1", "2 0 2 1 / 2 2 0 2");
}

#[test]
fn number_1_length() {
    for length in [1, 5, 7] {
        assert_eq!(assemble(&file("6 1 1 / 6 1 1")[..length]), refused(1, 1, 0));
    }
    // It ends the checks.
    assert_eq!(assemble(&[9; 13]), refused(1, 1, 0));
}

#[test]
fn number_2_kind() {
    for first in ["1 1", "2 0 0 0", "3 1", "4", "5", "0", "7 1 1", "255"] {
        assert_refused(first, 2, (1, 0));
        assert_refused(&format!("{first} / 6 1 1"), 2, (1, 0));
        // Nothing but nodes and edges follows an opening.
        if !["1 1", "2 0 0 0"].contains(&first) {
            assert_refused(&format!("6 1 1 / {first}"), 2, (1, 1));
            assert_refused(&format!("6 1 1 / 6 1 1 / 1 1 / {first} / 1 1"), 2, (1, 3));
        }
    }
    assert_refused("6 1 1 / 1 1 / 2 0 0 0 / 1 1", 2, (1, 3));
    // Later, and the lower number.
    assert_refused("6 0 1 / 1 9 / 6 1 1 / 5 1 1", 2, (1, 3));
    assert_refused("6 0 1 / 2 0 0 0 / 1 1", 2, (1, 2));
}

#[test]
fn number_3_range() {
    for opening in ["6 0 1", "6 9 1", "6 1 0", "6 1 1 1", "6 1 1 0 1", "6 1 1 0 0 7", "6 255 0 255"]
    {
        assert_refused(opening, 3, (1, 0));
        // Also where it is not the first record that offends.
        assert_refused(&format!("6 1 1 / 1 2 / {opening} / 1 9"), 3, (1, 2));
    }
    assert_refused("6 1 1 / 1 9 / 6 1 0", 3, (1, 1));
    assert_refused("6 1 1 / 1 1 / 2 0 9 0", 3, (1, 2));
}

#[test]
fn number_4_order_starts_again_at_each_opening() {
    assert_refused("6 1 1 / 1 1 / 2 0 0 0 / 2 0 0 0", 4, (1, 3));
    assert_refused("6 1 1 / 1 1 / 2 0 1 0 / 6 1 1 / 1 2 / 2 0 1 9 / 2 0 0 9", 4, (1, 6));
    let twice = "6 1 1 / 1 1 / 2 0 1 0 / 6 2 1 / 1 2 / 2 0 0 0";
    assert_assembled(twice, "1 1 / 1 2", "2 0 1 0 / 2 1 0 1");
}

#[test]
fn number_5_counts_each_delivery() {
    let edges: Vec<u8> =
        (0..=16).flat_map(|from| (0..=255).flat_map(move |to| [2, from, 0, to, 0, 0])).collect();
    let most = 6 * 4096;
    for old in [nodes(1, 257), [nodes(1, 256), edges[..most + 6].to_vec()].concat()] {
        assert_eq!(assemble(&[opening(1, 1), old.clone()].concat()), refused(5, 1, 0));
        let beside = [opening(1, 2), nodes(2, 1), opening(1, 1), old, opening(1, 2)].concat();
        assert_eq!(assemble(&beside), refused(5, 1, 0));
    }
    let full = [nodes(1, 256), edges[..most].to_vec()].concat();
    let all: Vec<u8> =
        (1..=255).flat_map(|revision| [opening(1, revision), full.clone()].concat()).collect();
    assert_eq!(assemble(&all), said(1, &[256, 4096], full));
}

#[test]
fn number_7_goes_by_the_nodes_of_the_delivery() {
    assert_refused("6 1 1 / 2 0 0 0", 7, (1, 1));
    assert_refused("6 1 1 / 1 1 / 6 1 2 / 1 1 / 2 0 0 1", 7, (1, 4));
    assert_refused("6 1 1 / 1 1 / 1 1 / 6 1 2 / 1 1 / 2 0 0 0 / 2 1 0 0", 7, (1, 6));
    // It is the lower number, though later.
    assert_refused("6 1 1 / 1 2 / 6 1 2 / 1 1 / 2 0 0 1", 7, (1, 4));
}

#[test]
fn number_8_foreign_nodes() {
    assert_refused("6 1 1 / 1 2", 8, (1, 1));
    assert_refused("6 1 1 / 1 1 / 1 2 / 2 0 0 1", 8, (1, 2));
    assert_refused("6 1 1 / 1 2 / 1 1 / 2 0 0 1", 8, (1, 1));
    assert_refused("6 2 1 / 1 2 / 6 1 1 / 1 1 / 1 2 / 6 1 2", 8, (1, 4));
}

#[test]
fn number_14_equal_revisions_whether_they_stand_or_not() {
    assert_refused("6 1 1 / 6 1 1", 14, (0, 0));
    assert_refused("6 1 5 / 6 1 7 / 6 1 5", 14, (0, 0));
    assert_refused("6 1 1 / 6 1 1 / 1 2", 8, (1, 2));
    assert_assembled("6 1 1 / 6 2 1 / 6 1 2 / 6 8 1", "", "");
}

#[test]
fn number_11_counts_the_result() {
    let both = [opening(1, 1), nodes(1, 200), opening(2, 1), nodes(2, 57)].concat();
    assert_eq!(assemble(&both), refused(11, 0, 0));
    let emptied = [both.clone(), opening(1, 2)].concat();
    assert_eq!(assemble(&emptied), said(1, &[57, 0], nodes(2, 57)));
    assert_eq!(assemble(&[both.clone(), opening(1, 1)].concat()), refused(14, 0, 0));
    let fits = &both[..both.len() - 6];
    let all = [nodes(1, 200), nodes(2, 56)].concat();
    assert_eq!(assemble(fits), said(1, &[256, 0], all));
    // Edges: 8 methods with 16 nodes and all pairs by two labels make 4,096.
    let labels = |labels: u8| move |method| full_delivery(method, 16, labels);
    let of = |labels_of_last| {
        (1..8).flat_map(labels(2)).chain(full_delivery(8, 16, labels_of_last)).collect::<Vec<u8>>()
    };
    let Outcome::Said { values, .. } = assemble(&of(2)) else { panic!("it fits") };
    assert_eq!(values, [128, 4096]);
    assert_eq!(assemble(&of(3)), refused(11, 0, 0));
}

/// A delivery with edges between all its nodes, by so many labels.
fn full_delivery(method: u8, count: u8, labels: u8) -> Vec<u8> {
    let mut bytes = [opening(method, 1), nodes(method, count.into())].concat();
    for from in 0..count {
        let edges = (0..labels).flat_map(|label| (0..count).map(move |to| (label, to)));
        bytes.extend(edges.flat_map(|(label, to)| [2, from, label, to, 0, 0]));
    }
    bytes
}

#[test]
fn number_12_comes_last() {
    let node = file("6 1 1 / 1 1 0 1");
    let assembled = |deliveries: &[u8], out| second::assemble(LIMITS, deliveries, out);
    assert_eq!(assembled(&node, 5), refused(12, 0, 0));
    assert_eq!(assembled(&node, 6), said(1, &[1, 0], file("1 1 0 1")));
    assert_eq!(assembled(&[], 0), said(1, &[0, 0], vec![]));
    let large = [opening(1, 1), nodes(1, 256), opening(2, 1), nodes(2, 1)].concat();
    assert_eq!(assembled(&large, 0), refused(11, 0, 0));
    let judged = |out| second::judge_deliveries(LIMITS, &node, &file("3 5"), out, [(0, 0); 2]);
    assert_eq!(judged(5), refused(12, 0, 0));
    assert_eq!(judged(6), said(2, &[1], file("0 0 0 255 0 255")));
}

#[test]
fn either_buffer_comes_first() {
    let judged = |lent| second::judge_deliveries(LIMITS, &[6], &[], 0, lent);
    assert_eq!(judged([(9, 10), (10, 10)]), refused(13, 0, 0));
    assert_eq!(judged([(10, 10), (9, 10)]), refused(13, 0, 0));
    assert_eq!(judged([(10, 10), (11, 10)]), refused(1, 1, 0));
}

#[test]
fn judged_by_the_numbers_of_the_standing_graph() {
    let two = file("6 1 1 / 1 1 0 1 / 6 2 1 / 1 2 0 1");
    assert_eq!(judge_deliveries(&two, &file("3 3 1")), said(2, &[1], file("1 0 0 255 0 255")));
    let later = [file("6 2 2"), two].concat();
    assert_eq!(judge_deliveries(&later, &file("3 3 1")), said(1, &[], vec![]));
    assert_eq!(judge_deliveries(&[], &file("3 2")), said(1, &[], vec![]));
}

#[test]
fn both_files_come_before_14_and_11() {
    let repeated = file("6 1 1 / 6 1 1");
    assert_eq!(judge_deliveries(&repeated, &file("3 7 0 9")), refused(7, 2, 0));
    assert_eq!(judge_deliveries(&repeated, &file("3 1")), refused(14, 0, 0));
    assert_eq!(judge_deliveries(&file("6 1 1 / 1 2"), &[3]), refused(8, 1, 1));
    let large = [opening(1, 1), nodes(1, 200), opening(2, 1), nodes(2, 57)].concat();
    assert_eq!(judge_deliveries(&large, &[]), refused(6, 2, 0));
    assert_eq!(judge_deliveries(&large, &file("3 1")), refused(11, 0, 0));
}

#[test]
fn other_files_have_no_openings() {
    let opening = file("6 1 1");
    assert_eq!(judge(&opening, &file("3 1")), refused(2, 1, 0));
    assert_eq!(judge(&[], &opening), refused(2, 2, 0));
    assert_eq!(model(&opening, &file("3 1")), refused(2, 1, 0));
    assert_eq!(watch(&file("5 1"), &[], &opening, 1), refused(2, 3, 0));
}

/// As long as a quadratic way would be noticed.
#[test]
fn many_deliveries_take_no_longer_each() {
    let revisions = (1..=8).flat_map(|method| (1..=255).map(move |revision| (method, revision)));
    let one_node = |(method, revision)| [opening(method, revision), nodes(method, 1)].concat();
    let all: Vec<u8> = revisions.flat_map(one_node).collect();
    let standing: Vec<u8> = (1..=8).flat_map(|method| nodes(method, 1)).collect();
    assert_eq!(assemble(&all), said(1, &[8, 0], standing));
    let openings = |count: usize| opening(1, 1).repeat(count);
    assert_eq!(assemble(&openings(1_000_000)), refused(14, 0, 0));
    let late = [openings(1_000_000), nodes(2, 1)].concat();
    assert_eq!(assemble(&late), refused(8, 1, 1_000_000));
}
