//! What assembling and judging deliveries are timed on.

use crate::growth::{series, Series, EDGES};
use crate::inputs::{exactly, pair, timed, Timed};
use generator::deliveries::delivery;
use generator::extremes::{cycle, row_cycle};
use generator::generate::{any_rows, Random};

const LABELS: [u8; 9] = [0, 1, 2, 3, 4, 5, 6, 7, 8];
/// Nodes of the largest delivery.
const MOST: usize = 256;

pub fn assembled() -> Vec<Timed> {
    let mut random = Random::new(1);
    vec![
        timed("one of 40 nodes, 80 edges", [of_40_nodes(&mut random)]),
        timed("eight of 32 nodes, 512 edges", [eight(&mut random, 512)]),
        timed("255 revisions of 256 nodes", [revisions(255, MOST)]),
        timed("2,040 of one node", [revisions(2_040, 1)]),
        timed("14 in the last of 71,960 records", [repeated_last(71_960)]),
        timed("100,000 openings", [openings(100_000)]),
    ]
}

pub fn judged() -> Vec<Timed> {
    // Seeds with which both random graphs fail, with more than one record each.
    let mut random = Random::new(27);
    let [small, large] =
        [10, 32].map(|rows| any_rows(&mut Random::new(rows as u64), rows).concat());
    vec![
        pair("one of 40 nodes, 80 edges, 10 rows", of_40_nodes(&mut random), small.clone()),
        pair("eight of 32 nodes, 512 edges", eight(&mut random, 512), large),
        pair("255 revisions of 256 nodes", revisions(255, MOST), small.clone()),
        pair("2,040 of one node", revisions(2_040, 1), small.clone()),
        pair("the longest sheet", delivery((1, 1), &cycle(true)), row_cycle()),
        pair("14 in the last of 71,960 records", repeated_last(71_960), small.clone()),
        pair("100,000 openings", openings(100_000), small),
    ]
}

pub fn growth_of_assembling() -> Vec<Series> {
    let mut random = Random::new(1);
    vec![
        series("one node each", "deliveries", &[255, 510, 1_020, 2_040], |count| {
            [revisions(count, 1)].into()
        }),
        series("256 nodes each", "revisions", &[15, 31, 63, 127, 255], |count| {
            [revisions(count, MOST)].into()
        }),
        series("eight of 32 nodes", "edges", &EDGES, |edges| {
            [eight(&mut random, edges / 8)].into()
        }),
        series("nothing but openings", "openings", &[12_500, 25_000, 50_000, 100_000], |count| {
            [openings(count)].into()
        }),
    ]
}

pub fn growth_of_judging() -> Vec<Series> {
    let mut random = Random::new(1);
    let rows = any_rows(&mut random, 16).concat();
    vec![
        series("16 rows, 256 nodes", "revisions", &[15, 31, 63, 127, 255], |count| {
            [revisions(count, MOST), rows.clone()].into()
        }),
        series("16 rows, 8 methods", "edges", &EDGES, |edges| {
            [eight(&mut random, edges / 8), rows.clone()].into()
        }),
    ]
}

fn of_40_nodes(random: &mut Random) -> Vec<u8> {
    delivery((1, 1), &exactly(random, &[1], &[0, 1, 2, 3], 40, 80))
}

/// One of each method, the last first, with 32 nodes and so many edges.
fn eight(random: &mut Random, edges: usize) -> Vec<u8> {
    let mut of = |method| delivery((method, 1), &exactly(random, &[method], &LABELS, 32, edges));
    (1..=8).rev().flat_map(&mut of).collect()
}

/// So many deliveries of so many nodes without an edge: all revisions of method 1, then those of the next.
fn revisions(count: usize, nodes: usize) -> Vec<u8> {
    let all = (1..=8).flat_map(|method| (1..=255).map(move |revision| (method, revision)));
    all.take(count).flat_map(|issue| delivery(issue, &entries(issue.0, nodes))).collect()
}

fn entries(method: u8, nodes: usize) -> Vec<u8> {
    [1, method, 0, 1, 0, 0].repeat(nodes)
}

/// Deliveries as large as they fit into so many records, the last of which opens the first revision of method 1 again.
fn repeated_last(records: usize) -> Vec<u8> {
    let (full, rest) = ((records - 1) / (MOST + 1), (records - 1) % (MOST + 1));
    let shorter = delivery((8, 255), &entries(8, rest - 1));
    [revisions(full, MOST), shorter, delivery((1, 1), &[])].concat()
}

/// So many openings: every method and revision in turn, and again.
fn openings(count: usize) -> Vec<u8> {
    let all = revisions(2_040, 0);
    all.iter().copied().cycle().take(count * 6).collect()
}
