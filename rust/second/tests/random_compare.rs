//! Simulation against naive refinement, on random files.

mod oracle;

use generator::generate::{self, Random, Size};
use oracle::*;
use second::files::check_graph;
use second::graph::Graph;

/// All pairs that agree, less those with an edge that is not matched, until
/// none of these is left.
fn naive_relation(first: &Graph, second: &Graph) -> Vec<Vec<bool>> {
    let agree = |g: usize, h: usize| {
        let (g, h) = (first.nodes[g], second.nodes[h]);
        g.method == h.method && g.returns == h.returns
    };
    let row = |g| (0..second.nodes.len()).map(|h| agree(g, h)).collect();
    let mut relation: Vec<Vec<bool>> = (0..first.nodes.len()).map(row).collect();
    loop {
        let matched = |g: usize, h: usize| {
            first.outgoing(g).iter().all(|edge| {
                let mut matches = second.outgoing(h).iter();
                matches.any(|m| m.label == edge.label && relation[edge.to][m.to])
            })
        };
        let row =
            |g: usize| (0..second.nodes.len()).map(|h| relation[g][h] && matched(g, h)).collect();
        let refined: Vec<Vec<bool>> = (0..first.nodes.len()).map(row).collect();
        if refined == relation {
            return relation;
        }
        relation = refined;
    }
}

fn relation_bytes(relation: &[Vec<bool>]) -> Vec<u8> {
    let mut bytes = vec![0; relation.len() * 32];
    for (g, row) in relation.iter().enumerate() {
        for h in (0..row.len()).filter(|&h| row[h]) {
            bytes[g * 32 + h / 8] |= 1 << (h % 8);
        }
    }
    bytes
}

/// The verdict, 1 or 2, after it was found as expected.
fn check(first_file: &[u8], second_file: &[u8]) -> usize {
    let first = check_graph(first_file, LIMITS).expect("a valid graph");
    let second = check_graph(second_file, LIMITS).expect("a valid graph");
    let relation = naive_relation(&first, &second);
    let covered = |g: &usize| second.entries().any(|h| relation[*g][h]);
    let uncovered = first.entries().find(|g| !covered(g));
    let bytes = relation_bytes(&relation);
    let expected = match uncovered {
        None => said(1, &[], bytes),
        Some(entry) => said(2, &[entry as u64], bytes),
    };
    assert_eq!(
        oracle::compare(first_file, second_file),
        expected,
        "{first_file:?} {second_file:?}"
    );
    1 + usize::from(uncovered.is_some())
}

/// A graph of two methods that loses some of its edges: it is often
/// simulated by the whole, and sometimes simulates it.
fn thinned(random: &mut Random, graph: &[u8]) -> Vec<u8> {
    let records = graph.chunks(6);
    records.filter(|r| r[0] == 1 || !random.once_in(6)).flatten().copied().collect()
}

#[test]
fn relation_agrees_with_refinement() {
    let mut random = Random::new(2);
    let mut verdicts = [0; 3];
    for _ in 0..40_000 {
        let first = generate::graph_of(&mut random, Size::Small, 3, 1);
        let other = match random.once_in(2) {
            true => generate::graph_of(&mut random, Size::Small, 3, 1),
            false => thinned(&mut random, &first),
        };
        verdicts[check(&first, &other)] += 1;
        verdicts[check(&other, &first)] += 1;
    }
    assert!(verdicts[1] > 10_000 && verdicts[2] > 10_000, "{verdicts:?}");
}

#[test]
fn relation_of_large_graphs() {
    let mut random = Random::new(3);
    for _ in 0..20 {
        let first = generate::graph_of(&mut random, Size::Large, 3, 1);
        let other = thinned(&mut random, &first);
        check(&first, &other);
        check(&other, &first);
    }
}
