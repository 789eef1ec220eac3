//! Judging against levels evaluated one after the other, on random files.

mod oracle;

use generator::generate::{self, Random, Size};
use oracle::*;
use second::files::{check_graph, check_property};
use second::graph::Graph;
use second::record::Row;
use second::Outcome;
use std::collections::VecDeque;

/// The first level at which each row is false, by node and row.
type Ranks = Vec<Vec<Option<usize>>>;

fn naive_ranks(graph: &Graph, property: &[Row]) -> Ranks {
    let all_true = vec![vec![true; property.len()]; graph.nodes.len()];
    let mut ranks = vec![vec![None; property.len()]; graph.nodes.len()];
    let mut before = all_true;
    for level in 1.. {
        let values = next_level(graph, property, &before);
        if values == before {
            break;
        }
        for (node, row) in pairs(graph, property) {
            if !values[node][row] && ranks[node][row].is_none() {
                ranks[node][row] = Some(level);
            }
        }
        before = values;
    }
    ranks
}

fn next_level(graph: &Graph, property: &[Row], before: &[Vec<bool>]) -> Vec<Vec<bool>> {
    let value = |node: usize, row: usize| {
        let (method, returns) = (graph.nodes[node].method, graph.nodes[node].returns);
        match property[row] {
            Row::True => true,
            Row::False => false,
            Row::In(wanted) => method == wanted,
            Row::NotIn(shunned) => method != shunned,
            Row::Return => returns,
            Row::NotReturn => !returns,
            Row::And(a, b) => before[node][a] && before[node][b],
            Row::Or(a, b) => before[node][a] || before[node][b],
            Row::Box { .. } | Row::BoxAll(_) => {
                targets(graph, property[row], node).all(|(to, row)| before[to][row])
            }
        }
    };
    let rows = |node| (0..property.len()).map(|row| value(node, row)).collect();
    (0..graph.nodes.len()).map(rows).collect()
}

/// The nodes and the row that a box looks at.
fn targets(graph: &Graph, row: Row, node: usize) -> impl Iterator<Item = (usize, usize)> + '_ {
    let (labels, operand) = box_parts(row).expect("a box");
    let edges = graph.edges.iter().filter(move |e| e.from == node && labels.contains(&e.label));
    edges.map(move |e| (e.to, operand))
}

fn pairs(graph: &Graph, property: &[Row]) -> impl Iterator<Item = (usize, usize)> {
    let rows = property.len();
    (0..graph.nodes.len()).flat_map(move |node| (0..rows).map(move |row| (node, row)))
}

/// Causes as four fields of a sheet record.
fn naive_causes(
    graph: &Graph,
    property: &[Row],
    ranks: &Ranks,
    (node, row): (usize, usize),
) -> [usize; 4] {
    match property[row] {
        Row::And(a, b) => {
            let false_rows = [a, b].into_iter().filter(|&row| ranks[node][row].is_some());
            let cause = false_rows.min_by_key(|&row| ranks[node][row]).expect("a false operand");
            [node, cause, 0, 255]
        }
        Row::Or(a, b) => [node, a, node, b],
        Row::Box { .. } | Row::BoxAll(_) => {
            let targets = targets(graph, property[row], node);
            let ranked = targets.map(|(to, row)| (ranks[to][row], to, row));
            let cause = ranked.filter(|target| target.0.is_some()).min().expect("a false target");
            [cause.1, cause.2, 0, 255]
        }
        _ => [0, 255, 0, 255],
    }
}

fn naive_sheet(graph: &Graph, property: &[Row], ranks: &Ranks, entry: usize) -> Vec<u8> {
    let mut listed = vec![(entry, 0)];
    let mut queue = VecDeque::from([(entry, 0)]);
    let mut bytes = Vec::new();
    while let Some(pair) = queue.pop_front() {
        let causes = naive_causes(graph, property, ranks, pair);
        bytes.extend([pair.0, pair.1].iter().chain(&causes).map(|&field| field as u8));
        for cause in [(causes[0], causes[1]), (causes[2], causes[3])] {
            if cause != (0, 255) && !listed.contains(&cause) {
                listed.push(cause);
                queue.push_back(cause);
            }
        }
    }
    bytes
}

/// What levels one after the other say.
fn naive_judge(graph: &[u8], property: &[u8], levels: fn(&Graph, &[Row]) -> Ranks) -> Outcome {
    let graph = check_graph(graph, LIMITS).expect("a valid graph");
    let property = check_property(property, LIMITS).expect("a valid property");
    let ranks = levels(&graph, &property);
    let failing = graph.entries().find(|&entry| ranks[entry][0].is_some());
    failing.map_or(said(1, &[], vec![]), |entry| {
        let sheet = naive_sheet(&graph, &property, &ranks, entry);
        said(2, &[sheet.len() as u64 / 6], sheet)
    })
}

/// Compares on so many pairs of files; returns how often each verdict was said.
fn agree(rounds: usize, mut files: impl FnMut(usize) -> (Vec<u8>, Vec<u8>)) -> [usize; 2] {
    let mut verdicts = [0; 2];
    for round in 0..rounds {
        let (graph, property) = files(round);
        let expected = naive_judge(&graph, &property, naive_ranks);
        assert_eq!(judge(&graph, &property), expected, "{graph:?} {property:?}");
        verdicts[parts(expected).0 as usize - 1] += 1;
    }
    verdicts
}

#[test]
fn ranks_agree_with_levels() {
    let mut random = Random::new(1);
    let verdicts = agree(60_000, |round| {
        let size = if round % 8 == 0 { Size::Large } else { Size::Small };
        let graph = generate::graph(&mut random, Size::Small);
        (graph, generate::property(&mut random, size))
    });
    assert!(verdicts.iter().all(|&times| times > 5_000), "{verdicts:?}");
}

#[test]
fn graded_ranks_agree_with_levels() {
    let mut random = Random::new(2);
    let [_, fails] = agree(10_000, |_| generate::graded(&mut random, Size::Small));
    assert!(fails > 5_000, "{fails}");
}

/// Ranks with a slip: what is false of an "or" row is one level past its first operand, not past both.
fn ranks_of_first_operands(graph: &Graph, property: &[Row]) -> Ranks {
    let mut ranks = naive_ranks(graph, property);
    for (node, row) in pairs(graph, property) {
        if let (Row::Or(a, _), Some(_)) = (property[row], ranks[node][row]) {
            ranks[node][row] = ranks[node][a].map(|rank| rank + 1);
        }
    }
    ranks
}

#[test]
fn graded_files_show_the_ranks_of_or_rows() {
    let mut random = Random::new(3);
    let mut shown = 0;
    for _ in 0..2_000 {
        let (graph, property) = generate::graded(&mut random, Size::Small);
        let slip = naive_judge(&graph, &property, ranks_of_first_operands);
        shown += usize::from(slip != judge(&graph, &property));
    }
    assert!(shown > 100, "{shown}");
}

#[test]
fn nine_boxes_and_one_over_every_label_get_equal_verdicts() {
    let mut random = Random::new(4);
    let mut verdicts = [0; 2];
    for _ in 0..60_000 {
        let property = generate::property(&mut random, Size::Small);
        let Some(written_out) = generate::written_out(&mut random, &property) else {
            continue;
        };
        let graph = generate::graph(&mut random, Size::Small);
        let [one, nine] = [&property, &written_out].map(|rows| parts(judge(&graph, rows)).0);
        assert_eq!(one, nine, "{graph:?} {property:?}");
        verdicts[one as usize - 1] += 1;
    }
    assert!(verdicts.iter().all(|&times| times > 3_000), "{verdicts:?}");
}
