//! The fault sheet: why row 0 is false at an entry.

use crate::graph::Graph;
use crate::rank::Ranks;
use crate::record::{Record, Row};
use std::collections::VecDeque;

/// A row at a node.
type Pair = (usize, usize);

/// What stands for a cause that there is not.
const NO_CAUSE: Pair = (0, 255);

/// The pairs that make row 0 false at the lowest failing entry, breadth first; `None` when the
/// graph satisfies the property.
pub(crate) fn fault_sheet(graph: &Graph, rows: &[Row]) -> Option<Vec<Record>> {
    let ranks = Ranks::new(graph, rows);
    let entry = graph.entries().find(|&node| ranks.rank(node, 0).is_some())?;
    let mut listed = vec![false; graph.nodes.len() * rows.len()];
    let mut queue = VecDeque::from([(entry, 0)]);
    listed[entry * rows.len()] = true;
    let mut sheet = Vec::new();
    while let Some(pair) = queue.pop_front() {
        let causes = causes(graph, rows, &ranks, pair);
        for (node, row) in causes.into_iter().flatten() {
            if !std::mem::replace(&mut listed[node * rows.len() + row], true) {
                queue.push_back((node, row));
            }
        }
        sheet.push(sheet_record(pair, causes));
    }
    Some(sheet)
}

fn sheet_record(pair: Pair, causes: [Option<Pair>; 2]) -> Record {
    let [first, second] = causes.map(|cause| cause.unwrap_or(NO_CAUSE));
    [pair.0, pair.1, first.0, first.1, second.0, second.1].map(|field| field as u8)
}

/// The false pairs that make a false pair false.
fn causes(graph: &Graph, rows: &[Row], ranks: &Ranks, (node, row): Pair) -> [Option<Pair>; 2] {
    match rows[row] {
        Row::And(a, b) => [lowest(ranks, [(node, a), (node, b)]), None],
        Row::Or(a, b) => [Some((node, a)), Some((node, b))],
        // A literal looks at no edge, and has no cause.
        equation => {
            let edges = graph.outgoing(node).iter();
            let targets =
                edges.filter_map(|edge| Some((edge.to, equation.box_operand(edge.label)?)));
            [lowest(ranks, targets), None]
        }
    }
}

/// The false pair of lowest rank, ties to the lowest node, then to the first pair.
fn lowest(ranks: &Ranks, pairs: impl IntoIterator<Item = Pair>) -> Option<Pair> {
    let failing = pairs.into_iter().filter_map(|pair| Some((ranks.rank(pair.0, pair.1)?, pair)));
    failing.min_by_key(|&(rank, (node, _))| (rank, node)).map(|(_, pair)| pair)
}
