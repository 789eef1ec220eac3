//! Files of several deliveries: graphs of one method each, in revisions of which the highest stands.

use crate::files::{check_nodes_and_edges, split, Fault};
use crate::graph::Graph;
use crate::record::{kind, Edge, Limits, Node, Opening, Record, METHODS};
use crate::refusal::number;
use std::collections::HashSet;

/// What stands between two openings: one revision of a method, its nodes numbered from 0.
pub(crate) struct Delivery {
    opening: Opening,
    nodes: Vec<Node>,
    edges: Vec<Edge>,
}

/// Checks a file of deliveries, those that do not stand included. Each has its lowest number at its
/// first record, so the least fault of all is the file's.
pub(crate) fn check_deliveries(bytes: &[u8], limits: &Limits) -> Result<Vec<Delivery>, Fault> {
    let mut deliveries = Vec::new();
    let mut least = None;
    let mut start = 0;
    for records in split(bytes)?.chunk_by(|_, next| next[0] != kind::OPENING) {
        match check_delivery(records, start, limits) {
            Ok(delivery) => deliveries.push(delivery),
            Err(fault) => least = Some(least.map_or(fault, |least: Fault| least.min(fault))),
        }
        start += records.len();
    }
    least.map_or(Ok(deliveries), Err)
}

/// Checks an opening and what follows it; `start` is the opening's number in the file.
fn check_delivery(records: &[Record], start: usize, limits: &Limits) -> Result<Delivery, Fault> {
    let Some((first @ [kind::OPENING, ..], rest)) = records.split_first() else {
        return Err((number::KIND, start));
    };
    let opening = Opening::from_record(first).ok_or((number::RANGE, start));
    // Whose the nodes are does not matter beside an opening that is refused by a lower number.
    let own = |node: &Node| opening.is_ok_and(|opening| opening.method == node.method);
    match (opening, check_nodes_and_edges(rest, start + 1, limits, own)) {
        (Ok(opening), Ok((nodes, edges))) => Ok(Delivery { opening, nodes, edges }),
        (Err(fault), Ok(_)) | (Ok(_), Err(fault)) => Err(fault),
        (Err(first), Err(second)) => Err(first.min(second)),
    }
}

/// Whether two deliveries of one method have equal revisions.
pub(crate) fn has_repeated_revision(deliveries: &[Delivery]) -> bool {
    let mut met = HashSet::new();
    !deliveries.iter().all(|delivery| met.insert(delivery.opening))
}

/// The deliveries of each method's highest revision in one graph, methods ascending; `None` when
/// this passes the limits. The edges are then in order: all sources of a method come after those of
/// the methods before it.
pub(crate) fn standing_within(limits: &Limits, deliveries: &[Delivery]) -> Option<Graph> {
    let mut highest: [Option<&Delivery>; METHODS] = [None; METHODS];
    for delivery in deliveries {
        let slot = &mut highest[delivery.opening.method - 1];
        if slot.is_none_or(|other| other.opening.revision < delivery.opening.revision) {
            *slot = Some(delivery);
        }
    }
    let (mut nodes, mut edges) = (Vec::new(), Vec::new());
    for delivery in highest.into_iter().flatten() {
        edges.extend(delivery.edges.iter().map(|edge| edge.moved(nodes.len())));
        nodes.extend(&delivery.nodes);
    }
    limits.allow(nodes.len(), edges.len()).then(|| Graph::new(nodes, edges))
}
