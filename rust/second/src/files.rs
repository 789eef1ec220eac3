//! Checks of single files. Every check below is made in the order of the refusal numbers and over
//! the whole file, so the first one that fails gives the lowest number.

use crate::graph::Graph;
use crate::record::{kind, Edge, Interface, Limits, Node, Record, Row, Rule, RECORD_LEN};
use crate::refusal::number;

/// The lowest number among 1 to 8 that a file offends by, and the first record that does.
pub type Fault = (u8, usize);

/// Checks a file of nodes followed by edges.
pub fn check_graph(bytes: &[u8], limits: &Limits) -> Result<Graph, Fault> {
    let (nodes, edges) = check_nodes_and_edges(split(bytes)?, 0, limits, |_| true)?;
    Ok(Graph::new(nodes, edges))
}

/// Checks nodes followed by edges between them; `start` is the number of the first of these records
/// in the file. A node that is not `expected` there is of a foreign method.
pub(crate) fn check_nodes_and_edges(
    records: &[Record],
    start: usize,
    limits: &Limits,
    expected: impl Fn(&Node) -> bool,
) -> Result<(Vec<Node>, Vec<Edge>), Fault> {
    let count = records.iter().take_while(|record| record[0] == kind::NODE).count();
    let (node_records, edge_records) = records.split_at(count);
    let first_edge = start + count;
    check_all(edge_records, first_edge, number::KIND, |record| record[0] == kind::EDGE)?;
    let nodes = parse(node_records, start, Node::from_record)?;
    let edges = parse(edge_records, first_edge, Edge::from_record)?;
    check_order(&edges, first_edge, |edge| *edge)?;
    check_limit(limits.allow(nodes.len(), edges.len()))?;
    check_all(&edges, first_edge, number::PAST_THE_LAST, |edge| {
        edge.from < count && edge.to < count
    })?;
    check_all(&nodes, start, number::BETWEEN_METHODS, expected)?;
    check_all(&edges, first_edge, number::BETWEEN_METHODS, |edge| {
        nodes[edge.from].method == nodes[edge.to].method
    })?;
    Ok((nodes, edges))
}

/// Checks a file of rows.
pub fn check_property(bytes: &[u8], limits: &Limits) -> Result<Vec<Row>, Fault> {
    let rows = uniform(bytes, kind::ROW, Row::from_record)?;
    let ors = rows.iter().filter(|row| matches!(row, Row::Or(..))).count();
    check_limit(rows.len() <= limits.rows && ors <= limits.ors)?;
    check_not_empty(&rows)?;
    check_all(&rows, 0, number::PAST_THE_LAST, |row| {
        row.operands().all(|operand| operand < rows.len())
    })?;
    Ok(rows)
}

/// Checks a file of rules, which may be empty.
pub fn check_rules(bytes: &[u8]) -> Result<Vec<Rule>, Fault> {
    let rules = uniform(bytes, kind::RULE, Rule::from_record)?;
    check_order(&rules, 0, Rule::key)?;
    Ok(rules)
}

/// Checks a file of exactly one interface record.
pub fn check_interface(bytes: &[u8]) -> Result<Interface, Fault> {
    let records = split(bytes)?;
    let (first, rest) = records.split_at(records.len().min(1));
    check_all(first, 0, number::KIND, |record| record[0] == kind::INTERFACE)?;
    check_all(rest, 1, number::KIND, |_| false)?;
    let interfaces = parse(first, 0, Interface::from_record)?;
    check_not_empty(&interfaces)?;
    Ok(interfaces[0])
}

/// The items of a file whose records are all of one kind.
fn uniform<T>(
    bytes: &[u8],
    kind: u8,
    from_record: impl Fn(&Record) -> Option<T>,
) -> Result<Vec<T>, Fault> {
    let records = split(bytes)?;
    check_all(records, 0, number::KIND, |record| record[0] == kind)?;
    parse(records, 0, from_record)
}

pub(crate) fn split(bytes: &[u8]) -> Result<&[Record], Fault> {
    match bytes.as_chunks::<RECORD_LEN>() {
        (records, []) => Ok(records),
        _ => Err((number::LENGTH, 0)),
    }
}

/// Takes the records' fields; `start` is the number of the first of them in the file.
fn parse<T>(
    records: &[Record],
    start: usize,
    from_record: impl Fn(&Record) -> Option<T>,
) -> Result<Vec<T>, Fault> {
    let parsed = records.iter().enumerate();
    parsed.map(|(at, record)| from_record(record).ok_or((number::RANGE, start + at))).collect()
}

/// Refuses by `number` the first item that is not as it should be.
fn check_all<T>(
    items: &[T],
    start: usize,
    number: u8,
    accepted: impl Fn(&T) -> bool,
) -> Result<(), Fault> {
    match items.iter().position(|item| !accepted(item)) {
        Some(at) => Err((number, start + at)),
        None => Ok(()),
    }
}

fn check_order<T, K: Ord>(items: &[T], start: usize, key: impl Fn(&T) -> K) -> Result<(), Fault> {
    match items.windows(2).position(|pair| key(&pair[0]) >= key(&pair[1])) {
        Some(at) => Err((number::ORDER, start + at + 1)),
        None => Ok(()),
    }
}

fn check_limit(kept: bool) -> Result<(), Fault> {
    if kept {
        Ok(())
    } else {
        Err((number::LIMIT, 0))
    }
}

fn check_not_empty<T>(items: &[T]) -> Result<(), Fault> {
    if items.is_empty() {
        Err((number::EMPTY, 0))
    } else {
        Ok(())
    }
}
