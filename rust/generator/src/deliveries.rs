//! Files of several deliveries: graphs of one method each, in revisions that arrive in any order; and damaged ones.

use crate::damage::{change_bytes, repeat_record, swap_records};
use crate::generate::{graph_of, label, Random, Size, LIMITS};
use crate::graphs::scattered;
use crate::sides::about;
use second::record::{kind, Record, METHODS, RECORD_LEN};
use std::collections::BTreeMap;

const ALL_METHODS: [u8; METHODS] = [1, 2, 3, 4, 5, 6, 7, 8];
const LABELS: [u8; METHODS + 1] = [0, 1, 2, 3, 4, 5, 6, 7, 8];

/// Method and revision.
type Issue = (u8, u8);

/// An opening, and the graph behind it.
pub fn delivery((method, revision): Issue, graph: &[u8]) -> Vec<u8> {
    [&[kind::OPENING, method, revision, 0, 0, 0], graph].concat()
}

/// A file whose deliveries are all accepted, each in another revision. The graph of those that stand may pass the limits in half of the large files.
pub fn valid(random: &mut Random, size: Size) -> Vec<u8> {
    match (size, random.below(4)) {
        (Size::Small, _) => {
            let few = random.below(7);
            let issues = issues(random, few);
            issues.into_iter().flat_map(|issue| small(random, issue)).collect()
        }
        (Size::Large, 0) => one_node_each(random),
        (Size::Large, 1) => below_a_small_one(random),
        (Size::Large, _) => at_the_limits(random),
    }
}

/// Up to so many, all different. Methods and revisions are few, so that most methods are delivered again.
fn issues(random: &mut Random, most: usize) -> Vec<Issue> {
    let methods = random.pick(&[1, 2, 3, METHODS]);
    let mut issues = Vec::new();
    for _ in 0..most {
        let issue = (1 + random.below(methods) as u8, revision(random));
        if !issues.contains(&issue) {
            issues.push(issue);
        }
    }
    issues
}

fn revision(random: &mut Random) -> u8 {
    let any = random.byte().max(1);
    random.pick(&[1, 2, 3, 254, 255, any])
}

/// One delivery in eight is empty, and some of the others have no nodes either.
fn small(random: &mut Random, issue: Issue) -> Vec<u8> {
    let graph = match random.once_in(8) {
        true => Vec::new(),
        false => graph_of(random, Size::Small, 1 << (issue.0 - 1), u8::MAX),
    };
    delivery(issue, &graph)
}

/// All revisions of all methods, or any number of them.
fn one_node_each(random: &mut Random) -> Vec<u8> {
    let revisions = |method| (1..=u8::MAX).map(move |revision| (method, revision));
    let mut issues: Vec<Issue> = ALL_METHODS.into_iter().flat_map(revisions).collect();
    random.shuffle(&mut issues);
    if random.once_in(2) {
        issues.truncate(random.below(issues.len()));
    }
    let node = |issue: Issue| {
        let graph = scattered(random, &[issue.0], &LABELS, 1, 1);
        delivery(issue, &graph)
    };
    issues.into_iter().flat_map(node).collect()
}

/// Revisions as large as a graph may be, and a small one above them.
fn below_a_small_one(random: &mut Random) -> Vec<u8> {
    let mut all = vec![small(random, (1, 255)), small(random, (2, 1))];
    for revision in 0..1 + random.below(3) as u8 {
        let graph = scattered(random, &[1], &LABELS, LIMITS.nodes, LIMITS.edges);
        all.push(delivery((1, 1 + revision), &graph));
    }
    random.shuffle(&mut all);
    all.concat()
}

/// What stands has about as many nodes as a graph may have, and in half of the files about as many edges.
fn at_the_limits(random: &mut Random) -> Vec<u8> {
    let mut nodes = about(random, LIMITS.nodes);
    let mut edges = if random.once_in(2) { about(random, LIMITS.edges) } else { random.below(64) };
    let methods = 2 + random.below(METHODS - 1);
    let mut all = Vec::new();
    for left in (1..=methods).rev() {
        let method = left as u8;
        let (own_nodes, own_edges) = (nodes / left, edges / left);
        (nodes, edges) = (nodes - own_nodes, edges - own_edges);
        let graph = scattered(random, &[method], &LABELS, own_nodes, own_edges);
        all.push(delivery((method, 2), &graph));
        if random.once_in(4) {
            all.push(small(random, (method, 1)));
        }
    }
    random.shuffle(&mut all);
    all.concat()
}

/// The deliveries of a file, each with its opening.
pub fn cut(file: &[u8]) -> Vec<&[u8]> {
    let starts = (0..file.len()).step_by(RECORD_LEN).filter(|&at| file[at] == kind::OPENING);
    let starts: Vec<usize> = starts.collect();
    let ends = starts.iter().skip(1).copied().chain([file.len()]);
    starts.iter().zip(ends).map(|(&start, end)| &file[start..end]).collect()
}

/// The deliveries of a valid file that stand, methods ascending.
pub fn standing(file: &[u8]) -> Vec<&[u8]> {
    let mut highest = BTreeMap::new();
    for part in cut(file) {
        let stands = highest.entry(part[1]).or_insert(part);
        if stands[2] < part[2] {
            *stands = part;
        }
    }
    highest.into_values().collect()
}

/// One more delivery for the end of a file: mostly of a method that it has, in an older, an equal or a newer revision.
pub fn further(random: &mut Random, file: &[u8]) -> Vec<u8> {
    let parts = cut(file);
    let (method, last) = match parts.is_empty() || random.once_in(8) {
        true => (random.pick(&ALL_METHODS), revision(random)),
        false => {
            let part = random.pick(&parts);
            (part[1], part[2])
        }
    };
    let revision = match random.below(4) {
        0 => last,
        1 => last.saturating_sub(1).max(1),
        2 => last.saturating_add(1),
        _ => revision(random),
    };
    small(random, (method, revision))
}

/// A file damaged in one way or in two, one in sixteen a large one; a few stay valid.
pub fn damaged(random: &mut Random) -> Vec<u8> {
    let size = if random.once_in(16) { Size::Large } else { Size::Small };
    let mut bytes = valid(random, size);
    for _ in 0..1 + random.below(2) {
        match random.below(13) {
            0 => bytes.truncate(random.below(bytes.len() + 1)),
            1 => bytes.truncate(random.below(bytes.len() / RECORD_LEN + 1) * RECORD_LEN),
            2 => change_bytes(random, &mut bytes),
            3 => swap_records(random, &mut bytes),
            4 => repeat_record(random, &mut bytes),
            5 => turn_foreign(random, &mut bytes),
            6 => repeat_revision(random, &mut bytes),
            7 => drop_opening(random, &mut bytes),
            8 => add_old_past_a_limit(random, &mut bytes),
            9 => change_kind(random, &mut bytes),
            10 => change_opening(random, &mut bytes),
            11 => add_edge(random, &mut bytes),
            _ => open_last(random, &mut bytes),
        }
    }
    bytes
}

/// The places of the records of a kind.
fn places(bytes: &[u8], kind: u8) -> Vec<usize> {
    let (records, _) = bytes.as_chunks::<RECORD_LEN>();
    (0..records.len()).filter(|&at| records[at][0] == kind).collect()
}

/// Some record of a kind, if there is one.
fn some<'a>(random: &mut Random, bytes: &'a mut [u8], kind: u8) -> Option<&'a mut Record> {
    let places = places(bytes, kind);
    let (records, _) = bytes.as_chunks_mut::<RECORD_LEN>();
    (!places.is_empty()).then(|| &mut records[random.pick(&places)])
}

/// A node becomes one of another method.
fn turn_foreign(random: &mut Random, bytes: &mut [u8]) {
    if let Some(node) = some(random, bytes, kind::NODE) {
        node[1] = 1 + (node[1] + random.below(METHODS - 1) as u8) % METHODS as u8;
    }
}

/// Another delivery of a method and revision that the file has, first or last.
fn repeat_revision(random: &mut Random, bytes: &mut Vec<u8>) {
    if let Some(&mut [_, method @ 1..=8, revision, ..]) = some(random, bytes, kind::OPENING) {
        let again = small(random, (method, revision));
        let at = random.pick(&[0, bytes.len()]);
        bytes.splice(at..at, again);
    }
}

/// What was behind the opening belongs to the delivery before, or to none.
fn drop_opening(random: &mut Random, bytes: &mut Vec<u8>) {
    let places = places(bytes, kind::OPENING);
    if !places.is_empty() {
        let at = random.pick(&places) * RECORD_LEN;
        bytes.drain(at..at + RECORD_LEN);
    }
}

/// A delivery with a node or an edge too many, mostly one that does not stand.
fn add_old_past_a_limit(random: &mut Random, bytes: &mut Vec<u8>) {
    let method = random.pick(&ALL_METHODS);
    let (nodes, edges) = match random.once_in(2) {
        true => (LIMITS.nodes + 1, random.below(4)),
        false => (LIMITS.nodes, LIMITS.edges + 1),
    };
    let graph = scattered(random, &[method], &LABELS, nodes, edges);
    let at = random.pick(&[0, bytes.len()]);
    bytes.splice(at..at, delivery((method, 1), &graph));
    bytes.extend(small(random, (method, 255)));
}

fn change_kind(random: &mut Random, bytes: &mut [u8]) {
    let (records, _) = bytes.as_chunks_mut::<RECORD_LEN>();
    if !records.is_empty() {
        let at = random.below(records.len());
        records[at][0] = random.pick(&[0, 1, 2, 3, 4, 5, 6, 7, 255]);
    }
}

/// A field of an opening becomes any value, often a small one.
fn change_opening(random: &mut Random, bytes: &mut [u8]) {
    if let Some(opening) = some(random, bytes, kind::OPENING) {
        opening[1 + random.below(RECORD_LEN - 1)] = random.byte() % random.pick(&[12, 255]);
    }
}

/// An edge at the end of a delivery, in order or not, between its nodes or not.
fn add_edge(random: &mut Random, bytes: &mut Vec<u8>) {
    let mut ends = places(bytes, kind::OPENING);
    ends.push(bytes.len() / RECORD_LEN);
    let at = random.pick(&ends) * RECORD_LEN;
    let [from, to] = [(); 2].map(|()| random.below(9) as u8);
    bytes.splice(at..at, [kind::EDGE, from, label(random), to, 0, 0]);
}

fn open_last(random: &mut Random, bytes: &mut Vec<u8>) {
    let issue = (random.pick(&ALL_METHODS), revision(random));
    bytes.extend(delivery(issue, &[]));
}
