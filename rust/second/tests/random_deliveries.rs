//! Deliveries against a list of all that offends in them, and against those that stand, put together record by record, on random files.

mod oracle;

use generator::deliveries::{self, cut, further, standing};
use generator::generate::{self, Kind, Random, Size};
use oracle::*;
use second::files::{check_property, Fault};
use second::Outcome;

/// Everything that could offend in a file; the least of it is the refusal.
fn all_faults(bytes: &[u8]) -> Vec<Fault> {
    if !bytes.len().is_multiple_of(6) {
        return vec![(1, 0)];
    }
    let parts = cut(bytes);
    let mut start = (bytes.len() - parts.concat().len()) / 6;
    let mut faults: Vec<Fault> = (0..start).map(|at| (2, at)).collect();
    for part in parts {
        let placed = |(number, at)| (number, if number == 5 { 0 } else { start + at });
        faults.extend(delivery_faults(part).into_iter().map(placed));
        start += part.len() / 6;
    }
    faults
}

/// The same of one delivery, by the places in it.
fn delivery_faults(part: &[u8]) -> Vec<Fault> {
    let records: Vec<&[u8]> = part.chunks(6).collect();
    let nodes: Vec<&[u8]> = records.iter().copied().filter(|record| record[0] == 1).collect();
    let edges = records.iter().filter(|record| record[0] == 2).count();
    let first_edge = records.iter().position(|record| record[0] == 2).unwrap_or(records.len());
    let mut faults = Vec::new();
    if nodes.len() > 256 || edges > 4096 {
        faults.push((5, 0));
    }
    for (at, record) in records.iter().enumerate() {
        let fits_place = match record[0] {
            1 => at < first_edge,
            2 | 6 => true,
            _ => false,
        };
        let later = at > 0 && is_after(records[at - 1], record);
        let foreign = record[0] == 1 && record[1] != records[0][1];
        let offends = [(2, !fits_place), (3, !in_range(record)), (4, later), (8, foreign)];
        faults.extend(offends.into_iter().filter(|(_, offends)| *offends).map(|(n, _)| (n, at)));
        faults.extend(misled(&nodes, 0, record).map(|number| (number, at)));
    }
    faults
}

fn naive_assemble(bytes: &[u8]) -> Outcome {
    if let Some((number, record)) = all_faults(bytes).into_iter().min() {
        return refused(number, 1, record);
    }
    let parts = cut(bytes);
    let repeats = |at: usize| parts[..at].iter().any(|part| part[1..3] == parts[at][1..3]);
    if (0..parts.len()).any(repeats) {
        return refused(14, 0, 0);
    }
    let (mut nodes, mut edges) = (Vec::new(), Vec::new());
    for part in standing(bytes) {
        let before = nodes.len();
        for record in part.chunks(6).skip(1) {
            match *record {
                [2, from, label, to, ..] => {
                    edges.push((before + usize::from(from), label, before + usize::from(to)));
                }
                _ => nodes.push(record),
            }
        }
    }
    if nodes.len() > 256 || edges.len() > 4096 {
        return refused(11, 0, 0);
    }
    edges.sort_unstable();
    let edge = |&(from, label, to): &(usize, u8, usize)| [2, from as u8, label, to as u8, 0, 0];
    let records = [nodes.concat(), edges.iter().flat_map(edge).collect()].concat();
    said(1, &[nodes.len() as u64, edges.len() as u64], records)
}

/// Half of the files damaged, one in 64 large.
fn some_file(random: &mut Random) -> Vec<u8> {
    match random.below(64) {
        0 => deliveries::valid(random, Size::Large),
        1..32 => deliveries::valid(random, Size::Small),
        _ => deliveries::damaged(random),
    }
}

#[test]
fn assembled_as_record_by_record() {
    let mut random = Random::new(1);
    let mut met = [0; 15];
    for _ in 0..60_000 {
        let file = some_file(&mut random);
        let expected = naive_assemble(&file);
        assert_eq!(assemble(&file), expected, "{file:?}");
        match expected {
            Outcome::Said { .. } => met[0] += 1,
            Outcome::Refused(refusal) => met[usize::from(refusal.number)] += 1,
        }
    }
    let numbers = [0, 1, 2, 3, 4, 5, 7, 8, 11, 14];
    assert!(numbers.iter().all(|&number| met[number] > 50), "{met:?}");
}

#[test]
fn judged_as_the_assembled_graph() {
    let mut random = Random::new(2);
    let mut verdicts = [0; 3];
    for _ in 0..60_000 {
        let file = some_file(&mut random);
        let property = match random.once_in(8) {
            true => generate::damaged(&mut random, Kind::Property, Size::Small),
            false => generate::property(&mut random, Size::Small),
        };
        let expected = match (naive_assemble(&file), check_property(&property, LIMITS)) {
            (Outcome::Refused(refusal), _) if refusal.file == 1 => Outcome::Refused(refusal),
            (_, Err((number, record))) => refused(number, 2, record),
            (Outcome::Said { written, .. }, _) => judge(&written, &property),
            (refused, _) => refused,
        };
        assert_eq!(judge_deliveries(&file, &property), expected, "{file:?} {property:?}");
        let verdict = if let Outcome::Said { verdict, .. } = expected { verdict } else { 0 };
        verdicts[verdict as usize] += 1;
    }
    assert!(verdicts.iter().all(|&times| times > 5_000), "{verdicts:?}");
}

/// The nodes of one method in a graph, and the edges between them by their numbers among these.
fn of_method(graph: &[u8], method: u8) -> (Vec<&[u8]>, Vec<[usize; 3]>) {
    let (nodes, edges): (Vec<&[u8]>, Vec<&[u8]>) = graph.chunks(6).partition(|r| r[0] == 1);
    let first = nodes.iter().position(|node| node[1] == method).unwrap_or(0);
    let own = edges.iter().filter(|edge| nodes[usize::from(edge[1])][1] == method);
    let own = own.map(|edge| [edge[1], edge[2], edge[3]].map(usize::from));
    let edges = own.map(|[from, label, to]| [from - first, label, to - first]).collect();
    (nodes.into_iter().filter(|node| node[1] == method).collect(), edges)
}

#[test]
fn a_further_delivery_leaves_what_stands() {
    let mut random = Random::new(3);
    let mut accepted = [0; 2];
    for _ in 0..40_000 {
        let file = deliveries::valid(&mut random, Size::Small);
        let further = further(&mut random, &file);
        let longer = [&file[..], &further].concat();
        let Outcome::Said { written: graph, .. } = assemble(&longer) else { continue };
        let mut alone = standing(&longer);
        accepted[usize::from(alone.contains(&&further[..]))] += 1;
        random.shuffle(&mut alone);
        let alone = alone.concat();
        assert_eq!(parts(assemble(&alone)).2, graph, "{longer:?}");
        let property = generate::property(&mut random, Size::Small);
        let [one, other] = [&longer, &alone].map(|file| judge_deliveries(file, &property));
        assert_eq!(one, other, "{longer:?} {property:?}");
        let before = parts(assemble(&file)).2;
        for method in (1..=8).filter(|&method| method != further[1]) {
            assert_eq!(of_method(&graph, method), of_method(&before, method), "{longer:?}");
        }
    }
    assert!(accepted.iter().all(|&times| times > 5_000), "{accepted:?}");
}

#[test]
fn four_deliveries_in_every_order() {
    let mut random = Random::new(4);
    let digits = |code: usize| [code / 64, code / 16 % 4, code / 4 % 4, code % 4];
    let all = |order: &[usize; 4]| (0..4).all(|at| order.contains(&at));
    let orders: Vec<[usize; 4]> = (0..256).map(digits).filter(all).collect();
    assert_eq!(orders.len(), 24);
    let mut met = 0;
    while met < 2_000 {
        let file = deliveries::valid(&mut random, Size::Small);
        let parts = cut(&file);
        if parts.len() != 4 {
            continue;
        }
        let expected = assemble(&file);
        for order in &orders {
            assert_eq!(assemble(&order.map(|at| parts[at]).concat()), expected, "{file:?}");
        }
        met += 1;
    }
}
