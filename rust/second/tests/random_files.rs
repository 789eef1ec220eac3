//! The checks of files against a list of all that offends in them, and
//! joining against its definition, on random files.

mod oracle;

use generator::generate::{self, Kind, Random, Size};
use oracle::*;
use second::files::{check_graph, check_interface, check_property, check_rules, Fault};

/// Everything that could offend in a file; the least of it is the refusal.
fn all_faults(kind: Kind, bytes: &[u8]) -> Vec<Fault> {
    if !bytes.len().is_multiple_of(6) {
        return vec![(1, 0)];
    }
    let records: Vec<&[u8]> = bytes.chunks(6).collect();
    let nodes: Vec<&[u8]> = records.iter().copied().filter(|record| record[0] == 1).collect();
    let first_edge = records.iter().position(|record| record[0] == 2).unwrap_or(records.len());
    let mut faults = file_faults(kind, &records);
    for (at, record) in records.iter().enumerate() {
        let fits_place = match kind {
            Kind::Graph if record[0] == 1 => at < first_edge,
            Kind::Graph => record[0] == 2,
            Kind::Property => record[0] == 3,
            Kind::Rules => record[0] == 4,
            Kind::Interface => record[0] == 5 && at == 0,
        };
        let later = at > 0 && is_after(records[at - 1], record);
        let offends = [!fits_place, !in_range(record), later];
        let numbers = [2, 3, 4].into_iter().zip(offends);
        faults.extend(numbers.filter(|(_, offends)| *offends).map(|(number, _)| (number, at)));
        faults.extend(misled(&nodes, records.len(), record).map(|number| (number, at)));
    }
    faults
}

fn file_faults(kind: Kind, records: &[&[u8]]) -> Vec<Fault> {
    let count = |kind: u8| records.iter().filter(|record| record[0] == kind).count();
    let ors = records.iter().filter(|record| record[..2] == [3, 8]).count();
    let mut faults = Vec::new();
    if count(1) > 256 || count(2) > 4096 || count(3) > 32 || ors > 12 {
        faults.push((5, 0));
    }
    if records.is_empty() && matches!(kind, Kind::Property | Kind::Interface) {
        faults.push((6, 0));
    }
    faults
}

#[test]
fn refusal_is_the_least_of_all_faults() {
    let mut random = Random::new(7);
    for round in 0..40_000 {
        let size = if round % 100 == 0 { Size::Large } else { Size::Small };
        for kind in Kind::ALL {
            let bytes = generate::damaged(&mut random, kind, size);
            let fault = match kind {
                Kind::Graph => check_graph(&bytes, LIMITS).err(),
                Kind::Property => check_property(&bytes, LIMITS).err(),
                Kind::Rules => check_rules(&bytes).err(),
                Kind::Interface => check_interface(&bytes).err(),
            };
            assert_eq!(fault, all_faults(kind, &bytes).into_iter().min(), "{kind:?} {bytes:?}");
        }
    }
}

#[test]
fn joined_graph_is_sorted_and_shown() {
    let mut random = Random::new(8);
    for _ in 0..5_000 {
        let first = generate::graph_of(&mut random, Size::Small, 0b11, 0b111);
        let second = generate::graph_of(&mut random, Size::Small, 0b1100, 0b1111);
        let count = |file: &[u8]| file.chunks(6).filter(|record| record[0] == 1).count();
        let shift = count(&first) as u8;
        let moved = |record: &[u8]| match *record {
            [2, from, label, to, ..] => [2, from + shift, label, to + shift, 0, 0],
            _ => [record[0], record[1], record[2], record[3], 0, 0],
        };
        let renumbered = second.chunks(6).flat_map(moved);
        let all: Vec<u8> = first.iter().copied().chain(renumbered).collect();
        let (nodes, mut edges): (Vec<&[u8]>, Vec<&[u8]>) =
            all.chunks(6).partition(|record| record[0] == 1);
        edges.sort_unstable();
        let sizes = [nodes.len() as u64, edges.len() as u64, 0b1111, 0b1111];
        let joined = [nodes.concat(), edges.concat()].concat();
        let outcome = join([(&file("5 3 7"), &first), (&file("5 12 15"), &second)]);
        assert_eq!(outcome, said(1, &sizes, joined));
        for (number, node) in nodes.iter().enumerate() {
            assert_eq!(show(&first, &second, number), said(1, &[], node.to_vec()));
        }
        assert_eq!(show(&first, &second, nodes.len()), refused(7, 0, 0));
    }
}
