//! The file checks of both implementations, brought to one form: nodes and records of an accepted file, or number and record of a refusal.

use crate::minimal::shrink;
use crate::report::records;
use crate::tally::Tally;
use generator::generate::{self, Kind, Random, Size};
use second::files;
use second::record::{Limits, RECORD_LEN};

/// Nodes and records, or number, file and record.
type Checked = Result<(u64, u64), (u32, u64, u64)>;

fn proved(kind: Kind, bytes: &[u8]) -> Checked {
    let checked = match kind {
        Kind::Graph => tintboulder::check_graph(bytes),
        Kind::Property => tintboulder::check_property(bytes),
        Kind::Rules => tintboulder::check_rules(bytes),
        Kind::Interface => tintboulder::check_interface(bytes),
    };
    checked
        .map(|accepted| (accepted.nodes, accepted.records))
        .map_err(|refusal| (refusal.reason.number(), refusal.file, refusal.record))
}

fn second(kind: Kind, bytes: &[u8]) -> Checked {
    let nodes = match kind {
        Kind::Graph => files::check_graph(bytes, &Limits::DESK).map(|graph| graph.nodes.len()),
        Kind::Property => files::check_property(bytes, &Limits::DESK).map(|_| 0),
        Kind::Rules => files::check_rules(bytes).map(|_| 0),
        Kind::Interface => files::check_interface(bytes).map(|_| 0),
    };
    nodes
        .map(|nodes| (nodes as u64, (bytes.len() / RECORD_LEN) as u64))
        .map_err(|(number, record)| (u32::from(number), 1, record as u64))
}

/// One third of the files valid, one in sixteen large. Ends with a report at the first file on which the answers differ.
pub fn run(random: &mut Random, kind: Kind, count: u64) -> Result<Tally, String> {
    let mut tally = Tally::default();
    for _ in 0..count {
        let bytes = file(random, kind);
        let answer = proved(kind, &bytes);
        if answer != second(kind, &bytes) {
            return Err(report(kind, &bytes));
        }
        let (verdict, number) = answer.map_or_else(|(number, ..)| (0, number), |_| (1, 0));
        tally.count(verdict, number);
    }
    Ok(tally)
}

fn report(kind: Kind, bytes: &[u8]) -> String {
    let bytes = shrink(bytes, |bytes| proved(kind, bytes) != second(kind, bytes));
    format!(
        "the implementations differ on this file, read as {kind:?}:\n{}proved: {:?}\nsecond: {:?}",
        records(&bytes),
        proved(kind, &bytes),
        second(kind, &bytes)
    )
}

pub fn file(random: &mut Random, kind: Kind) -> Vec<u8> {
    let size = if random.once_in(16) { Size::Large } else { Size::Small };
    match random.once_in(3) {
        true => generate::valid(random, kind, size),
        false => generate::damaged(random, kind, size),
    }
}
