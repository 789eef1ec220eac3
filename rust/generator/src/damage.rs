//! Damaged files: what the checks of a file must refuse by the right number.

use crate::generate::{interface, label, method, rules, valid, Kind, Random, Size, LIMITS};
use crate::graphs::scattered;
use crate::properties::{any_rows, many_ors};
use second::record::{kind, RECORD_LEN};

/// A valid file of the kind, damaged in one way; a few stay valid.
pub fn damaged(random: &mut Random, kind: Kind, size: Size) -> Vec<u8> {
    let mut bytes = valid(random, kind, size);
    match random.below(9) {
        0 => bytes.truncate(random.below(bytes.len() + 1)),
        1 => bytes.truncate(random.below(bytes.len() / RECORD_LEN + 1) * RECORD_LEN),
        2 => change_bytes(random, &mut bytes),
        3 => swap_records(random, &mut bytes),
        4 => repeat_record(random, &mut bytes),
        5 => return past_a_limit(random, kind),
        6 => mix_kinds(random, &mut bytes),
        7 => misdirect(random, kind, &mut bytes),
        _ => bytes = (0..random.below(61)).map(|_| random.byte()).collect(),
    }
    bytes
}

/// One to three bytes become any value, often a small one.
pub(crate) fn change_bytes(random: &mut Random, bytes: &mut [u8]) {
    for _ in 0..1 + random.below(3) {
        if !bytes.is_empty() {
            let at = random.below(bytes.len());
            bytes[at] = random.byte() % random.pick(&[12, 255]);
        }
    }
}

pub(crate) fn swap_records(random: &mut Random, bytes: &mut [u8]) {
    let (records, _) = bytes.as_chunks_mut::<RECORD_LEN>();
    if !records.is_empty() {
        let (one, other) = (random.below(records.len()), random.below(records.len()));
        records.swap(one, other);
    }
}

/// A record once more, behind itself or anywhere.
pub(crate) fn repeat_record(random: &mut Random, bytes: &mut Vec<u8>) {
    let count = bytes.len() / RECORD_LEN;
    if count > 0 {
        let from = random.below(count);
        let to = if random.once_in(2) { from } else { random.below(count) };
        let record = bytes[from * RECORD_LEN..][..RECORD_LEN].to_vec();
        bytes.splice(to * RECORD_LEN..to * RECORD_LEN, record);
    }
}

/// One more than a limit allows; kinds without a limit get a second record.
fn past_a_limit(random: &mut Random, kind: Kind) -> Vec<u8> {
    let (all, first) = (&[1, 2, 3, 4, 5, 6, 7, 8], random.once_in(2));
    let labels = &[0, 1, 2, 3, 4, 5, 6, 7, 8];
    match kind {
        Kind::Graph if first => {
            let edges = random.below(4);
            scattered(random, all, labels, LIMITS.nodes + 1, edges)
        }
        Kind::Graph => scattered(random, all, labels, LIMITS.nodes, LIMITS.edges + 1),
        Kind::Property if first => many_ors(random, LIMITS.ors + 1).concat(),
        Kind::Property => any_rows(random, LIMITS.rows + 1).concat(),
        Kind::Rules => [rules(random, Size::Small), rules(random, Size::Small)].concat(),
        Kind::Interface => [interface(random), interface(random)].concat(),
    }
}

/// A record of some kind, at some place.
fn mix_kinds(random: &mut Random, bytes: &mut Vec<u8>) {
    let other = match random.below(Kind::ALL.len() + 1) {
        0 => vec![kind::OPENING, method(random), 1, 0, 0, 0],
        kind => valid(random, Kind::ALL[kind - 1], Size::Small),
    };
    let record = other.into_iter().take(RECORD_LEN);
    let at = random.below(bytes.len() / RECORD_LEN + 1) * RECORD_LEN;
    bytes.splice(at..at, record);
}

/// An edge or an operand that leads where it must not: past the last node or
/// row, or into another method. The order of edges is kept.
fn misdirect(random: &mut Random, kind: Kind, bytes: &mut Vec<u8>) {
    let count = bytes.chunks(RECORD_LEN).filter(|r| r[0] != kind::EDGE).count();
    if count == 0 || count > usize::from(u8::MAX) {
        return;
    }
    let past = (count + random.below(256 - count)) as u8;
    let target = if random.once_in(2) { past } else { random.below(count) as u8 };
    match kind {
        Kind::Graph => {
            let from = random.below(count) as u8;
            bytes.extend([kind::EDGE, from, label(random), target, 0, 0]);
            bytes.as_chunks_mut::<RECORD_LEN>().0[count..].sort_unstable();
        }
        Kind::Property => {
            let at = random.below(count) * RECORD_LEN;
            let label = label(random);
            let boxes = [[kind::ROW, 9, label, past, 0, 0], [kind::ROW, 10, past, 0, 0, 0]];
            bytes[at..at + RECORD_LEN].copy_from_slice(&random.pick(&boxes));
        }
        Kind::Rules | Kind::Interface => change_bytes(random, bytes),
    }
}
