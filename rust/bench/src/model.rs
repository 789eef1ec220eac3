//! What modelling is timed on: the first record of a list is the interface, the rest is the property.

use crate::growth::{series, Series, ROWS};
use crate::inputs::{cases, pair, Timed};
use std::io;

pub fn inputs() -> io::Result<Vec<Timed>> {
    let mut inputs = vec![
        split("P1", P1),
        split("336 states, refused", include_str!("../data/six-rows-336-states.txt")),
        split("336 states, operator 10, refused", ANY_LABEL),
        split("255 states, 4,091 edges", FULL),
        split("257 states, refused", PAST_STATES),
        split("4,098 edges, refused", include_str!("../data/past-4098-edges.txt")),
        split("242 states, 3,676 edges, dear", DEAR),
        pair("1,024 supports, refused", vec![5, 1, 1, 0, 0, 0], two_ways_on()),
        pair("12 detours, 8 methods", vec![5, 255, 255, 0, 0, 0], next_or_detour(12)),
        pair("8 or-rows above an and-chain", vec![5, 1, 1, 0, 0, 0], settled_by_a_chain()),
        pair("12 or-rows, operands above", vec![5, 1, 1, 0, 0, 0], next_or_over(12)),
        pair("12 or-rows, operands below", vec![5, 1, 1, 0, 0, 0], next_or_under(12)),
    ];
    inputs.extend(cases("interface", "property")?);
    let any_label = cases("interface", "property-wish2")?.into_iter();
    inputs.extend(any_label.map(|row| Timed { name: row.name + ", operator 10", ..row }));
    Ok(inputs)
}

const P1: &str = "5 1 1 0 0 0  3 7 1 3 0 0  3 9 1 2 0 0  3 2 0 0 0 0  3 5 0 0 0 0";

/// The same six rows with three of their four boxes over every label; with the fourth there would be 320 states.
const ANY_LABEL: &str = include_str!("../data/any-label-336-states.txt");
pub const FULL: &str = include_str!("../data/full-255-states-4091-edges.txt");
pub const PAST_STATES: &str = include_str!("../data/past-257-states.txt");
/// The slowest that a climb over properties of 32 rows found.
pub const DEAR: &str = include_str!("../data/dear-242-states.txt");

fn split(name: &str, decimals: &str) -> Timed {
    let [interface, property] = interface_and_property(decimals);
    pair(name, interface, property)
}

pub fn interface_and_property(decimals: &str) -> [Vec<u8>; 2] {
    let bytes: Vec<u8> =
        decimals.split_whitespace().map(|field| field.parse().expect("a byte")).collect();
    let (interface, property) = bytes.split_at(6);
    [interface.to_vec(), property.to_vec()]
}

const ORS: [usize; 7] = [0, 2, 4, 6, 8, 10, 12];

pub fn growth() -> Vec<Series> {
    let of = |methods, property| [vec![5, methods, methods, 0, 0, 0], property].into();
    vec![
        series("boxes and ands, 16 states", "rows", &ROWS, |rows| of(15, round(rows))),
        series("32 rows, supports grow", "or-rows", &ORS, |ors| of(1, next_or_over(ors))),
        series("32 rows, one support", "or-rows", &ORS, |ors| of(1, next_or_detour(ors))),
    ]
}

/// "And" rows, each over a box and the next "and" row, and around: whatever is demanded demands all rows.
fn round(rows: usize) -> Vec<u8> {
    let rows = rows as u8;
    let pair =
        |at| [[3, 7, at + 1, (at + 2) % rows, 0, 0], [3, 9, at / 2 % 3, (at + 2) % rows, 0, 0]];
    (0..rows).step_by(2).flat_map(pair).flatten().collect()
}

/// Each "or" row is settled by one of the next two rows; the last two are boxes.
fn next_or_over(ors: usize) -> Vec<u8> {
    let last = ors as u8;
    let ors = (0..last).map(|at| [3, 8, at + 1, at + 2, 0, 0]);
    filled(ors.chain([0, 1].map(|label| [3, 9, label, last, 0, 0])).collect())
}

/// The same from the last row down; row 0 demands that one, and is a box's operand.
fn next_or_under(ors: u8) -> Vec<u8> {
    let mut rows = vec![[3, 1, 0, 0, 0, 0]; 32];
    rows[0] = [3, 7, 31, 31, 0, 0];
    for at in 32 - ors..32 {
        rows[usize::from(at)] = [3, 8, at - 1, at - 2, 0, 0];
    }
    for (label, row) in [31 - ors, 30 - ors].into_iter().enumerate() {
        rows[usize::from(row)] = [3, 9, label as u8, 0, 0, 0];
    }
    rows.concat()
}

/// Eight "and" rows bring in an "or" row each, and then a chain of "and" rows an operand of each "or": these are the highest rows and are taken first, but none need
/// name an operand. Who does not look ahead tries all choices.
fn settled_by_a_chain() -> Vec<u8> {
    let mut rows: Vec<[u8; 6]> = (0..8).map(|at| [3, 7, at + 1, 24 + at, 0, 0]).collect();
    rows.extend((8..16).map(|at| [3, 7, at + 1, at + 1, 0, 0]));
    rows.push([3, 9, 0, 0, 0, 0]);
    rows.resize(24, [3, 1, 0, 0, 0, 0]);
    rows.extend((0..8).map(|or| [3, 8, 8 + or, 17 + or % 7, 0, 0]));
    rows.concat()
}

/// Each "or" row is settled by an "and" row over the next one or by the next one itself: there are as many ways as sets of them, and one is within all others.
fn next_or_detour(ors: usize) -> Vec<u8> {
    let pair = |at: u8| [[3, 8, at + 1, at + 2, 0, 0], [3, 7, at + 2, at + 2, 0, 0]];
    let pairs = (0..ors as u8).flat_map(|or| pair(2 * or));
    filled(pairs.chain([[3, 9, 0, 0, 0, 0]]).collect())
}

/// Ten "or" rows, each settled by one of two "and" rows over the next one: every choice is a minimal support.
fn two_ways_on() -> Vec<u8> {
    let level =
        |at: u8| [[3, 8, at + 1, at + 2, 0, 0], [3, 7, at + 3, 31, 0, 0], [3, 7, at + 3, 31, 0, 0]];
    filled((0..10).flat_map(|or| level(3 * or)).collect())
}

/// With "true" up to 32 rows.
fn filled(mut rows: Vec<[u8; 6]>) -> Vec<u8> {
    rows.resize(32, [3, 1, 0, 0, 0, 0]);
    rows.concat()
}
