//! Examples of showing: a node of each file, and numbers and files that are refused. A call is one file that the program reads: the first graph's length and the
//! number, two bytes each, low byte first, then both graphs.

use crate::calls::decimals;
use crate::Example;
use second::record::Limits;
use second::{show, Outcome};

type Record = [u8; 6];
const FIRST: [Record; 3] = [[1, 1, 0, 1, 0, 0], [1, 1, 1, 0, 0, 0], [2, 0, 1, 1, 0, 0]];
const SECOND: [Record; 2] = [[1, 2, 0, 1, 0, 0], [1, 3, 1, 1, 0, 0]];
/// Bytes before the graphs.
const HEADER: usize = 4;

fn example(name: &str, first: &[Record], second: &[Record], number: u16) -> Example {
    let [first, second] = [first.concat(), second.concat()];
    let length = (first.len() as u16).to_le_bytes();
    let bytes = [&length, &number.to_le_bytes(), &first[..], &second].concat();
    Example { name: format!("show-{name}.bin"), bytes }
}

pub fn of_the_paper() -> Vec<Example> {
    let edge = [[2, 0, 0, 0, 0, 0]];
    let largest = [FIRST[0]; 256];
    vec![
        example("node-of-the-first", &FIRST, &SECOND, 1),
        example("first-node-of-the-second", &FIRST, &SECOND, 2),
        example("last-node-of-the-second", &FIRST, &SECOND, 3),
        example("7-past-the-last-node", &FIRST, &SECOND, 4),
        example("7-no-node", &[], &[], 0),
        example("node-511-of-512", &largest, &largest, 511),
        example("7-node-512-of-512", &largest, &largest, 512),
        example("one-method-in-both", &FIRST, &FIRST, 3),
        example("first-before-second", &edge, &[FIRST[0], FIRST[2]], 0),
        example("files-before-number", &FIRST, &edge, 9),
    ]
}

/// What the program prints of a call, as the second implementation has it.
pub fn lines(name: &str, bytes: &[u8]) -> String {
    let number = |at: usize| usize::from(u16::from_le_bytes([bytes[at], bytes[at + 1]]));
    let (first, second) = bytes[HEADER..].split_at(number(0));
    match show(&Limits::DESK, first, second, number(2)) {
        Outcome::Refused(r) => format!("{name}: refused {} {} {}\n", r.number, r.file, r.record),
        Outcome::Said { written, .. } => format!("{name}: shown\n{}", decimals(&written, 6)),
    }
}
