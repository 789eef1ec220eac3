//! A call on two files as one file that the program reads: the first file's length and the output's length, two bytes each, low byte first, whether a work buffer
//! is lent, 0, then both files.

use crate::cases::Case;
use crate::Example;
use second::Outcome;

#[derive(Clone, Copy)]
pub struct Call<'a> {
    pub first: &'a [u8],
    pub second: &'a [u8],
    pub out_len: usize,
    pub lends_work: bool,
}

impl<'a> Call<'a> {
    pub fn of(bytes: &'a [u8]) -> Call<'a> {
        let number = |at: usize| usize::from(u16::from_le_bytes([bytes[at], bytes[at + 1]]));
        let (first, second) = bytes[6..].split_at(number(0));
        Call { first, second, out_len: number(2), lends_work: bytes[4] == 1 }
    }
}

pub fn example(verb: &str, name: &str, call: &Call) -> Example {
    let [first_len, out_len] = [call.first.len(), call.out_len].map(|n| (n as u16).to_le_bytes());
    let header = [first_len, out_len, [u8::from(call.lends_work), 0]].concat();
    let bytes = [&header, call.first, call.second].concat();
    Example { name: format!("{verb}-{name}.bin"), bytes }
}

/// Every file of the first kind with every file of the second, in each case study.
pub fn of_pairs(
    cases: &[Case],
    [first, second]: [&str; 2],
    example: fn(&str, &[u8], &[u8]) -> Example,
) -> Vec<Example> {
    let mut all = Vec::new();
    for case in cases {
        for (first_name, first) in case.files(first) {
            for (second_name, second) in case.files(second) {
                let name = format!("{first_name}-{second_name}-of-{}", case.name);
                all.push(example(&name, first, second));
            }
        }
    }
    all
}

/// Bytes as decimals, so many to a line.
pub fn decimals(bytes: &[u8], to_a_line: usize) -> String {
    let line = |part: &[u8]| part.iter().map(u8::to_string).collect::<Vec<_>>().join(" ") + "\n";
    bytes.chunks(to_a_line).map(line).collect()
}

/// What the program prints of a call that writes a graph.
pub fn written_lines(name: &str, said: Outcome) -> String {
    match said {
        Outcome::Refused(r) => format!("{name}: refused {} {} {}\n", r.number, r.file, r.record),
        Outcome::Said { values, written, .. } => {
            let values: String = values.iter().map(|value| format!(" {value}")).collect();
            format!("{name}: written{values}\n{}", decimals(&written, 6))
        }
    }
}
