//! What the program `listing` is run on beside its own stdin, and what it prints: the first six bytes of an input are the interface file, the rest the property.

use crate::calls::decimals;
use crate::cases::Case;
use crate::modelled::{FALSE, ITSELF, LARGE, NO_STEP, P1};
use second::record::{Limits, RECORD_LEN};
use second::{model, Outcome};

/// Bytes past these stay unread.
const LONGEST: usize = 60_000;
const ONE: [u8; 6] = [5, 1, 0, 0, 0, 0];

pub struct Run {
    pub name: String,
    pub input: Vec<u8>,
}

impl Run {
    fn new(name: &str, input: Vec<u8>) -> Run {
        Run { name: name.to_owned(), input }
    }

    /// What the program prints, as the second implementation has it.
    pub fn printed(&self) -> String {
        let read = &self.input[..self.input.len().min(LONGEST)];
        let (interface, property) = read.split_at(read.len().min(RECORD_LEN));
        match model(&Limits::DESK, interface, property, usize::MAX, 0, 0) {
            Outcome::Refused(refusal) => format!("{}\n", refusal.number),
            Outcome::Said { written, .. } => decimals(&written, RECORD_LEN),
        }
    }
}

/// Every run: the paper's, one by operator 10, each refusal that the program can meet, short and over-long inputs, and the case studies.
pub fn runs(cases: &[Case]) -> Vec<Run> {
    let with = |property: &[[u8; 6]]| [ONE.to_vec(), property.concat()].concat();
    let longer = |bytes: usize| [with(&[ITSELF]), vec![3; bytes]].concat();
    let mut all = vec![
        Run::new("p1", P1.concat()),
        Run::new("p2", with(&[ITSELF])),
        Run::new("p3", with(&[FALSE])),
        Run::new("any-no-step", NO_STEP.concat()),
        Run::new("refused-1-property-of-5-bytes", with(&[ITSELF])[..11].to_vec()),
        Run::new("refused-2-node-as-row", with(&[[1, 1, 0, 0, 0, 0]])),
        Run::new("refused-3-operator-0", with(&[[3, 0, 0, 0, 0, 0]])),
        Run::new("refused-5-13-or-rows", with(&[ITSELF; 13])),
        Run::new("refused-6-no-row", with(&[])),
        Run::new("refused-7-row-past-the-last", with(&[[3, 7, 0, 1, 0, 0]])),
        Run::new("refused-11-336-states", LARGE.concat()),
        Run::new("no-byte", Vec::new()),
        Run::new("one-byte", vec![5]),
        Run::new("five-bytes", ONE[..5].to_vec()),
        // Row 32 and on are past the limit; 60,000 bytes are a multiple of six, so the cut is seen only in what is past it.
        Run::new("one-byte-past-60000", longer(LONGEST - 12 + 1)),
        Run::new("one-byte-short-of-60000", longer(LONGEST - 12 - 1)),
    ];
    for case in cases.iter().filter(|case| case.name.starts_with("purse-sigma")) {
        for (_, interface) in case.files("interface") {
            for (name, property) in case.files("property") {
                let name = format!("{name}-of-{}", case.name);
                all.push(Run::new(&name, [interface, property].concat()));
            }
        }
    }
    all
}
