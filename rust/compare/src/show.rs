//! Showing in both implementations, and the graphs and numbers that it is compared on.

use crate::calls::Call;
use crate::case::Input;
use generator::generate::{self, Kind, Random, Size};
use second::record::{kind, RECORD_LEN};
use second::refusal::number::SHORT_OUTPUT;
use second::{Limits, Outcome, Refusal};
use tintboulder::show_answer;

pub const CALL: Call = Call {
    name: "show",
    rooms: &[],
    proved: |input, out, _| show_answer(input.files(), input.number as u64, out),
    second: |input, out, _| written(input, out),
    input,
    cases: 2,
    claim: None,
};

/// The second implementation shows the record; that it goes to an output, which may be too short, is the boundary's.
fn written(input: &Input, out: usize) -> Outcome {
    let [graph1, graph2] = input.files();
    match second::show(&Limits::DESK, graph1, graph2, input.number) {
        Outcome::Said { .. } if out < RECORD_LEN => {
            Outcome::Refused(Refusal { number: SHORT_OUTPUT, file: 0, record: 0 })
        }
        outcome => outcome,
    }
}

/// One graph in eight is damaged, and one pair in 32 is large; most numbers are below both node counts together or around one of their bounds.
fn input(random: &mut Random) -> Input {
    let size = if random.once_in(32) { Size::Large } else { Size::Small };
    let files = [(); 2].map(|()| match random.once_in(8) {
        true => generate::damaged(random, Kind::Graph, size),
        false => generate::valid(random, Kind::Graph, size),
    });
    let [first, second] = files.each_ref().map(|file| nodes(file));
    let number = match random.below(8) {
        0 => random.number() as usize,
        1 | 2 => (first + random.below(3)).saturating_sub(1),
        3 | 4 => (first + second + random.below(3)).saturating_sub(1),
        _ => random.below(first + second + 1),
    };
    Input { files: files.into(), number }
}

fn nodes(file: &[u8]) -> usize {
    file.chunks(RECORD_LEN).filter(|record| record[0] == kind::NODE).count()
}
