//! Examples of comparing: those of the paper, its refusals, and every two graphs of a case study, each way.

use crate::calls::{example, of_pairs, Call};
use crate::cases::Case;
use crate::Example;
use second::record::{Limits, RECORD_LEN};
use second::{compare, Outcome};

/// The published length of comparing's work buffer.
pub const ROOM: usize = 165_152;
const LINE: usize = 32;
const NODE: [u8; 6] = [1, 1, 0, 1, 0, 0];

/// Room for the relation's lines: one for each node record of the first graph.
fn room(first: &[u8]) -> usize {
    LINE * first.chunks(RECORD_LEN).filter(|record| record[0] == 1).count()
}

fn simple(name: &str, first: &[u8], second: &[u8]) -> Example {
    let out_len = room(first);
    example("compare", name, &Call { first, second, out_len, lends_work: true })
}

pub fn of_the_paper() -> Vec<Example> {
    let self_loop = [NODE, [2, 0, 0, 0, 0, 0]].concat();
    let cycle = [NODE, NODE, [2, 0, 0, 1, 0, 0], [2, 1, 0, 0, 0, 0]].concat();
    vec![
        simple("p8-cycle-by-self-loop", &cycle, &self_loop),
        simple("p8-self-loop-by-cycle", &self_loop, &cycle),
        simple("p9-edgeless-entry", &self_loop, &NODE),
        simple("empty-by-empty", &[], &[]),
        simple("second-refused", &NODE, &[2, 0, 0, 0, 0, 0]),
    ]
}

pub fn of_lent_buffers() -> Vec<Example> {
    let call = Call { first: &NODE, second: &NODE, out_len: 31, lends_work: true };
    vec![
        example("compare", "12-output-of-31-bytes", &call),
        example("compare", "12-output-of-32-bytes", &Call { out_len: 32, ..call }),
        example("compare", "13-no-work-buffer", &Call { lends_work: false, ..call }),
        example(
            "compare",
            "first-before-second",
            &Call { first: &NODE[..5], second: &NODE[..5], ..call },
        ),
    ]
}

pub fn of_cases(cases: &[Case]) -> Vec<Example> {
    of_pairs(cases, ["graph", "graph"], simple)
}

/// What the program prints of a call, as the second implementation has it.
pub fn lines(name: &str, call: &Call) -> String {
    let work_len = if call.lends_work { ROOM } else { 0 };
    let said = compare(&Limits::DESK, call.first, call.second, call.out_len, work_len, ROOM);
    let relation = |written: &[u8]| -> String { crate::calls::decimals(written, LINE) };
    match said {
        Outcome::Refused(r) => format!("{name}: refused {} {} {}\n", r.number, r.file, r.record),
        Outcome::Said { verdict: 1, written, .. } => format!("{name}: yes\n{}", relation(&written)),
        Outcome::Said { values, written, .. } => {
            format!("{name}: no {}\n{}", values[0], relation(&written))
        }
    }
}
