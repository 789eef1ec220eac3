//! Examples of judging: those of the paper and of operator 10, its refusals, and every graph of a case study with every property of that case.

use crate::calls::{decimals, example, of_pairs, Call};
use crate::cases::Case;
use crate::examples::any_label;
use crate::Example;
use second::record::Limits;
use second::{judge, Outcome};

/// The published length of judging's work buffer.
const ROOM: usize = 41_664;
const NODE: [u8; 6] = [1, 1, 0, 1, 0, 0];
const FALSE: [u8; 6] = [3, 2, 0, 0, 0, 0];
const RETURN: [u8; 6] = [3, 5, 0, 0, 0, 0];
const NOT_RETURN: [u8; 6] = [3, 6, 0, 0, 0, 0];
/// Room for the longest sheet of these examples.
const LONG: usize = 60_000;

/// A call with room for all that it writes.
fn whole(name: &str, graph: &[u8], property: &[u8]) -> Example {
    let call = Call { first: graph, second: property, out_len: LONG, lends_work: true };
    example("judge", name, &call)
}

fn simple(name: &str, graph: &[[u8; 6]], property: &[[u8; 6]]) -> Example {
    whole(name, &graph.concat(), &property.concat())
}

pub fn of_the_paper() -> Vec<Example> {
    let call = [NODE, [1, 1, 1, 0, 0, 0], [2, 0, 1, 1, 0, 0]];
    vec![
        simple("or-of-itself", &[NODE], &[[3, 8, 0, 0, 0, 0]]),
        simple("p4-empty-graph", &[], &[FALSE]),
        simple("p5-literal", &[NODE], &[RETURN]),
        simple("p6-box", &call, &[[3, 9, 1, 1, 0, 0], NOT_RETURN]),
        simple("p7-box-of-no-edge", &call, &[[3, 9, 0, 1, 0, 0], NOT_RETURN]),
        simple("later-or-operand", &call, &[[3, 8, 1, 2, 0, 0], FALSE, [3, 9, 1, 1, 0, 0]]),
        simple("graph-before-property", &[RETURN], &[NODE]),
        simple("property-refused", &[NODE], &[]),
    ]
}

/// Boxes over every label.
pub fn of_any_label() -> Vec<Example> {
    let [return_node, node]: [[u8; 6]; 2] = [[1, 1, 1, 0, 0, 0], [1, 1, 0, 0, 0, 0]];
    let returns = [any_label(1), RETURN];
    let one_target_fails = [NODE, return_node, node, [2, 0, 1, 1, 0, 0], [2, 0, 2, 2, 0, 0]];
    let equal_ranks = [NODE, node, node, [2, 0, 1, 2, 0, 0], [2, 0, 2, 1, 0, 0]];
    // Row 1 has rank 3 at node 1 and rank 2 at node 2.
    let ranks = [
        [1, 1, 1, 1, 0, 0],
        return_node,
        node,
        [2, 0, 4, 1, 0, 0],
        [2, 0, 5, 2, 0, 0],
        [2, 1, 0, 2, 0, 0],
    ];
    let later_and_now = [any_label(1), [3, 7, 2, 3, 0, 0], any_label(3), RETURN];
    vec![
        simple("any-of-itself", &[NODE], &[any_label(0)]),
        simple("any-of-no-edge", &[NODE], &[any_label(1), FALSE]),
        simple("any-one-target-fails", &one_target_fails, &returns),
        simple("any-lower-node-before-lower-label", &equal_ranks, &returns),
        simple("any-lower-rank-before-lower-node", &ranks, &later_and_now),
        simple("any-loop-by-label-8", &[NODE, [2, 0, 8, 0, 0, 0]], &returns),
    ]
}

pub fn of_lent_buffers() -> Vec<Example> {
    let call = Call { first: &NODE, second: &RETURN, out_len: 5, lends_work: true };
    vec![
        example("judge", "12-output-of-5-bytes", &call),
        example("judge", "12-output-of-6-bytes", &Call { out_len: 6, ..call }),
        example(
            "judge",
            "12-no-output-where-it-holds",
            &Call { out_len: 0, second: &NOT_RETURN, ..call },
        ),
        example("judge", "13-no-work-buffer", &Call { lends_work: false, ..call }),
        example("judge", "13-before-files", &Call { lends_work: false, first: &NODE[..5], ..call }),
        example("judge", "files-before-12", &Call { out_len: 0, second: &NODE, ..call }),
    ]
}

pub fn of_cases(cases: &[Case]) -> Vec<Example> {
    of_pairs(cases, ["graph", "property"], whole)
}

/// What the program prints of a call, as the second implementation has it.
pub fn lines(name: &str, call: &Call) -> String {
    let work_len = if call.lends_work { ROOM } else { 0 };
    let out_len = call.out_len;
    verdict_lines(name, judge(&Limits::DESK, call.first, call.second, out_len, work_len, ROOM))
}

/// What the program prints of a verdict on a property.
pub fn verdict_lines(name: &str, said: Outcome) -> String {
    match said {
        Outcome::Refused(r) => format!("{name}: refused {} {} {}\n", r.number, r.file, r.record),
        Outcome::Said { verdict: 1, .. } => format!("{name}: holds\n"),
        Outcome::Said { values, written, .. } => {
            format!("{name}: fails {}\n{}", values[0], decimals(&written, 6))
        }
    }
}
