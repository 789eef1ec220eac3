//! Examples of modelling: those of the paper and of operator 10, its refusals, and every interface of a case study with every property of that case.

use crate::calls::{example, of_pairs, written_lines, Call};
use crate::cases::Case;
use crate::examples::any_label;
use crate::Example;
use second::model;
use second::record::Limits;

/// The published length of modelling's work buffer.
const ROOM: usize = 103_456;
/// Room for every model.
const LONG: usize = 26_112;
type Record = [u8; 6];
const ONE: Record = [5, 1, 0, 0, 0, 0];
pub const ITSELF: Record = [3, 8, 0, 0, 0, 0];
pub const FALSE: Record = [3, 2, 0, 0, 0, 0];
const TRUE: Record = [3, 1, 0, 0, 0, 0];
pub const P1: [Record; 5] =
    [[5, 1, 1, 0, 0, 0], [3, 7, 1, 3, 0, 0], [3, 9, 1, 2, 0, 0], FALSE, [3, 5, 0, 0, 0, 0]];
/// No step, whatever its label.
pub const NO_STEP: [Record; 3] = [[5, 1, 1, 0, 0, 0], any_label(1), FALSE];
/// Six rows whose model has 336 states with eight methods and one label.
pub const LARGE: [Record; 7] = [
    [5, 255, 1, 0, 0, 0],
    [3, 9, 1, 4, 0, 0],
    [3, 9, 1, 2, 0, 0],
    [3, 9, 1, 5, 0, 0],
    [3, 7, 1, 0, 0, 0],
    [3, 8, 1, 0, 0, 0],
    [3, 9, 1, 3, 0, 0],
];

/// A call with room for every model.
fn whole(name: &str, interface: &[u8], property: &[u8]) -> Example {
    let call = Call { first: interface, second: property, out_len: LONG, lends_work: true };
    example("model", name, &call)
}

/// The interface is the first record, the property the rest.
fn simple(name: &str, records: &[Record]) -> Example {
    whole(name, &records[0], &records[1..].concat())
}

pub fn of_the_paper() -> Vec<Example> {
    vec![
        simple("p1-no-call-and-return", &P1),
        simple("p2-or-of-itself", &[ONE, ITSELF]),
        simple("p3-root-false", &[[5, 255, 255, 0, 0, 0], FALSE]),
        simple("method-without-an-entry", &[[5, 6, 0, 0, 0, 0], [3, 3, 2, 0, 0, 0]]),
        simple("11-336-states", &LARGE),
        simple("interface-refused", &[[5, 1, 0, 1, 0, 0], ITSELF]),
        simple("property-refused", &[ONE]),
    ]
}

/// Rows worked from the highest down: rows that come in above the row taken, an "or" that an "and" row settles later, cycles, and all 32 rows.
pub fn of_the_highest_row() -> Vec<Example> {
    let and = |a, b| [3, 7, a, b, 0, 0];
    let or = |a, b| [3, 8, a, b, 0, 0];
    let (returns, not_return, in_one) =
        ([3, 5, 0, 0, 0, 0], [3, 6, 0, 0, 0, 0], [3, 3, 1, 0, 0, 0]);
    let above =
        [ONE, and(5, 5), TRUE, returns, TRUE, TRUE, or(9, 2), TRUE, in_one, not_return, and(7, 8)];
    let later =
        [ONE, and(9, 5), returns, TRUE, in_one, TRUE, and(1, 3), TRUE, TRUE, TRUE, or(1, 2)];
    let mut all = vec![ONE, and(31, 30)];
    all.extend(
        (1..31).map(|row| if row % 3 == 0 { or(row + 1, row - 1) } else { and(row - 1, 31) }),
    );
    all.push(not_return);
    vec![
        simple("rows-come-in-above", &above),
        simple("or-settled-by-a-later-and", &later),
        simple("and-cycle", &[ONE, and(1, 1), and(0, 0)]),
        simple("or-of-itself-above", &[ONE, and(1, 1), or(1, 0)]),
        simple("nothing-asked-for", &[[5, 1, 1, 0, 0, 0], TRUE]),
        simple("all-32-rows", &all),
    ]
}

/// Boxes over every label.
pub fn of_any_label() -> Vec<Example> {
    let beside_a_box = [
        [5, 1, 2, 0, 0, 0],
        [3, 7, 1, 2, 0, 0],
        any_label(3),
        [3, 9, 2, 4, 0, 0],
        [3, 5, 0, 0, 0, 0],
        [3, 3, 1, 0, 0, 0],
    ];
    vec![
        simple("any-no-step", &NO_STEP),
        simple("any-of-itself", &[[5, 1, 6, 0, 0, 0], any_label(0)]),
        simple("any-beside-a-box", &beside_a_box),
    ]
}

pub fn of_lent_buffers() -> Vec<Example> {
    let call = Call { first: &ONE, second: &ITSELF, out_len: 71, lends_work: true };
    vec![
        example("model", "12-output-of-71-bytes", &call),
        example("model", "12-output-of-72-bytes", &Call { out_len: 72, ..call }),
        example("model", "12-no-output-for-no-state", &Call { out_len: 0, second: &FALSE, ..call }),
        example("model", "13-no-work-buffer", &Call { lends_work: false, ..call }),
    ]
}

pub fn of_cases(cases: &[Case]) -> Vec<Example> {
    of_pairs(cases, ["interface", "property"], whole)
}

/// What the program prints of a call, as the second implementation has it.
pub fn lines(name: &str, call: &Call) -> String {
    let work_len = if call.lends_work { ROOM } else { 0 };
    written_lines(name, model(&Limits::DESK, call.first, call.second, call.out_len, work_len, ROOM))
}
