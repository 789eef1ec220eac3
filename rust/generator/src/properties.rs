//! Random valid properties.

use crate::generate::{label, method, Random, Size, LIMITS};
use crate::graphs::{labels_of, members};
use second::record::{kind, Interface, Record, LABELS, RECORD_LEN};

pub fn property(random: &mut Random, size: Size) -> Vec<u8> {
    let records = match (size, random.below(4)) {
        (Size::Small, _) => {
            let rows = 1 + random.below(7);
            any_rows(random, rows)
        }
        (Size::Large, 0) => row_cycle(random),
        (Size::Large, 1) => many_ors(random, LIMITS.ors),
        (Size::Large, _) => any_rows(random, LIMITS.rows),
    };
    widened(random, records)
}

/// The rows as a file; in half of the files every second box or so becomes one over every label.
pub(crate) fn widened(random: &mut Random, mut records: Vec<Record>) -> Vec<u8> {
    if random.once_in(2) {
        for record in &mut records {
            if let ([kind::ROW, 9, _, row, ..], true) = (*record, random.once_in(2)) {
                *record = [kind::ROW, 10, row, 0, 0, 0];
            }
        }
    }
    records.concat()
}

/// The property with some box over every label written out as a box of each, all of them joined by "and" rows; `None` without such a box, or without room for 16 rows
/// more.
pub fn written_out(random: &mut Random, property: &[u8]) -> Option<Vec<u8>> {
    let mut records = property.as_chunks::<RECORD_LEN>().0.to_vec();
    let wide: Vec<usize> = (0..records.len()).filter(|&row| records[row][1] == 10).collect();
    // One "and" row less than boxes, and one of them takes the place of the row itself.
    let more = LABELS + LABELS - 2;
    if wide.is_empty() || records.len() + more > LIMITS.rows {
        return None;
    }
    let row = random.pick(&wide);
    let operand = records[row][2];
    let boxes = (0..LABELS as u8).map(|label| [kind::ROW, 9, label, operand, 0, 0]);
    let boxes: Vec<u8> = boxes.map(|record| pushed(&mut records, record)).collect();
    conjunction(&mut records, row, &boxes);
    Some(records.concat())
}

/// Rows of all operators but the box over every label, with operands anywhere.
pub fn any_rows(random: &mut Random, rows: usize) -> Vec<Record> {
    let mut ors = 0;
    let mut records = Vec::new();
    for _ in 0..rows {
        let mut operator = random.pick(&[1, 2, 3, 4, 5, 6, 7, 7, 8, 8, 8, 9, 9, 9, 9, 9]);
        if operator == 8 && ors == LIMITS.ors {
            operator = 7;
        }
        ors += usize::from(operator == 8);
        records.push(row(random, operator, rows));
    }
    records
}

/// A row with the operator and operands anywhere below `rows`.
fn row(random: &mut Random, operator: u8, rows: usize) -> Record {
    let mut operand = || random.below(rows) as u8;
    let (a, b) = (operand(), operand());
    match operator {
        3 | 4 => [kind::ROW, operator, method(random), 0, 0, 0],
        7 | 8 => [kind::ROW, operator, a, b, 0, 0],
        9 => [kind::ROW, operator, label(random), b, 0, 0],
        _ => [kind::ROW, operator, 0, 0, 0, 0],
    }
}

/// Row 0 comes back to itself through "and" rows and a box or two, and a
/// literal at the end of the file can make it false: the highest ranks.
fn row_cycle(random: &mut Random) -> Vec<Record> {
    let literal = LIMITS.rows as u8 - 1;
    let mut records: Vec<Record> =
        (1..literal).map(|next| [kind::ROW, 7, next, next, 0, 0]).collect();
    records.push([kind::ROW, 9, 0, 0, 0, 0]);
    let falsified = random.below(records.len() - 1);
    records[falsified][3] = literal;
    if random.once_in(2) {
        let at = random.below(records.len() - 1);
        records[at] = [kind::ROW, 9, label(random), at as u8 + 1, 0, 0];
    }
    let operator = random.pick(&[2, 5, 6]);
    records.push(row(random, operator, LIMITS.rows));
    records
}

/// A chain of "and" rows that demands each of the "or" rows after it, whose
/// operands are boxes, literals and each other.
pub(crate) fn many_ors(random: &mut Random, ors: usize) -> Vec<Record> {
    let first_or = ors - 1;
    let mut records: Vec<Record> =
        (0..first_or).map(|at| [kind::ROW, 7, (first_or + at) as u8, at as u8 + 1, 0, 0]).collect();
    for _ in 0..ors {
        let operands = if random.once_in(4) { first_or } else { first_or + ors };
        let mut operand = || (operands + random.below(LIMITS.rows - operands)) as u8;
        records.push([kind::ROW, 8, operand(), operand(), 0, 0]);
    }
    while records.len() < LIMITS.rows {
        let operator = random.pick(&[9, 9, 9, 9, 9, 4, 5, 6]);
        records.push(row(random, operator, LIMITS.rows));
    }
    records
}

/// One or two phases, row 0 the first. A phase says of each label of the interface that no such step is taken, mostly of those that are forbidden, or which phase holds
/// after it; one demand of a phase may be about one method or about return nodes only. Some say so of all labels at once. Their models are small.
pub(crate) fn guarded(random: &mut Random, interface: Interface, forbidden: u8) -> Vec<u8> {
    let phases = 1 + random.below(2);
    let mut records = vec![TRUE; phases];
    let never = pushed(&mut records, [kind::ROW, 2, 0, 0, 0, 0]);
    let forbidden = members(forbidden);
    for phase in 0..phases {
        let mut demands = Vec::new();
        for label in labels_of(interface.required).into_iter().take(5) {
            let then = match (random.below(16), forbidden.contains(&label)) {
                (0, _) => continue,
                (1, _) => random.pick(&[never, 0]),
                (_, true) => never,
                (_, false) => random.below(phases) as u8,
            };
            demands.push(pushed(&mut records, [kind::ROW, 9, label, then, 0, 0]));
        }
        if let (Some(demand), true) = (demands.last_mut(), random.once_in(4)) {
            let operator = random.pick(&[3, 4, 5, 6]);
            let condition = row(random, operator, 1);
            let condition = pushed(&mut records, condition);
            *demand = pushed(&mut records, [kind::ROW, 8, condition, *demand, 0, 0]);
        }
        conjunction(&mut records, phase, &demands);
    }
    widened(random, records)
}

/// The property with one more demand of row 0: not to be there at all, or about one method or about return nodes.
pub(crate) fn narrowed(random: &mut Random, property: &[u8]) -> Vec<u8> {
    let mut records = property.as_chunks::<RECORD_LEN>().0.to_vec();
    let operator = random.pick(&[2, 3, 4, 5, 6]);
    let demand = row(random, operator, 1);
    let first = records[0];
    let (first, demand) = (pushed(&mut records, first), pushed(&mut records, demand));
    records[0] = [kind::ROW, 7, first, demand, 0, 0];
    records.concat()
}

/// Boxes of internal steps, each over the next row, and "true" at the end: for each provided method the model has two states for each row and two more.
pub fn chain_of_boxes(rows: usize) -> Vec<u8> {
    let boxes = (1..rows as u8).map(|next| [kind::ROW, 9, 0, next, 0, 0]);
    boxes.chain([TRUE]).flatten().collect()
}

const TRUE: Record = [kind::ROW, 1, 0, 0, 0, 0];

/// The number of one more row.
fn pushed(records: &mut Vec<Record>, record: Record) -> u8 {
    records.push(record);
    records.len() as u8 - 1
}

/// Makes a row demand all of some rows, through further rows where there are more than two.
fn conjunction(records: &mut Vec<Record>, row: usize, demands: &[u8]) {
    let (first, rest) = match *demands {
        [] => return,
        [only] => (only, only),
        [first, second] => (first, second),
        [first, ..] => (first, pushed(records, TRUE)),
    };
    records[row] = [kind::ROW, 7, first, rest, 0, 0];
    if demands.len() > 2 {
        conjunction(records, rest.into(), &demands[1..]);
    }
}
