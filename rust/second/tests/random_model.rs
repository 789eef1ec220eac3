//! The model against supports found by trying every set of rows, and against
//! its purpose: it simulates exactly the graphs that satisfy the property.

mod oracle;

use generator::generate::{self, Random, Size};
use oracle::*;
use second::files::{check_interface, check_property};
use second::record::{Interface, Row};
use std::collections::BTreeSet;

/// Method, flag and rows as a sum of powers of two.
type State = (usize, bool, u32);

fn has(rows: u32, row: usize) -> bool {
    rows >> row & 1 == 1
}

fn is_supported(property: &[Row], (method, returns, rows): State) -> bool {
    let supported = |row: usize| match property[row] {
        Row::True | Row::Box { .. } | Row::BoxAll(_) => true,
        Row::False => false,
        Row::In(wanted) => method == wanted,
        Row::NotIn(shunned) => method != shunned,
        Row::Return => returns,
        Row::NotReturn => !returns,
        Row::And(a, b) => has(rows, a) && has(rows, b),
        Row::Or(a, b) => has(rows, a) || has(rows, b),
    };
    (0..property.len()).all(|row| !has(rows, row) || supported(row))
}

fn minimal_supports(property: &[Row], method: usize, obligations: u32) -> Vec<State> {
    let mut minimal = Vec::new();
    for returns in [false, true] {
        let all = 0..1 << property.len();
        let supports: Vec<u32> = all
            .filter(|rows| obligations & !rows == 0)
            .filter(|&rows| is_supported(property, (method, returns, rows)))
            .collect();
        let is_minimal = |rows: &u32| !supports.iter().any(|s| s != rows && s & !rows == 0);
        let found = supports.iter().copied().filter(is_minimal);
        minimal.extend(found.map(|rows| (method, returns, rows)));
    }
    minimal
}

fn successors(property: &[Row], state: State, label: usize) -> Vec<State> {
    let mut obligations = 0;
    for row in (0..property.len()).filter(|&row| has(state.2, row)) {
        match box_parts(property[row]) {
            Some((labels, operand)) if labels.contains(&label) => obligations |= 1 << operand,
            _ => {}
        }
    }
    minimal_supports(property, state.0, obligations)
}

/// The model's file, or `None` when it is larger than the tests look at.
fn naive_model(interface: &Interface, property: &[Row]) -> Option<Vec<u8>> {
    let provided = (1..=8).filter(|&method| interface.provides(method));
    let entries: Vec<State> = provided.flat_map(|m| minimal_supports(property, m, 1)).collect();
    let labels: Vec<usize> = (0..=8).filter(|&l| l == 0 || interface.requires(l)).collect();
    let mut states: BTreeSet<State> = entries.iter().copied().collect();
    let mut open = entries.clone();
    while let Some(state) = open.pop() {
        let next = labels.iter().flat_map(|&label| successors(property, state, label));
        open.extend(next.filter(|&state| states.insert(state)));
        if states.len() > 60 {
            return None;
        }
    }
    let states: Vec<State> = states.into_iter().collect();
    let mut bytes = Vec::new();
    for state in &states {
        let entry = u8::from(entries.contains(state));
        bytes.extend([1, state.0 as u8, u8::from(state.1), entry, 0, 0]);
    }
    for (from, &state) in states.iter().enumerate() {
        for &label in &labels {
            for next in successors(property, state, label) {
                let to = states.binary_search(&next).expect("a state");
                bytes.extend([2, from as u8, label as u8, to as u8, 0, 0]);
            }
        }
    }
    Some(bytes)
}

#[test]
fn model_agrees_with_all_sets_of_rows() {
    let mut random = Random::new(4);
    let mut compared = 0;
    for _ in 0..4_000 {
        let interface_file = [5, random.byte() % 4, random.byte() % 4, 0, 0, 0];
        let property_file = generate::property(&mut random, Size::Small);
        let interface = check_interface(&interface_file).expect("a valid interface");
        let property = check_property(&property_file, LIMITS).expect("a valid property");
        let Some(expected) = naive_model(&interface, &property) else {
            continue;
        };
        let (verdict, values, written) = parts(model(&interface_file, &property_file));
        assert_eq!((verdict, &written), (1, &expected), "{interface_file:?} {property_file:?}");
        let nodes = expected.chunks(6).filter(|record| record[0] == 1).count();
        assert_eq!(values, [nodes as u64, (expected.len() / 6 - nodes) as u64]);
        compared += 1;
    }
    assert!(compared > 3_000, "{compared}");
}

#[test]
fn model_simulates_what_satisfies() {
    let mut random = Random::new(5);
    let mut verdicts = [0; 3];
    for _ in 0..60_000 {
        let (provided, required) = (1 + random.byte() % 3, random.byte() % 4);
        let property = generate::property(&mut random, Size::Small);
        let graph = generate::graph_of(&mut random, Size::Small, provided, required);
        let outcome = model(&[5, provided, required, 0, 0, 0], &property);
        if outcome == refused(11, 0, 0) {
            continue;
        }
        let (satisfies, _, _) = parts(judge(&graph, &property));
        let (simulates, _, _) = parts(oracle::compare(&graph, &parts(outcome).2));
        assert_eq!(satisfies, simulates, "{provided} {required} {property:?} {graph:?}");
        verdicts[satisfies as usize] += 1;
    }
    assert!(verdicts[1] > 10_000 && verdicts[2] > 10_000, "{verdicts:?}");
}

#[test]
fn models_of_nine_boxes_and_of_one_over_every_label_simulate_each_other() {
    let mut random = Random::new(6);
    let mut compared = 0;
    for _ in 0..4_000 {
        let interface = [5, random.byte() % 4, random.byte() % 8, 0, 0, 0];
        let property = generate::property(&mut random, Size::Small);
        let Some(written_out) = generate::written_out(&mut random, &property) else {
            continue;
        };
        let [one, nine] = [&property, &written_out].map(|rows| model(&interface, rows));
        if one == refused(11, 0, 0) {
            assert_eq!(one, nine, "{interface:?} {property:?}");
            continue;
        }
        let [one, nine] = [one, nine].map(parts);
        assert_eq!(one.1, nine.1, "{interface:?} {property:?}");
        for (first, second) in [(&one.2, &nine.2), (&nine.2, &one.2)] {
            let simulates = parts(oracle::compare(first, second)).0;
            assert_eq!(simulates, 1, "{interface:?} {property:?}");
        }
        compared += 1;
    }
    assert!(compared > 500, "{compared}");
}
