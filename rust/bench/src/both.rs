//! What the composed verdict on two unwritten sides is timed on.

use crate::compose::{composed, AFTER_2, FALSE, P11_RULES, TRUE};
use crate::growth::{series, Series};
use crate::inputs::Timed;
use crate::model::{interface_and_property, DEAR, PAST_STATES};
use crate::watch::{all_rules, clean_rules, TYPICAL_RULES};
use compare::Input;
use generator::generate::chain_of_boxes;

pub fn inputs() -> Vec<Timed> {
    let all_bad = all_rules(|state, _| state + 1);
    let never_bad = all_rules(|state, event| (state + event) % 7);
    let typical = [interface(7, 15), AFTER_2.concat(), interface(8, 7), AFTER_2.concat()];
    let [p11, never] =
        [TRUE, FALSE].map(|demand| [interface(1, 2), TRUE.into(), interface(2, 0), demand.into()]);
    let of_true = halves(255, TRUE.to_vec(), TRUE.to_vec());
    // The interface has all methods but 5.
    let [past, large] = interface_and_property(PAST_STATES);
    let one = interface(16, 16);
    let by_first = [past.clone(), large.clone(), one.clone(), TRUE.to_vec()];
    let by_second = [one, TRUE.to_vec(), past, large];
    vec![
        both("P11, both its methods not written", p11, &P11_RULES),
        both("the same, the callee unsatisfiable", never, &P11_RULES),
        both("18 + 6 nodes, 212 edges, 8 rules", typical, &TYPICAL_RULES.concat()),
        both("true and true, 576 edges, clean", of_true, &never_bad),
        both("128 + 128 nodes, 4,096 edges", chains(15, 15), &all_bad),
        both("the same, clean", chains(15, 15), &never_bad),
        both("242 + 12 nodes, dear, clean", beside_dear(), &never_bad),
        both("first of 257 states, refused", by_first, &never_bad),
        both("second of 257 states, refused", by_second, &never_bad),
        both("128 + 136 nodes, refused", chains(15, 16), &never_bad),
    ]
}

pub fn growth() -> Vec<Series> {
    let composed = |rows| Input {
        files: chains(rows, rows).into_iter().chain([clean_rules(896)]).collect(),
        number: 1,
    };
    vec![series("4 methods each, 16 edges a node", "rows each", &[1, 3, 7, 15], composed)]
}

/// From method 1.
fn both(name: &str, sides: [Vec<u8>; 4], rules: &[u8]) -> Timed {
    let [interface1, property1, interface2, property2] = sides;
    composed(name, [interface1, property1, interface2, property2, rules.to_vec()], 1)
}

fn interface(provided: u8, required: u8) -> Vec<u8> {
    vec![5, provided, required, 0, 0, 0]
}

/// Methods 1 to 4, which require these, and methods 5 to 8, which require as many from the other end.
fn halves(required: u8, property1: Vec<u8>, property2: Vec<u8>) -> [Vec<u8>; 4] {
    let first = interface(0x0f, required);
    [first, property1, interface(0xf0, required.reverse_bits()), property2]
}

/// Sides that require seven methods each, with chains of so many rows.
fn chains(first: usize, second: usize) -> [Vec<u8>; 4] {
    halves(0x7f, chain_of_boxes(first), chain_of_boxes(second))
}

/// Nothing is demanded of the three methods that the dear side does not provide.
fn beside_dear() -> [Vec<u8>; 4] {
    let [dear, property] = interface_and_property(DEAR);
    let others = !dear[1];
    [interface(others, others | dear[1]), TRUE.to_vec(), dear, property]
}
