//! The composed verdicts, on one side that is not written and on two, in both implementations, and the compositions that they are compared on.

use crate::calls::Call;
use crate::case::{buffers, Input};
use crate::claims::{BOTH_VERDICT, COMPOSED_VERDICT};
use generator::generate::{self, Composition, Kind, Random, Size};
use second::{Limits, Sides, Unwritten};
use tintboulder::{compose_answer, compose_store, compose_work};
use tintboulder::{compose_both_answer, compose_both_store, compose_both_work};

pub const CALL: Call = Call {
    name: "compose",
    rooms: &[compose_store, compose_work],
    proved: |input, out, work| {
        let [store, work] = buffers(work);
        compose_answer(input.files(), input.start(), out, store, work)
    },
    second: |input, out, work| {
        let [known_interface, known_graph, other_interface, property, rules] = input.files();
        let sides = Sides { known_interface, known_graph, other_interface, property };
        let lent = [(work[0], compose_store()), (work[1], compose_work())];
        second::compose(&Limits::DESK, &sides, rules, input.start(), out, lent)
    },
    input: |random| {
        let composition = generate::composition(random);
        input(random, composition, [Kind::Graph, Kind::Property])
    },
    cases: 1,
    claim: Some(COMPOSED_VERDICT),
};

pub const BOTH: Call = Call {
    name: "compose-both",
    rooms: &[compose_both_store, compose_both_work],
    proved: |input, out, work| {
        let [store, work] = buffers(work);
        compose_both_answer(input.files(), input.start(), out, store, work)
    },
    second: |input, out, work| {
        let [interface1, property1, interface2, property2, rules] = input.files();
        let sides = [(interface1, property1), (interface2, property2)]
            .map(|(interface, property)| Unwritten { interface, property });
        let lent = [(work[0], compose_both_store()), (work[1], compose_both_work())];
        second::compose_both(&Limits::DESK, &sides, rules, input.start(), out, lent)
    },
    input: |random| {
        let sides = generate::unwritten(random);
        input(random, sides, [Kind::Property; 2])
    },
    cases: 1,
    claim: Some(BOTH_VERDICT),
};

/// In one composition of twelve a file is damaged. The sides are of these kinds beside their interfaces.
fn input(random: &mut Random, (mut files, start): Composition, sides: [Kind; 2]) -> Input {
    if random.once_in(12) {
        let kinds = [Kind::Interface, sides[0], Kind::Interface, sides[1], Kind::Rules];
        let at = random.below(kinds.len());
        files[at] = generate::damaged(random, kinds[at], Size::Small);
    }
    Input { files: files.into(), number: start.into() }
}

#[cfg(test)]
mod tests {
    use super::{Call, Input, BOTH, CALL};

    const TRUE: [u8; 6] = [3, 1, 0, 0, 0, 0];
    const FALSE: [u8; 6] = [3, 2, 0, 0, 0, 0];

    fn interface(provided: u8) -> Vec<u8> {
        vec![5, provided, 0, 0, 0, 0]
    }

    /// Both implementations say this verdict and number, from method 1 and without rules.
    fn assert_said(call: &Call, sides: [Vec<u8>; 4], said: (u32, u32)) {
        let files = [&sides[..], &[Vec::new()]].concat();
        let input = Input { files, number: 1 };
        let mut work: Vec<Vec<u8>> = call.rooms.iter().map(|room| vec![7; room()]).collect();
        let mut work: Vec<&mut [u8]> = work.iter_mut().map(Vec::as_mut_slice).collect();
        let proved = (call.proved)(&input, &mut [], &mut work);
        assert_eq!((proved.verdict, proved.number), said, "{}", input.listed());
        assert_eq!(call.result(&input).0, proved, "{}", input.listed());
    }

    /// A node for each of these methods, all of them entries but those of the last set.
    fn graph(methods: u8, not_entered: u8) -> Vec<u8> {
        let is_in = |set: u8, method: u8| set >> (method - 1) & 1 == 1;
        let node = |method| [1, method, 0, u8::from(!is_in(not_entered, method)), 0, 0];
        (1..=8).filter(|&method| is_in(methods, method)).flat_map(node).collect()
    }

    #[test]
    fn every_known_method_needs_its_entry() {
        for known in 0..=u8::MAX {
            for (property, possible) in [(TRUE, true), (FALSE, known == u8::MAX)] {
                let with = |graph, said| {
                    let sides = [interface(known), graph, interface(!known), property.into()];
                    assert_said(&CALL, sides, said);
                };
                with(graph(known, 0), if possible { (1, 0) } else { (3, 0) });
                let bits = (0..8).map(|bit| 1 << bit).filter(|bit| known & bit != 0);
                bits.for_each(|bit| with(graph(known, bit), (0, 16)));
            }
        }
    }

    #[test]
    fn every_unwritten_method_needs_its_entry() {
        for provided in 0..=u8::MAX {
            for method in 1..=8 {
                // In this method only.
                let named = [interface(provided), vec![3, 3, method, 0, 0, 0]];
                let other = [interface(!provided), TRUE.into()];
                let possible = provided & !(1 << (method - 1)) == 0;
                let said = if possible { (1, 0) } else { (3, 0) };
                for [first, second] in [[&named, &other], [&other, &named]] {
                    let [interface1, property1] = first.clone();
                    let [interface2, property2] = second.clone();
                    assert_said(&BOTH, [interface1, property1, interface2, property2], said);
                }
            }
        }
    }
}
