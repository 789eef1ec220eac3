//! Two unwritten sides against the other calls: the models joined and watched, the first model as
//! a known graph, and pairs of graphs that conform.

mod oracle;

use generator::conforming::Conforming;
use generator::generate::{self, Random};
use oracle::*;
use second::files::{check_graph, check_interface, check_rules};
use second::unlimited::{is_bad, joined};
use second::{Outcome, Sides};

fn both(files: &[Vec<u8>; 5], start: u8) -> Outcome {
    let [interface1, property1, interface2, property2, rules] = files;
    compose_both([interface1, property1, interface2, property2], rules, start)
}

/// The models of both sides, unless they pass the limits.
fn models(
    [interface1, property1, interface2, property2, _]: &[Vec<u8>; 5],
) -> Option<[Vec<u8>; 2]> {
    let written = |outcome| match outcome {
        Outcome::Said { written, .. } => Some(written),
        Outcome::Refused(_) => None,
    };
    Some([written(model(interface1, property1))?, written(model(interface2, property2))?])
}

/// Whether a finite graph of the interface with all its entries satisfies the property. Edges can
/// only falsify a row, so nodes without any decide.
fn is_possible(interface: &[u8], property: &[u8]) -> bool {
    let holds = |method, returns| parts(judge(&[1, method, returns, 1, 0, 0], property)).0 == 1;
    (1..=8)
        .filter(|method| interface[1] >> (method - 1) & 1 == 1)
        .all(|method| holds(method, 0) || holds(method, 1))
}

#[test]
fn verdicts_agree_with_those_on_the_models() {
    let mut random = Random::new(11);
    let (mut watched, mut impossible) = (0, 0);
    for _ in 0..20_000 {
        let (files, start) = generate::unwritten(&mut random);
        let outcome = both(&files, start);
        let Outcome::Said { .. } = outcome else { continue };
        let [interface1, property1, interface2, property2, rules] = &files;
        if is_possible(interface1, property1) && is_possible(interface2, property2) {
            let [model1, _] = models(&files).expect("a verdict is of models that fit");
            let parts = composed((interface1, &model1), (interface2, property2), rules, start);
            assert_eq!(outcome, parts, "{files:?} {start}");
            watched += 1;
        } else {
            assert_eq!(outcome, said(3, &[], vec![]), "{files:?} {start}");
            impossible += 1;
        }
    }
    assert!(watched > 15_000 && impossible > 1_000, "{watched} {impossible}");
}

#[test]
fn outcomes_agree_with_those_on_the_first_model_as_a_known_graph() {
    let mut random = Random::new(13);
    let (mut equal, mut lacking) = (0, 0);
    for _ in 0..20_000 {
        let (files, start) = generate::unwritten(&mut random);
        let Some([model1, _]) = models(&files) else { continue };
        let [interface1, property1, interface2, property2, rules] = &files;
        let sides = Sides {
            known_interface: interface1,
            known_graph: &model1,
            other_interface: interface2,
            property: property2,
        };
        let mut expected = both(&files, start);
        // Only the numbers up to 9 come before that of a known graph without an entry.
        let early = matches!(expected, Outcome::Refused(refusal) if refusal.number <= 9);
        if early || is_possible(interface1, property1) {
            equal += 1;
        } else {
            expected = refused(16, 0, 0);
            lacking += 1;
        }
        assert_eq!(compose(&sides, rules, start), expected, "{files:?} {start}");
    }
    assert!(equal > 15_000 && lacking > 500, "{equal} {lacking}");
}

#[test]
fn clean_is_said_exactly_when_no_pair_is_bad() {
    let mut random = Random::new(12);
    // Clean verdicts of which each pair was clean, and bad ones, with those of which a pair was bad.
    let (mut clean, mut bad, mut shown) = (0, 0, 0);
    for _ in 0..5_000 {
        let (files, start) = generate::unwritten(&mut random);
        let Outcome::Said { verdict: verdict @ 1..=2, .. } = both(&files, start) else { continue };
        let models = models(&files).expect("a verdict is of models that fit");
        let graphs = models.map(|model| check_graph(&model, LIMITS).expect("a model"));
        let interface = |at: usize| check_interface(&files[at]).expect("a valid interface");
        let sides =
            [(0, 0), (2, 1)].map(|(file, at)| Conforming::new(interface(file), &graphs[at]));
        let rules = check_rules(&files[4]).expect("valid rules");
        let mut pair_is_bad = || {
            let [first, second] = sides.each_ref().map(|side| side.mapped(&mut random));
            is_bad(&joined(&first, &second), &rules, start)
        };
        let some_is_bad = (0..20).any(|_| pair_is_bad());
        let models_are_bad = is_bad(&joined(&graphs[0], &graphs[1]), &rules, start);
        assert_eq!(verdict == 2, models_are_bad, "{files:?} {start}");
        assert!(verdict == 2 || !some_is_bad, "{files:?} {start}");
        match verdict {
            1 => clean += 1,
            _ => (bad, shown) = (bad + 1, shown + usize::from(some_is_bad)),
        }
    }
    assert!(clean > 1_500 && bad > 1_500 && 2 * shown > bad, "{clean} {bad} {shown}");
}
