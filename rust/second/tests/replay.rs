//! Trails replayed as runs: those of the paper and of recursions, changed ones, and those of random graphs, where runs are also told without trails.

mod support;

use generator::extremes::{longest_passing_trail, longest_trail};
use generator::generate::{self, Random, Size};
use second::files::{check_graph, check_rules};
use second::replay::{replay, Replayed};
use second::unlimited::is_bad;
use second::{Limits, Outcome};
use support::*;

fn replayed(graph: &[u8], rules: &[u8], start: u8, trail: &[u8]) -> Replayed {
    let graph = check_graph(graph, &Limits::DESK).expect("a valid graph");
    replay(&graph, &check_rules(rules).expect("valid rules"), start, trail)
}

/// The trail of a bad graph of one method.
fn trail_of(graph: &[u8], rules: &[u8]) -> Vec<u8> {
    match watch(&file("5 1 1"), graph, rules, 1) {
        Outcome::Said { verdict: 2, written, .. } => written,
        other => panic!("{other:?}"),
    }
}

const P11: &str = "1 1 0 1 / 1 1 1 0 / 1 1 1 1 / 2 0 1 1";

#[test]
fn a_call_is_passed_over_by_two_steps() {
    let trail = file("0 0 0 0 0 0 / 0 0 3 1 1 7");
    let said = replayed(&file(P11), &file("4 0 2 1 1 7"), 1, &trail);
    assert_eq!(said, Replayed::Bad { steps: 2 });
}

#[test]
fn a_recursion_is_unfolded() {
    // Three calls deep, then each return counts on.
    let calls = "4 0 1 1 1 1 / 4 1 1 1 1 2 / 4 2 1 1 1 3";
    let rules = file(&format!("{calls} / 4 3 2 1 1 4 / 4 4 2 1 1 5 / 4 5 2 1 1 7"));
    let trail = trail_of(&file(P11), &rules);
    assert_eq!(trail, file("0 0 0 0 0 0 / 0 0 3 1 1 7"));
    assert_eq!(replayed(&file(P11), &rules, 1, &trail), Replayed::Bad { steps: 6 });
}

#[test]
fn every_changed_byte_is_refused() {
    let graph = file("1 1 0 1 / 1 1 0 0 / 1 1 1 1 / 1 1 0 0 / 2 0 0 1 / 2 1 1 3 / 2 3 1 3");
    let rules = file("4 0 2 1 1 1 / 4 1 1 1 1 7");
    let trail = trail_of(&graph, &rules);
    assert_eq!(trail, file("0 0 0 0 0 0 / 0 0 1 0 1 0 / 1 0 3 1 3 1 / 3 1 2 1 0 7"));
    assert_eq!(replayed(&graph, &rules, 1, &trail), Replayed::Bad { steps: 4 });
    // The call at the end may enter the other entry as well.
    let other_entry = (22, 2);
    for (at, value) in (0..trail.len()).flat_map(|at| (0..=u8::MAX).map(move |value| (at, value))) {
        let mut changed = trail.clone();
        changed[at] = value;
        let said = replayed(&graph, &rules, 1, &changed);
        let stays = changed == trail || (at, value) == other_entry;
        assert_eq!(matches!(said, Replayed::Bad { .. }), stays, "{at} {value} {said:?}");
    }
    for cut in 0..trail.len() {
        let said = replayed(&graph, &rules, 1, &trail[..cut]);
        assert!(matches!(said, Replayed::Refused { .. }), "{cut} {said:?}");
    }
    for start in [0, 2, 9] {
        let reason = "no entry of the start method";
        let said = replayed(&graph, &rules, start, &trail);
        assert_eq!(said, Replayed::Refused { record: 0, reason });
    }
}

#[test]
fn a_run_that_is_too_long_is_said_to_be() {
    // Each method but the last calls the next one 30 times and returns.
    let node = |at: u8| {
        [
            1,
            at / 32 + 1,
            u8::from(at % 32 == 31 || at / 32 == 7),
            u8::from(at.is_multiple_of(32)),
            0,
            0,
        ]
    };
    let call = |at: u8| [2, at, at / 32 + 2, at + 1, 0, 0];
    let nodes = (0..=u8::MAX).map(node);
    let calls = (0..=223).filter(|at| at % 32 != 31).map(call);
    let graph: Vec<u8> = nodes.chain(calls).flatten().collect();
    let rules = file("4 0 2 2 1 7");
    let Outcome::Said { verdict: 2, written, .. } = watch(&file("5 255 255"), &graph, &rules, 1)
    else {
        panic!("it is bad");
    };
    assert_eq!(written, file("0 0 0 0 0 0 / 0 0 3 2 1 7"));
    assert_eq!(replayed(&graph, &rules, 1, &written), Replayed::TooLong);
}

#[test]
fn the_longest_trails_are_replayed() {
    for ([_, graph, rules], steps) in
        [(longest_trail(), 1_792), (longest_passing_trail(), 2 * 1_778)]
    {
        let interface = file("5 255 255");
        let Outcome::Said { written, .. } = watch(&interface, &graph, &rules, 1) else {
            panic!("it is bad");
        };
        assert_eq!(replayed(&graph, &rules, 1, &written), Replayed::Bad { steps });
    }
}

#[test]
fn random_trails_are_runs_and_clean_graphs_have_none() {
    let mut random = Random::new(8);
    let (mut clean, mut bad) = (0, 0);
    for round in 0..20_000 {
        let size = if round % 256 == 0 { Size::Large } else { Size::Small };
        let ([interface, graph, rules], start) = generate::runs(&mut random, size);
        let Outcome::Said { verdict, written, .. } = watch(&interface, &graph, &rules, start)
        else {
            continue;
        };
        let flow_graph = check_graph(&graph, &Limits::DESK).expect("a valid graph");
        let rules = check_rules(&rules).expect("valid rules");
        assert_eq!(is_bad(&flow_graph, &rules, start), verdict == 2, "{graph:?} {rules:?} {start}");
        match replay(&flow_graph, &rules, start, &written) {
            _ if verdict == 1 => clean += 1,
            Replayed::Bad { .. } => bad += 1,
            other => panic!("{other:?} {graph:?} {rules:?} {start}"),
        }
    }
    assert!(clean > 10_000 && bad > 5_000, "{clean} {bad}");
}
