//! What the generator promises of compositions and of graphs that conform.

use generator::conforming::Conforming;
use generator::generate::{self, Kind, Random};
use second::files::{check_graph, check_interface, check_property};
use second::record::Limits;
use second::unlimited::satisfies;
use second::{compare, compose, compose_both, model, Outcome, Sides, Unwritten};

/// How often each verdict is said, how many trails have more than two records, and how often each number refuses.
#[derive(Debug, Default)]
struct Tally {
    said: [usize; 3],
    long: usize,
    refused: [usize; 17],
}

fn tally(seed: u64, drawn: impl Fn(&mut Random) -> Outcome) -> Tally {
    let (mut random, mut tally) = (Random::new(seed), Tally::default());
    for _ in 0..10_000 {
        match drawn(&mut random) {
            Outcome::Said { verdict, values, .. } => {
                tally.said[verdict as usize - 1] += 1;
                tally.long += usize::from(values.first().is_some_and(|&records| records > 2));
            }
            Outcome::Refused(refusal) => tally.refused[usize::from(refusal.number)] += 1,
        }
    }
    tally
}

/// Clean and bad are frequent, with long trails among them, impossible is met, and no valid file is refused.
fn assert_frequent(tally: &Tally, least_long: usize) {
    let Tally { said, long, refused } = tally;
    let [possible @ .., impossible] = said;
    assert!(possible.iter().all(|&times| times > 3_500) && *long > least_long, "{tally:?}");
    assert!(*impossible > 300, "{tally:?}");
    assert!([3, 9, 10].iter().all(|&number| refused[number] > 30), "{tally:?}");
    assert!(refused[11] > 5, "{tally:?}");
    let others: usize = [1, 2, 4, 5, 6, 7, 8].iter().map(|&number| refused[number]).sum();
    assert_eq!(others, 0, "{tally:?}");
}

#[test]
fn compositions_are_composed_or_refused_by_3_9_16_10_or_11() {
    let drawn = |random: &mut Random| {
        let (files, start) = generate::composition(random);
        let [known_interface, known_graph, other_interface, property, rules] = &files;
        let sides = Sides { known_interface, known_graph, other_interface, property };
        compose(&Limits::DESK, &sides, rules, start, usize::MAX, [(0, 0); 2])
    };
    let tally = tally(8, drawn);
    assert_frequent(&tally, 500);
    assert!(tally.refused[16] > 300, "{tally:?}");
}

#[test]
fn unwritten_sides_are_composed_or_refused_by_3_9_10_or_11() {
    let drawn = |random: &mut Random| {
        let ([interface1, property1, interface2, property2, rules], start) =
            generate::unwritten(random);
        let sides = [(&interface1, &property1), (&interface2, &property2)]
            .map(|(interface, property)| Unwritten { interface, property });
        compose_both(&Limits::DESK, &sides, &rules, start, usize::MAX, [(0, 0); 2])
    };
    let tally = tally(10, drawn);
    assert_frequent(&tally, 100);
    assert_eq!(tally.refused[16], 0);
}

#[test]
fn graphs_that_conform_satisfy_the_property_and_are_simulated() {
    let (mut random, limits) = (Random::new(9), &Limits::DESK);
    // All, those that are larger than the model, and those that are larger than a file.
    let mut met = [0; 3];
    for _ in 0..1_000 {
        let ([_, _, interface, property, _], _) = generate::composition(&mut random);
        let Outcome::Said { written, .. } = model(limits, &interface, &property, usize::MAX, 0, 0)
        else {
            continue;
        };
        let model = check_graph(&written, limits).expect("a model");
        let rows = check_property(&property, limits).expect("a valid property");
        let interface = check_interface(&interface).expect("a valid interface");
        let conforming = Conforming::new(interface, &model);
        for _ in 0..10 {
            let graph = conforming.mapped(&mut random);
            let larger = [0, model.nodes.len(), limits.nodes].map(|most| graph.nodes.len() > most);
            met.iter_mut().zip(larger).for_each(|(times, larger)| *times += usize::from(larger));
            assert!(satisfies(&graph, &rows), "{property:?} {graph:?}");
            if larger[2] {
                continue;
            }
            let bytes = graph.bytes();
            assert_eq!(Kind::Graph.number(&bytes), 0, "{graph:?}");
            let said = compare(limits, &bytes, &written, usize::MAX, 0, 0);
            assert!(matches!(said, Outcome::Said { verdict: 1, .. }), "{property:?} {graph:?}");
        }
    }
    assert!(met[0] > 9_000 && met[1] > 1_000 && met[2] > 5, "{met:?}");
}
