//! What the generator promises.

use generator::extremes::{
    any_label_cycle, dense_line, longest_passing_trail, longest_trail, never_a_return,
};
use generator::generate::{self, Kind, Random, Size};
use generator::relations;
use second::record::Limits;
use second::{files, join, judge, watch, Outcome};

#[test]
fn valid_files_are_accepted() {
    let mut random = Random::new(1);
    for round in 0..2_000 {
        let size = if round % 10 == 0 { Size::Large } else { Size::Small };
        for kind in Kind::ALL {
            let bytes = generate::valid(&mut random, kind, size);
            assert_eq!(kind.number(&bytes), 0, "{kind:?} {bytes:?}");
        }
    }
}

#[test]
fn graded_files_are_accepted() {
    let mut random = Random::new(5);
    for size in [Size::Small, Size::Large].repeat(1_000) {
        let (graph, property) = generate::graded(&mut random, size);
        let numbers = (Kind::Graph.number(&graph), Kind::Property.number(&property));
        assert_eq!(numbers, (0, 0), "{graph:?} {property:?}");
    }
}

#[test]
fn slow_relations_are_accepted() {
    for numbering in [relations::forward, relations::backward, relations::shuffled] {
        let graphs = [relations::band, relations::circulant, relations::hubs];
        for bytes in graphs.map(|graph| graph(numbering)) {
            assert_eq!(Kind::Graph.number(&bytes), 0);
            assert!(bytes.len() > 6 * 4_096, "{}", bytes.len());
        }
    }
    assert_eq!(Kind::Graph.number(&relations::loops()), 0);
}

#[test]
fn damaged_files_meet_every_number_of_their_kind() {
    let mut random = Random::new(2);
    for (kind, numbers) in [
        (Kind::Graph, &[1, 2, 3, 4, 5, 7, 8][..]),
        (Kind::Property, &[1, 2, 3, 5, 6, 7]),
        (Kind::Rules, &[1, 2, 3, 4]),
        (Kind::Interface, &[1, 2, 3, 6]),
    ] {
        let mut met = [0; 9];
        for _ in 0..2_000 {
            let bytes = generate::damaged(&mut random, kind, Size::Small);
            met[kind.number(&bytes)] += 1;
        }
        assert!(numbers.iter().all(|&number| met[number] > 20), "{kind:?} {met:?}");
    }
}

#[test]
fn graphs_are_of_their_interface() {
    let mut random = Random::new(3);
    for _ in 0..2_000 {
        let bytes = generate::closed_interface(&mut random);
        let graph = generate::graph_of(&mut random, Size::Small, bytes[1], bytes[2]);
        let interface = files::check_interface(&bytes).expect("a valid interface");
        let graph = files::check_graph(&graph, &Limits::DESK).expect("a valid graph");
        assert!(graph.nodes.iter().all(|node| interface.provides(node.method)));
        assert!(graph.edges.iter().all(|edge| edge.label == 0 || interface.requires(edge.label)));
    }
}

#[test]
fn sides_are_joined_or_refused_by_9_or_11() {
    let mut random = Random::new(6);
    let mut met = [0; 5];
    for round in 0..2_000 {
        let files = match round % 4 {
            0 => generate::sides_at_the_limits(&mut random),
            _ => generate::sides(&mut random),
        };
        let [interface1, graph1, interface2, graph2] = &files;
        let out = usize::MAX;
        let case = match join(&Limits::DESK, interface1, graph1, interface2, graph2, out) {
            Outcome::Said { .. } => 0,
            Outcome::Refused(refusal) => match (refusal.number, refusal.file) {
                (9, 0) => 1,
                (9, 2) => 2,
                (9, 4) => 3,
                (11, _) => 4,
                other => panic!("{other:?} {files:?}"),
            },
        };
        met[case] += 1;
    }
    assert!(met.iter().all(|&times| times > 20), "{met:?}");
}

#[test]
fn runs_are_watched_or_refused_by_3_9_or_10() {
    let mut random = Random::new(7);
    let (mut clean, mut refused, mut lengths) = (0, [0; 11], Vec::new());
    for round in 0..4_000 {
        let size = if round % 32 == 0 { Size::Large } else { Size::Small };
        let ([interface, graph, rules], start) = generate::runs(&mut random, size);
        match watch(&Limits::DESK, &interface, &graph, &rules, start, usize::MAX, 0, 0) {
            Outcome::Said { verdict: 1, .. } => clean += 1,
            Outcome::Said { values, .. } => lengths.push(values[0]),
            Outcome::Refused(refusal) => refused[usize::from(refusal.number)] += 1,
        }
    }
    assert!(clean > 1_000 && lengths.len() > 1_000, "{clean} {}", lengths.len());
    let longer = |than: u64| lengths.iter().filter(|&&length| length > than).count();
    let many = [2, 8, 100, 1_000].map(longer);
    assert!(many[0] > 500 && many[1] > 200 && many[2] > 40 && many[3] > 5, "{many:?}");
    assert!([3, 9, 10].iter().all(|&number| refused[number] > 20), "{refused:?}");
    assert_eq!(refused.iter().sum::<usize>(), refused[3] + refused[9] + refused[10]);
}

#[test]
fn the_longest_trails_are_as_long_as_they_can_be() {
    for ([interface, graph, rules], records) in
        [(longest_trail(), 256 * 7 + 1), (longest_passing_trail(), 254 * 7 + 1)]
    {
        match watch(&Limits::DESK, &interface, &graph, &rules, 1, usize::MAX, 0, 0) {
            Outcome::Said { verdict: 2, values, .. } => assert_eq!(values, [records]),
            other => panic!("{other:?}"),
        }
    }
}

#[test]
fn a_seed_gives_the_same_files_again() {
    let files = || {
        let mut random = Random::new(4);
        Kind::ALL.map(|kind| generate::damaged(&mut random, kind, Size::Large))
    };
    assert_eq!(files(), files());
}

#[test]
fn mutated_files_meet_every_number_but_the_limits() {
    let mut random = Random::new(6);
    let mut met = [0; 9];
    for _ in 0..20_000 {
        let kind = random.pick(&Kind::ALL);
        let [file, other] = [(); 2].map(|()| generate::valid(&mut random, kind, Size::Small));
        met[kind.number(&generate::mutated(&mut random, &file, &other))] += 1;
    }
    assert!(met.iter().enumerate().all(|(number, &times)| number == 5 || times > 0), "{met:?}");
}

/// The rows of a property with operator 10.
fn wide_boxes(property: &[u8]) -> usize {
    property.chunks(6).filter(|row| row[1] == 10).count()
}

#[test]
fn some_properties_have_boxes_over_every_label() {
    let mut random = Random::new(10);
    let sources: [fn(&mut Random) -> Vec<u8>; 4] = [
        |random| generate::property(random, Size::Small),
        |random| generate::property(random, Size::Large),
        |random| generate::graded(random, Size::Small).1,
        |random| generate::composition(random).0[3].clone(),
    ];
    for property in sources {
        let met = (0..2_000).filter(|_| wide_boxes(&property(&mut random)) > 0).count();
        assert!((400..=1_100).contains(&met), "{met}");
    }
}

#[test]
fn a_box_over_every_label_is_written_out_as_nine() {
    let mut random = Random::new(11);
    let ends = [[3, 10, 1, 0, 0, 0], [3, 5, 0, 0, 0, 0]];
    let boxes = (0..9).map(|label| [3, 9, label, 1, 0, 0]);
    let ands = (3..10).map(|of| [3, 7, of, if of < 9 { of + 9 } else { 10 }, 0, 0]);
    let expected: Vec<u8> =
        [[3, 7, 2, 11, 0, 0], ends[1]].into_iter().chain(boxes).chain(ands).flatten().collect();
    assert_eq!(generate::written_out(&mut random, &ends.concat()), Some(expected));
    for rows in 1..=32 {
        let property = [3, 10, 0, 0, 0, 0].repeat(rows);
        let Some(written_out) = generate::written_out(&mut random, &property) else {
            assert!(rows > 16, "{rows}");
            continue;
        };
        assert_eq!(Kind::Property.number(&written_out), 0, "{written_out:?}");
        assert_eq!(written_out.len(), property.len() + 16 * 6);
        assert_eq!(wide_boxes(&written_out), rows - 1);
    }
    assert_eq!(generate::written_out(&mut random, &ends[1]), None);
}

#[test]
fn the_dense_line_fails_from_its_end_to_its_entry() {
    let records = |property: Vec<u8>| match judge(
        &Limits::DESK,
        &dense_line(16),
        &property,
        usize::MAX,
        0,
        0,
    ) {
        Outcome::Said { verdict: 2, values, .. } => values[0],
        outcome => panic!("{outcome:?}"),
    };
    let written_out = generate::written_out(&mut Random::new(0), &never_a_return());
    let nine_boxes = written_out.expect("a box over every label, and room");
    // For each step a box and an "and" row; the literal.
    assert_eq!(records(never_a_return()), 2 * 255 + 1);
    // The box of the last label has eight "and" rows above it.
    assert_eq!(records(nine_boxes), (8 + 1 + 1) * 255 + 1);
    // Rounds of 30 boxes and an "and" row, until all steps are taken.
    assert_eq!(records(any_label_cycle()), 9 * 31 + 1);
}
