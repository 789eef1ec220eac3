//! What the generator promises of files of deliveries.

use generator::deliveries::{self, cut, delivery, standing};
use generator::generate::{mutated, Random, Size};
use second::record::Limits;
use second::{assemble, Outcome};

/// The number that refuses a file, or 0.
fn number(file: &[u8]) -> usize {
    match assemble(&Limits::DESK, file, usize::MAX) {
        Outcome::Said { .. } => 0,
        Outcome::Refused(refusal) => refusal.number.into(),
    }
}

#[test]
fn valid_files_are_assembled_or_refused_by_11() {
    let mut random = Random::new(1);
    let (mut refused, mut old, mut empty) = (0, 0, 0);
    for round in 0..4_000 {
        let size = if round % 16 == 0 { Size::Large } else { Size::Small };
        let file = deliveries::valid(&mut random, size);
        match number(&file) {
            0 => {}
            11 if size == Size::Large => refused += 1,
            other => panic!("{other} {file:?}"),
        }
        let (all, standing) = (cut(&file), standing(&file));
        assert_eq!(all.concat(), file);
        old += usize::from(standing.len() < all.len());
        empty += usize::from(standing.iter().any(|part| part.len() == 6));
    }
    assert!(refused > 20 && old > 1_000 && empty > 500, "{refused} {old} {empty}");
}

#[test]
fn damaged_and_mutated_files_meet_every_number() {
    let mut random = Random::new(2);
    let mut met = [[0; 15]; 2];
    for _ in 0..10_000 {
        let file = deliveries::damaged(&mut random);
        met[0][number(&file)] += 1;
        let [file, other] = [(); 2].map(|()| deliveries::valid(&mut random, Size::Small));
        met[1][number(&mutated(&mut random, &file, &other))] += 1;
    }
    let [damaged, mutated] = met;
    assert!([0, 1, 2, 3, 4, 5, 7, 8, 14].iter().all(|&at| damaged[at] > 100), "{damaged:?}");
    assert!([0, 1, 2, 3, 4, 7, 8, 14].iter().all(|&at| mutated[at] > 10), "{mutated:?}");
}

#[test]
fn further_deliveries_are_older_equal_or_newer() {
    let mut random = Random::new(3);
    let mut met = [0; 3];
    for _ in 0..3_000 {
        let file = deliveries::valid(&mut random, Size::Small);
        let further = deliveries::further(&mut random, &file);
        let longer = [&file[..], &further].concat();
        let case = match number(&longer) {
            14 => 0,
            0 => 1 + usize::from(standing(&longer).concat() != standing(&file).concat()),
            other => panic!("{other} {longer:?}"),
        };
        met[case] += 1;
    }
    assert!(met.iter().all(|&times| times > 300), "{met:?}");
}

#[test]
fn the_highest_revision_stands() {
    let [first, second, third] = [(2, 1), (1, 7), (2, 3)].map(|issue| delivery(issue, &[]));
    let file = [&first[..], &second, &third].concat();
    assert_eq!(cut(&file), [&first, &second, &third]);
    assert_eq!(standing(&file), [&second, &third]);
    assert!(cut(&[]).is_empty());
}
