//! Random files: valid ones, small or at the limits, and damaged ones.

pub use crate::composed::{composition, unwritten, Composition};
pub use crate::damage::damaged;
pub use crate::graded::graded;
pub use crate::graphs::{graph, graph_of, scattered, without_an_edge};
pub use crate::mutation::mutated;
pub use crate::properties::{any_rows, chain_of_boxes, property, written_out};
pub use crate::random::Random;
pub use crate::runs::{runs, Runs};
pub use crate::sides::{sides, sides_at_the_limits, Sides};
use second::files;
use second::record::{kind, Limits, BAD, METHODS};
use std::collections::BTreeMap;

pub(crate) const LIMITS: Limits = Limits::DESK;

#[derive(Clone, Copy, Debug, PartialEq, Eq)]
pub enum Size {
    Small,
    Large,
}

#[derive(Clone, Copy, Debug, PartialEq, Eq)]
pub enum Kind {
    Graph,
    Property,
    Rules,
    Interface,
}

impl Kind {
    pub const ALL: [Kind; 4] = [Kind::Graph, Kind::Property, Kind::Rules, Kind::Interface];

    /// The number from 1 to 8 that refuses a file of this kind, or 0.
    pub fn number(self, bytes: &[u8]) -> usize {
        let fault = match self {
            Kind::Graph => files::check_graph(bytes, &LIMITS).err(),
            Kind::Property => files::check_property(bytes, &LIMITS).err(),
            Kind::Rules => files::check_rules(bytes).err(),
            Kind::Interface => files::check_interface(bytes).err(),
        };
        fault.map_or(0, |(number, _)| usize::from(number))
    }
}

/// A valid file of the kind.
pub fn valid(random: &mut Random, kind: Kind, size: Size) -> Vec<u8> {
    match kind {
        Kind::Graph => graph(random, size),
        Kind::Property => property(random, size),
        Kind::Rules => rules(random, size),
        Kind::Interface => interface(random),
    }
}

pub fn interface(random: &mut Random) -> Vec<u8> {
    interface_of(random.byte(), random.byte())
}

/// An interface that requires only what it provides.
pub fn closed_interface(random: &mut Random) -> Vec<u8> {
    let provided = random.byte();
    interface_of(provided, provided & random.byte())
}

pub(crate) fn interface_of(provided: u8, required: u8) -> Vec<u8> {
    vec![kind::INTERFACE, provided, required, 0, 0, 0]
}

pub fn rules(random: &mut Random, size: Size) -> Vec<u8> {
    let mut next = BTreeMap::new();
    match (size, random.below(2)) {
        (Size::Small, 0) => {
            for _ in 0..random.below(9) {
                let state = random.pick(&[0, 0, 1, 1, 2, 3, 4, 5, 6]);
                let (event, from, to) = (1 + random.byte() % 2, method(random), method(random));
                next.insert((state, event, from, to), random.pick(&NEXT));
            }
        }
        (Size::Small, _) => {
            let low = |key: &Key| key.0 < 3 && key.2 < 4 && key.3 < 4;
            let anywhere = |key| (key, random.pick(&NEXT));
            next.extend(all_keys().filter(low).map(anywhere));
            next.retain(|_, _| random.once_in(2));
        }
        (Size::Large, 0) => {
            let counted = |key: Key| (key, key.0 + random.below(2) as u8);
            next.extend(all_keys().map(counted));
        }
        (Size::Large, _) => {
            let anywhere = |key| (key, random.byte() % 8);
            next.extend(all_keys().map(anywhere));
            next.retain(|_, _| !random.once_in(4));
        }
    }
    rule_file(next)
}

pub(crate) fn rule_file(next: BTreeMap<Key, u8>) -> Vec<u8> {
    let rule = |((state, event, from, to), next)| [kind::RULE, state, event, from, to, next];
    next.into_iter().flat_map(rule).collect()
}

/// Next states: low ones, which have rules again, and the bad one.
const NEXT: [u8; 10] = [0, 0, 1, 1, 2, 2, 3, 4, BAD as u8, BAD as u8];

/// State, event and two methods.
pub(crate) type Key = (u8, u8, u8, u8);

fn all_keys() -> impl Iterator<Item = Key> {
    let pairs = (1..=METHODS as u8).flat_map(|from| (1..=METHODS as u8).map(move |to| (from, to)));
    let keys = |(from, to)| (0..BAD as u8 * 2).map(move |code| (code / 2, code % 2 + 1, from, to));
    pairs.flat_map(keys)
}

/// Low numbers are frequent, so that rows and graphs speak of the same ones.
pub(crate) fn method(random: &mut Random) -> u8 {
    let bound = random.pick(&[2, 3, METHODS]);
    1 + random.below(bound) as u8
}

pub(crate) fn label(random: &mut Random) -> u8 {
    if random.once_in(2) {
        0
    } else {
        method(random)
    }
}
