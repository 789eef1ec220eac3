//! What showing is timed on: checking both graphs is nearly all of it.

use crate::growth::{series, Series, EDGES};
use crate::inputs::{graph, largest_graph, timed, typical_graph, Timed};
use compare::Input;
use generator::generate::Random;

pub fn inputs() -> Vec<Timed> {
    let mut random = Random::new(1);
    let typical = [typical_graph(&mut random), typical_graph(&mut random)];
    let largest = [largest_graph(&mut random), largest_graph(&mut random)];
    vec![
        shown("node 0 of 40 + 40", &typical, 0),
        shown("node 79 of 40 + 40", &typical, 79),
        shown("node 511 of 256 + 256", &largest, 511),
        shown("node 512 of 256 + 256", &largest, 512),
    ]
}

fn shown(name: &str, graphs: &[Vec<u8>; 2], number: usize) -> Timed {
    timed(name, Input { files: graphs.to_vec(), number })
}

pub fn growth() -> Vec<Series> {
    let mut random = Random::new(1);
    let last = |edges| {
        let files = (0..2).map(|_| graph(&mut random, 128, edges)).collect();
        Input { files, number: 255 }
    };
    vec![series("node 255 of 128 + 128", "edges each", &EDGES[..4], last)]
}
