//! Comparing graphs in both implementations, and the pairs of graphs on which that is done.

use crate::calls::{on_two_files, Call};
use generator::families::hard_pair;
use generator::generate::{self, Kind, Random, Size};
use second::Limits;
use tintboulder::COMPARE;

pub const CALL: Call = Call {
    name: "compare",
    rooms: &[|| COMPARE.work()],
    proved: |input, out, work| on_two_files(COMPARE, input, out, work),
    second: |input, out, work| {
        let [first, second] = input.files();
        second::compare(&Limits::DESK, first, second, out, work[0], COMPARE.work())
    },
    input: |random| files(random).into(),
    cases: 1,
    claim: None,
};

/// Half of the pairs differ by an edge at most, one file in eight is damaged, one pair in 64 is large, and one is hard: the second implementation takes milliseconds there.
fn files(random: &mut Random) -> [Vec<u8>; 2] {
    if random.once_in(64) {
        return hard_pair(random);
    }
    let size = if random.once_in(64) { Size::Large } else { Size::Small };
    if random.once_in(2) {
        let whole = alike(random, size);
        let part = generate::without_an_edge(random, &whole);
        return if random.once_in(2) { [whole, part] } else { [part, whole] };
    }
    [(); 2].map(|()| match random.below(8) {
        0 => generate::damaged(random, Kind::Graph, size),
        _ => alike(random, size),
    })
}

/// A graph of few methods and labels, so that many of its nodes are related.
fn alike(random: &mut Random, size: Size) -> Vec<u8> {
    let provided = random.pick(&[1, 1, 3, u8::MAX]);
    let required = random.pick(&[0, 1, u8::MAX]);
    generate::graph_of(random, size, provided, required)
}
