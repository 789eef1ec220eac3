//! Joining in both implementations, and the sides that it is compared on.

use crate::calls::Call;
use generator::generate::{self, Kind, Random, Sides, Size};
use second::Limits;
use tintboulder::join_answer;

pub const CALL: Call = Call {
    name: "join",
    rooms: &[],
    proved: |input, out, _| join_answer(input.files(), out),
    second: |input, out, _| {
        let [interface1, graph1, interface2, graph2] = input.files();
        second::join(&Limits::DESK, interface1, graph1, interface2, graph2, out)
    },
    input: |random| files(random).into(),
    cases: 2,
    claim: None,
};

/// One pair in sixteen is about as large as a joined graph may be, and in one of six a file is damaged.
fn files(random: &mut Random) -> Sides {
    let mut files = match random.once_in(16) {
        true => generate::sides_at_the_limits(random),
        false => generate::sides(random),
    };
    if random.once_in(6) {
        let kind = random.pick(&[Kind::Interface, Kind::Graph]);
        let first = usize::from(kind == Kind::Graph);
        files[first + 2 * random.below(2)] = generate::damaged(random, kind, Size::Small);
    }
    files
}
