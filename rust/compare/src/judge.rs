//! Judging in both implementations, and the pairs of files that it is compared on.

use crate::calls::{on_two_files, Call};
use crate::claims::NINE_BOXES;
use generator::generate::{self, Kind, Random, Size};
use second::Limits;
use tintboulder::JUDGE;

pub const CALL: Call = Call {
    name: "judge",
    rooms: &[|| JUDGE.work()],
    proved: |input, out, work| on_two_files(JUDGE, input, out, work),
    second: |input, out, work| {
        let [graph, property] = input.files();
        second::judge(&Limits::DESK, graph, property, out, work[0], JUDGE.work())
    },
    input: |random| files(random).into(),
    cases: 1,
    claim: Some(NINE_BOXES),
};

/// One pair in four is about the ranks of "or" rows; of the others one file in six is damaged, and one pair in sixteen is large.
fn files(random: &mut Random) -> [Vec<u8>; 2] {
    let size = if random.once_in(16) { Size::Large } else { Size::Small };
    if random.once_in(4) {
        return generate::graded(random, size).into();
    }
    [Kind::Graph, Kind::Property].map(|kind| match random.once_in(6) {
        true => generate::damaged(random, kind, size),
        false => generate::valid(random, kind, size),
    })
}
