//! Modelling in both implementations, and the pairs of files that it is compared on.

use crate::calls::{on_two_files, Call};
use generator::generate::{self, Kind, Random, Size};
use second::Limits;
use tintboulder::MODEL;

pub const CALL: Call = Call {
    name: "model",
    rooms: &[|| MODEL.work()],
    proved: |input, out, work| on_two_files(MODEL, input, out, work),
    second: |input, out, work| {
        let [interface, property] = input.files();
        second::model(&Limits::DESK, interface, property, out, work[0], MODEL.work())
    },
    input: |random| files(random).into(),
    cases: 1,
    claim: None,
};

/// One interface in sixteen and one property in eight is damaged; one property in eight is large, where most models pass the limits.
fn files(random: &mut Random) -> [Vec<u8>; 2] {
    let size = if random.once_in(8) { Size::Large } else { Size::Small };
    let interface = match random.once_in(16) {
        true => generate::damaged(random, Kind::Interface, Size::Small),
        false => generate::valid(random, Kind::Interface, Size::Small),
    };
    let property = match random.once_in(8) {
        true => generate::damaged(random, Kind::Property, size),
        false => generate::valid(random, Kind::Property, size),
    };
    [interface, property]
}
