//! Watching in both implementations, and the runs that it is compared on.

use crate::calls::Call;
use crate::case::{buffers, Input};
use generator::generate::{self, Kind, Random, Size};
use second::Limits;
use tintboulder::{watch_answer, watch_work};

pub const CALL: Call = Call {
    name: "watch",
    rooms: &[watch_work],
    proved: |input, out, work| {
        let [work] = buffers(work);
        watch_answer(input.files(), input.start(), out, work)
    },
    second: |input, out, work| {
        let [interface, graph, rules] = input.files();
        let (limits, start) = (&Limits::DESK, input.start());
        second::watch(limits, interface, graph, rules, start, out, work[0], watch_work())
    },
    input,
    cases: 2,
    claim: None,
};

/// One graph in 128 is large, where the second implementation takes milliseconds, and in one input of eight a file is damaged.
fn input(random: &mut Random) -> Input {
    let size = if random.once_in(128) { Size::Large } else { Size::Small };
    let (mut files, start) = generate::runs(random, size);
    if random.once_in(8) {
        let kinds = [Kind::Interface, Kind::Graph, Kind::Rules];
        let at = random.below(kinds.len());
        files[at] = generate::damaged(random, kinds[at], Size::Small);
    }
    Input { files: files.into(), number: start.into() }
}
