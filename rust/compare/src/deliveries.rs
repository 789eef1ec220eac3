//! Assembling and judging deliveries in both implementations, and the files that they are compared on.

use crate::calls::Call;
use crate::case::buffers;
use crate::standing::{ASSEMBLED, LEFT_STANDING};
use generator::deliveries;
use generator::generate::{self, Kind, Random, Size};
use second::Limits;
use tintboulder::{assemble_answer, judge_deliveries_answer};
use tintboulder::{judge_deliveries_store, judge_deliveries_work};

pub const ASSEMBLE: Call = Call {
    name: "assemble",
    rooms: &[],
    proved: |input, out, _| assemble_answer(&input.files[0], out),
    second: |input, out, _| second::assemble(&Limits::DESK, &input.files[0], out),
    input: |random| [file(random)].into(),
    cases: 2,
    claim: Some(LEFT_STANDING),
};

pub const JUDGE: Call = Call {
    name: "judge-deliveries",
    rooms: &[judge_deliveries_store, judge_deliveries_work],
    proved: |input, out, work| {
        let [store, work] = buffers(work);
        judge_deliveries_answer(input.files(), out, store, work)
    },
    second: |input, out, work| {
        let [deliveries, property] = input.files();
        let lent = [(work[0], judge_deliveries_store()), (work[1], judge_deliveries_work())];
        second::judge_deliveries(&Limits::DESK, deliveries, property, out, lent)
    },
    input: |random| files(random).into(),
    cases: 1,
    claim: Some(ASSEMBLED),
};

/// One file in three is damaged, and one in 32 large.
fn file(random: &mut Random) -> Vec<u8> {
    match random.below(96) {
        0..3 => deliveries::valid(random, Size::Large),
        3..35 => deliveries::damaged(random),
        _ => deliveries::valid(random, Size::Small),
    }
}

/// One pair in four has a graph for the ranks of "or" rows, which mostly stands as the last revision of method 1; of the other properties one in sixteen is damaged,
/// and one large.
fn files(random: &mut Random) -> [Vec<u8>; 2] {
    if random.once_in(4) {
        let (graph, property) = generate::graded(random, Size::Small);
        let others = deliveries::valid(random, Size::Small);
        return [[others, deliveries::delivery((1, 255), &graph)].concat(), property];
    }
    let property = match random.below(16) {
        0 => generate::damaged(random, Kind::Property, Size::Small),
        1 => generate::property(random, Size::Large),
        _ => generate::property(random, Size::Small),
    };
    [file(random), property]
}

#[cfg(test)]
mod tests {
    use super::{Call, ASSEMBLE, JUDGE};
    use crate::Input;

    /// Two revisions of method 1, the higher one first, and one of method 2.
    const DELIVERIES: [[u8; 6]; 9] = [
        [6, 1, 2, 0, 0, 0],
        [1, 1, 0, 1, 0, 0],
        [1, 1, 1, 0, 0, 0],
        [2, 0, 2, 1, 0, 0],
        [6, 1, 1, 0, 0, 0],
        [1, 1, 1, 1, 0, 0],
        [6, 2, 1, 0, 0, 0],
        [1, 2, 0, 1, 0, 0],
        [2, 0, 0, 0, 0, 0],
    ];
    const IN_ONE: [u8; 6] = [3, 3, 1, 0, 0, 0];

    /// Both implementations answer and write the same where there is room; the answer's number.
    fn number_of_both(call: &Call, input: &Input) -> u32 {
        let (answer, written) = call.result(input);
        let mut out = vec![0; written.len()];
        let mut work: Vec<Vec<u8>> = call.rooms.iter().map(|room| vec![0; room()]).collect();
        let mut work: Vec<&mut [u8]> = work.iter_mut().map(Vec::as_mut_slice).collect();
        let seen = (call.proved)(input, &mut out, &mut work);
        assert_eq!((seen, out), (answer, written), "{}: {}", call.name, input.listed());
        answer.number
    }

    #[test]
    fn every_byte_may_be_any() {
        let good = DELIVERIES.concat();
        for (at, byte) in (0..good.len()).flat_map(|at| (0..=255).map(move |byte| (at, byte))) {
            let mut file = good.clone();
            file[at] = byte;
            number_of_both(&JUDGE, &[file.clone(), IN_ONE.to_vec()].into());
            number_of_both(&ASSEMBLE, &[file].into());
        }
    }

    #[test]
    fn files_may_be_long() {
        let openings = [6, 1, 1, 0, 0, 0].repeat(100_000);
        let mut ends_with_a_row = [6, 1, 1, 0, 0, 0].repeat(1 << 20);
        ends_with_a_row[6 * ((1 << 20) - 1)] = 3;
        for (file, number) in [(openings, 14), (ends_with_a_row, 2)] {
            let input = [file.clone(), IN_ONE.to_vec()].into();
            assert_eq!(number_of_both(&JUDGE, &input), number);
            assert_eq!(number_of_both(&ASSEMBLE, &[file].into()), number);
        }
    }
}
