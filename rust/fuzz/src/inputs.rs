//! What a call is given: files that are mostly accepted, mutated ones, files of other kinds and any bytes; any number, and any lengths of the lent buffers.

use crate::promises::LONG;
use crate::target::Target;
use compare::case::{out_length, work_lengths, Case};
use compare::Input;
use generator::generate::{mutated, Random};

/// More bytes than any file that is accepted has, but for deliveries.
const LONGEST_FILE: usize = 60_000;

/// Half of the inputs have one or two mutated files, and in one of sixteen a file is any bytes or one of another place. One number in four is any.
pub fn input(random: &mut Random, target: &Target) -> Input {
    let mut input = (target.input)(random);
    let others = (target.input)(random).files;
    let count = others.len();
    let [at, other] = [(); 2].map(|()| random.below(count));
    match random.below(16) {
        0..6 => input.files[at] = mutated(random, &input.files[at], &others[at]),
        6 | 7 => {
            for at in [at, other] {
                input.files[at] = mutated(random, &input.files[at], &others[other]);
            }
        }
        8 => input.files[at] = foreign(random, &others[other]),
        _ => {}
    }
    if random.once_in(4) {
        let any = random.number() as usize;
        input.number = random.pick(&[any, any % 256]);
    }
    input
}

/// A file of some place of the call, or any bytes, seldom very many.
fn foreign(random: &mut Random, other: &[u8]) -> Vec<u8> {
    let length = match random.below(8) {
        0..4 => return other.to_vec(),
        4 => random.below(LONGEST_FILE),
        _ => random.below(64),
    };
    random.bytes(length)
}

/// Lengths from nothing to past what the call needs.
pub fn case(random: &mut Random, target: &Target, input: Input) -> Case {
    let rooms = target.rooms.iter().map(|room| room()).collect();
    let roomy = Case { input, out: LONG, work: rooms, seed: random.number() };
    let need = match target.seen(&roomy) {
        Ok(seen) if seen.answer.verdict != 0 => target.bytes(&roomy.input, &seen.answer),
        _ => 0,
    };
    let mut work = work_lengths(random, target.rooms);
    if let (Some(first), true) = (work.first_mut(), random.once_in(64)) {
        *first = random.below(2);
    }
    let out = out_length(random, need.min(LONG as u64) as usize);
    Case { out, work, ..roomy }
}
