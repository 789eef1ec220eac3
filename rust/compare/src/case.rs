//! One case of a call that is lent an output and perhaps work buffers, and all that the call may change.

use crate::report::records;
use generator::generate::Random;
use std::iter;
use tintboulder::Answer;

/// Bytes on each side of a lent buffer that nobody may touch.
const MARGIN: usize = 64;
const SHORT_WORK: u32 = 13;

/// The files of a call, and the number of a node or the start method where it takes one.
#[derive(Clone, PartialEq)]
pub struct Input {
    pub files: Vec<Vec<u8>>,
    pub number: usize,
}

/// What the call is about, the lengths of the output and of each work buffer, and the seed of all that stands in them and around them.
#[derive(Clone, PartialEq)]
pub struct Case {
    pub input: Input,
    pub out: usize,
    pub work: Vec<usize>,
    pub seed: u64,
}

/// The output and the work buffers with their margins.
#[derive(Clone)]
pub struct Lent {
    out: Vec<u8>,
    work: Vec<Vec<u8>>,
}

/// What can be seen after a call.
pub struct Seen {
    pub answer: Answer,
    lent: Lent,
}

impl<const N: usize> From<[Vec<u8>; N]> for Input {
    fn from(files: [Vec<u8>; N]) -> Input {
        Input { files: files.into(), number: 0 }
    }
}

impl Input {
    /// The files, as many as the call takes.
    pub fn files<const N: usize>(&self) -> [&[u8]; N] {
        std::array::from_fn(|at| self.files[at].as_slice())
    }

    /// The number as a start method.
    pub fn start(&self) -> u8 {
        self.number as u8
    }

    /// The files in decimals, and the number.
    pub fn listed(&self) -> String {
        let files = self.files.iter().zip(1..);
        let files = files.map(|(bytes, at)| format!("file {at}:\n{}", records(bytes)));
        format!("{}number {}", files.collect::<String>(), self.number)
    }
}

impl Case {
    pub fn lent(&self) -> Lent {
        let mut random = Random::new(self.seed);
        let mut buffer = |length: usize| random.bytes(length + 2 * MARGIN);
        Lent { out: buffer(self.out), work: self.work.iter().map(|&work| buffer(work)).collect() }
    }

    pub fn with_file(&self, at: usize, bytes: &[u8]) -> Case {
        let mut case = self.clone();
        case.input.files[at] = bytes.to_vec();
        case
    }

    pub fn with_number(&self, number: usize) -> Case {
        let mut case = self.clone();
        case.input.number = number;
        case
    }

    pub fn with_work(&self, at: usize, length: usize) -> Case {
        let mut case = self.clone();
        case.work[at] = length;
        case
    }
}

/// Output from nothing to past the need.
pub fn out_length(random: &mut Random, need: usize) -> usize {
    match random.below(8) {
        0 => random.below(need + 1),
        1 => need.saturating_sub(1),
        2 => need + 1 + random.below(64),
        3 => need + random.below(4096),
        _ => need,
    }
}

/// The published lengths, but seldom a shorter buffer or a longer one.
pub fn work_lengths(random: &mut Random, rooms: &[fn() -> usize]) -> Vec<usize> {
    let mut lengths: Vec<usize> = rooms.iter().map(|room| room()).collect();
    if let Some(last) = lengths.len().checked_sub(1) {
        let length = &mut lengths[random.below(last + 1)];
        *length = match (*length, random.below(16)) {
            (room, 0) => random.below(room),
            (room, 1) => room - 1,
            (room, 2 | 3) => room + random.below(4096),
            (room, _) => room,
        };
    }
    lengths
}

/// The work buffers, as many as the call is lent.
pub fn buffers<'a, 'b, const N: usize>(work: &'a mut [&'b mut [u8]]) -> &'a mut [&'b mut [u8]; N] {
    work.try_into().expect("a buffer for each published length")
}

impl Lent {
    /// What the call leaves that is lent these buffers.
    pub fn after(mut self, call: impl FnOnce(&mut [u8], &mut [&mut [u8]]) -> Answer) -> Seen {
        let mut work: Vec<&mut [u8]> = self.work.iter_mut().map(|buffer| inner(buffer)).collect();
        let answer = call(inner(&mut self.out), &mut work);
        Seen { answer, lent: self }
    }

    /// What is to be seen after a call with this answer: the result at the start of the output, and zeros in the work buffers except after 13.
    pub fn after_result(self, answer: Answer, written: &[u8]) -> Seen {
        self.after(|out, work| {
            out[..written.len()].copy_from_slice(written);
            if answer.number != SHORT_WORK {
                work.iter_mut().for_each(|buffer| buffer.fill(0));
            }
            answer
        })
    }

    /// The output, then the work buffers.
    fn buffers(&self) -> impl Iterator<Item = &Vec<u8>> {
        iter::once(&self.out).chain(&self.work)
    }
}

fn inner(buffer: &mut [u8]) -> &mut [u8] {
    let end = buffer.len() - MARGIN;
    &mut buffer[MARGIN..end]
}

impl Seen {
    /// The output without its margins.
    pub fn output(&self) -> &[u8] {
        let out = &self.lent.out;
        &out[MARGIN..out.len() - MARGIN]
    }

    /// The first thing in which the two differ, in words.
    pub fn difference(&self, expected: &Seen) -> Option<String> {
        if self.answer != expected.answer {
            return Some(format!("seen: {:?}\nexpected: {:?}", self.answer, expected.answer));
        }
        let mut pairs = self.lent.buffers().zip(expected.lent.buffers()).enumerate();
        pairs.find_map(|(buffer, (seen, expected))| {
            // Whole buffers first: they are equal but for the last case of a run.
            let at = (seen != expected).then(|| (0..).find(|&at| seen[at] != expected[at]))??;
            let name = if buffer == 0 { "output".into() } else { format!("work {buffer}") };
            let place = at as i64 - MARGIN as i64;
            let (seen, expected) = (seen[at], expected[at]);
            Some(format!("{name} byte {place} is {seen}; expected is {expected}"))
        })
    }
}

#[cfg(test)]
mod tests {
    use super::{inner, Case, Input, Lent, Seen, MARGIN, SHORT_WORK};
    use tintboulder::Answer;

    fn case() -> Case {
        let input = Input { files: Vec::new(), number: 0 };
        Case { input, out: 3, work: vec![5, 4], seed: 1 }
    }

    fn seen(number: u32, written: &[u8]) -> Seen {
        let answer = Answer { verdict: 2, number, first: 1, second: 0, third: 0, fourth: 0 };
        case().lent().after_result(answer, written)
    }

    #[test]
    fn result_is_written_and_work_is_cleared() {
        let (mut before, mut after) = (case().lent(), seen(0, &[1, 2]));
        let last = inner(&mut before.out)[2];
        assert_eq!(inner(&mut after.lent.out), [1, 2, last]);
        assert_eq!(inner(&mut after.lent.work[0]), [0; 5]);
        assert_eq!(inner(&mut after.lent.work[1]), [0; 4]);
        assert_eq!(seen(SHORT_WORK, &[]).lent.work, before.work);
    }

    #[test]
    fn every_byte_and_number_counts() {
        let expected = seen(0, &[1, 2]);
        assert_eq!(seen(0, &[1, 2]).difference(&expected), None);
        assert!(seen(1, &[1, 2]).difference(&expected).is_some());
        for (buffer, length) in [3, 5, 4].into_iter().enumerate() {
            for at in 0..length + 2 * MARGIN {
                let mut other = seen(0, &[1, 2]);
                let Lent { out, work } = &mut other.lent;
                let [store, work] = &mut work[..] else { panic!("two work buffers") };
                [out, store, work][buffer][at] ^= 1;
                assert!(other.difference(&expected).is_some(), "buffer {buffer} byte {at}");
            }
        }
    }
}
