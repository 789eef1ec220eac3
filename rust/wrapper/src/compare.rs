//! Comparing: does the second graph simulate the first, and by which largest relation?

use crate::boundary::{Answer, OnTwoFiles};
use crate::refusal::Refusal;

extern "C" {
    fn tintboulder_compare(
        first: *const u8,
        first_length: usize,
        second: *const u8,
        second_length: usize,
        out: *mut u8,
        out_length: usize,
        work: *mut u8,
        work_length: usize,
    ) -> Answer;
}

/// Comparing as a call, for its published length and the answer as six numbers.
// Safe: it is a function of the boundary, and 2 is its number there.
pub const COMPARE: OnTwoFiles = unsafe { OnTwoFiles::new(tintboulder_compare, 2) };

/// The relation stands at the start of the output either way: 32 bytes for each node of the first graph.
#[derive(Clone, Copy, Debug, PartialEq, Eq)]
pub enum Compared {
    Yes,
    /// The lowest entry of the first graph without a related entry.
    No {
        entry: u64,
    },
}

/// Compares the graphs with buffers that the caller lends; see [`Buffers::compare`](crate::Buffers::compare). The work buffer is zero afterwards,
/// except after refusal 13.
pub fn compare(
    first: &[u8],
    second: &[u8],
    out: &mut [u8],
    work: &mut [u8],
) -> Result<Compared, Refusal> {
    let answer = COMPARE.answer([first, second], out, work).accepted()?;
    match answer.verdict {
        1 => Ok(Compared::Yes),
        _ => Ok(Compared::No { entry: answer.first }),
    }
}

#[cfg(test)]
mod tests {
    use super::{compare, Compared, Refusal, COMPARE};
    use crate::refusal::Reason::{PastTheLast, ShortOutput, ShortWork};

    const CYCLE: &[u8] = &[1, 1, 0, 1, 0, 0, 1, 1, 0, 1, 0, 0, 2, 0, 0, 1, 0, 0, 2, 1, 0, 0, 0, 0];
    const SELF_LOOP: &[u8] = &[1, 1, 0, 1, 0, 0, 2, 0, 0, 0, 0, 0];
    const EDGELESS: &[u8] = &[1, 1, 0, 1, 0, 0];

    /// Compares with so many bytes of output and of work, all of them 7 before; checks the work buffer, and returns the output.
    fn compared(
        files: [&[u8]; 2],
        out: usize,
        work: usize,
    ) -> (Result<Compared, Refusal>, Vec<u8>) {
        let (mut out, mut work) = (vec![7; out], vec![7; work]);
        let answer = compare(files[0], files[1], &mut out, &mut work);
        let left = if answer.is_err_and(|refusal| refusal.reason == ShortWork) { 7 } else { 0 };
        assert!(work.iter().all(|&byte| byte == left));
        (answer, out)
    }

    /// A line of the relation in which only nodes below 8 are related.
    fn line(first: u8) -> Vec<u8> {
        [vec![first], vec![0; 31]].concat()
    }

    #[test]
    fn cycle_and_self_loop_simulate_each_other() {
        let (answer, out) = compared([CYCLE, SELF_LOOP], 65, COMPARE.work());
        assert_eq!((answer, out), (Ok(Compared::Yes), [line(1), line(1), vec![7]].concat()));
        let (answer, out) = compared([SELF_LOOP, CYCLE], 32, COMPARE.work() + 1);
        assert_eq!((answer, out), (Ok(Compared::Yes), line(3)));
    }

    #[test]
    fn edgeless_entry_does_not_simulate() {
        let (answer, out) = compared([SELF_LOOP, EDGELESS], 32, COMPARE.work());
        assert_eq!((answer, out), (Ok(Compared::No { entry: 0 }), line(0)));
    }

    #[test]
    fn refusals_leave_the_output() {
        let refused = |reason, file| Err(Refusal { reason, file, record: 0 });
        let files = [CYCLE, SELF_LOOP];
        assert_eq!(compared(files, 63, COMPARE.work()), (refused(ShortOutput, 0), vec![7; 63]));
        assert_eq!(compared(files, 64, COMPARE.work() - 1), (refused(ShortWork, 0), vec![7; 64]));
        let files = [EDGELESS, &SELF_LOOP[6..]];
        assert_eq!(compared(files, 0, COMPARE.work()), (refused(PastTheLast, 2), vec![]));
    }
}
