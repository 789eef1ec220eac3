//! Showing: the record of a joined node, in the file it came from.

use crate::boundary::Answer;
use crate::refusal::Refusal;

extern "C" {
    fn tintboulder_show(
        graph1: *const u8,
        graph1_length: usize,
        graph2: *const u8,
        graph2_length: usize,
        number: u64,
        out: *mut u8,
        out_length: usize,
    ) -> Answer;
}

/// The record of the node of this number: those of the first graph come first, then those of the second.
///
/// ```
/// use tintboulder::{show, Reason};
/// let (graph1, graph2) = ([1, 1, 0, 1, 0, 0], [1, 2, 1, 1, 0, 0]);
/// assert_eq!(show(&graph1, &graph2, 1), Ok(graph2));
/// let refusal = show(&graph1, &graph2, 2).unwrap_err();
/// assert_eq!(refusal.reason, Reason::PastTheLast);
/// ```
pub fn show(graph1: &[u8], graph2: &[u8], number: u64) -> Result<[u8; 6], Refusal> {
    let mut record = [0; 6];
    show_answer([graph1, graph2], number, &mut record).accepted()?;
    Ok(record)
}

/// The answer as it comes. An output shorter than the six bytes is refused by 12, after all else.
pub fn show_answer(graphs: [&[u8]; 2], number: u64, out: &mut [u8]) -> Answer {
    let [graph1, graph2] = graphs;
    // Safe: each pointer goes with its own length, and what is written overlaps nothing, since its borrow is exclusive.
    unsafe {
        tintboulder_show(
            graph1.as_ptr(),
            graph1.len(),
            graph2.as_ptr(),
            graph2.len(),
            number,
            out.as_mut_ptr(),
            out.len(),
        )
    }
}

#[cfg(test)]
mod tests {
    use super::{show, show_answer, Refusal};
    use crate::refusal::Reason::{Length, PastTheLast};

    const FIRST: &[u8] = &[1, 1, 0, 1, 0, 0, 2, 0, 0, 0, 0, 0];
    const SECOND: &[u8] = &[1, 1, 1, 0, 0, 0, 1, 2, 0, 0, 0, 0];

    #[test]
    fn numbers_go_through_both_files() {
        let shown: Vec<_> = (0..3).map(|number| show(FIRST, SECOND, number)).collect();
        assert_eq!(
            shown,
            [[1, 1, 0, 1, 0, 0], [1, 1, 1, 0, 0, 0], [1, 2, 0, 0, 0, 0]].map(Ok::<_, Refusal>)
        );
    }

    #[test]
    fn what_is_not_there_is_refused() {
        let refused = |reason, file| Err(Refusal { reason, file, record: 0 });
        for number in [3, u64::MAX] {
            assert_eq!(show(FIRST, SECOND, number), refused(PastTheLast, 0));
        }
        assert_eq!(show(FIRST, &SECOND[..5], 0), refused(Length, 2));
        let mut out = [7; 5];
        let answer = show_answer([FIRST, SECOND], 0, &mut out);
        assert_eq!((answer.verdict, answer.number, out), (0, 12, [7; 5]));
    }
}
