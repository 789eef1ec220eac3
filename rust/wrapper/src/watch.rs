//! Watching: does some run of a graph take a monitor to its bad state?

use crate::boundary::{work_of, Answer};
use crate::refusal::Refusal;

extern "C" {
    fn tintboulder_watch(
        interface: *const u8,
        interface_length: usize,
        graph: *const u8,
        graph_length: usize,
        rules: *const u8,
        rules_length: usize,
        start: u8,
        out: *mut u8,
        out_length: usize,
        work: *mut u8,
        work_length: usize,
    ) -> Answer;
}

#[derive(Clone, Copy, Debug, PartialEq, Eq)]
pub enum Watched {
    Clean,
    /// The trail stands at the start of the output, in so many records.
    Bad {
        records: u64,
    },
}

impl Watched {
    pub(crate) fn of(answer: Answer) -> Result<Watched, Refusal> {
        let answer = answer.accepted()?;
        match answer.verdict {
            1 => Ok(Watched::Clean),
            2 => Ok(Watched::Bad { records: answer.first }),
            other => unreachable!("watching has no verdict {other}"),
        }
    }

    /// Records of the trail: none if all is clean.
    pub fn records(&self) -> u64 {
        match *self {
            Watched::Clean => 0,
            Watched::Bad { records } => records,
        }
    }
}

/// The published length of the work buffer. A shorter one is refused by 13.
pub fn watch_work() -> usize {
    work_of(6)
}

/// Watches the runs from the start method with buffers that the caller lends; see [`Buffers::watch`](crate::Buffers::watch). The work buffer is zero afterwards,
/// except after refusal 13.
pub fn watch(
    interface: &[u8],
    graph: &[u8],
    rules: &[u8],
    start: u8,
    out: &mut [u8],
    work: &mut [u8],
) -> Result<Watched, Refusal> {
    Watched::of(watch_answer([interface, graph, rules], start, out, work))
}

/// The answer as it comes; the files are in the order of `watch`.
pub fn watch_answer(files: [&[u8]; 3], start: u8, out: &mut [u8], work: &mut [u8]) -> Answer {
    let [interface, graph, rules] = files;
    // Safe: each pointer goes with its own length, and what is written overlaps nothing, since both borrows are exclusive.
    unsafe {
        tintboulder_watch(
            interface.as_ptr(),
            interface.len(),
            graph.as_ptr(),
            graph.len(),
            rules.as_ptr(),
            rules.len(),
            start,
            out.as_mut_ptr(),
            out.len(),
            work.as_mut_ptr(),
            work.len(),
        )
    }
}

#[cfg(test)]
mod tests {
    use super::{watch, watch_work, Refusal, Watched};
    use crate::refusal::Reason::{
        Length, NotOfInterface, NotProvided, Range, ShortOutput, ShortWork,
    };

    const INTERFACE: &[u8] = &[5, 1, 1, 0, 0, 0];
    /// Entry 0 calls its own method, whose other entry returns.
    const GRAPH: [[u8; 6]; 4] =
        [[1, 1, 0, 1, 0, 0], [1, 1, 1, 0, 0, 0], [1, 1, 1, 1, 0, 0], [2, 0, 1, 1, 0, 0]];
    const RULES: &[u8] = &[4, 0, 2, 1, 1, 7];

    /// Watches with so many bytes of output and of work, all of them 7 before; checks the work buffer, and returns the output.
    fn watched(
        files: [&[u8]; 3],
        start: u8,
        out: usize,
        work: usize,
    ) -> (Result<Watched, Refusal>, Vec<u8>) {
        let (mut out, mut work) = (vec![7; out], vec![7; work]);
        let [interface, graph, rules] = files;
        let answer = watch(interface, graph, rules, start, &mut out, &mut work);
        let left = if answer.is_err_and(|refusal| refusal.reason == ShortWork) { 7 } else { 0 };
        assert!(work.iter().all(|&byte| byte == left));
        (answer, out)
    }

    #[test]
    fn published_length() {
        assert_eq!(watch_work(), 46_949);
    }

    #[test]
    fn bad_graph_has_a_trail() {
        let graph = GRAPH.concat();
        let (answer, out) = watched([INTERFACE, &graph, RULES], 1, 14, watch_work() + 1);
        assert_eq!(answer, Ok(Watched::Bad { records: 2 }));
        assert_eq!(out, [0, 0, 0, 0, 0, 0, 0, 0, 3, 1, 1, 7, 7, 7]);
    }

    #[test]
    fn callee_that_never_returns_is_clean() {
        let graph = [GRAPH[0], GRAPH[1], GRAPH[3]].concat();
        let (answer, out) = watched([INTERFACE, &graph, RULES], 1, 3, watch_work());
        assert_eq!((answer, out), (Ok(Watched::Clean), vec![7; 3]));
    }

    #[test]
    fn refusals_leave_the_output() {
        let refused = |reason, file| Err(Refusal { reason, file, record: 0 });
        let graph = GRAPH.concat();
        let files = [INTERFACE, &graph, RULES];
        assert_eq!(watched(files, 1, 11, watch_work()), (refused(ShortOutput, 0), vec![7; 11]));
        assert_eq!(watched(files, 1, 12, watch_work() - 1), (refused(ShortWork, 0), vec![7; 12]));
        for start in [0, 9, 255] {
            assert_eq!(watched(files, start, 12, watch_work()), (refused(Range, 0), vec![7; 12]));
        }
        assert_eq!(watched(files, 2, 12, watch_work()), (refused(NotProvided, 0), vec![7; 12]));
        let files = [&[5, 2, 2, 0, 0, 0], &graph[..], RULES];
        assert_eq!(watched(files, 2, 12, watch_work()), (refused(NotOfInterface, 2), vec![7; 12]));
        let files = [INTERFACE, &graph, &RULES[..5]];
        assert_eq!(watched(files, 0, 12, watch_work()), (refused(Length, 3), vec![7; 12]));
    }
}
