//! Joining: what two graphs make together.

use crate::boundary::Answer;
use crate::refusal::Refusal;

extern "C" {
    fn tintboulder_join(
        interface1: *const u8,
        interface1_length: usize,
        graph1: *const u8,
        graph1_length: usize,
        interface2: *const u8,
        interface2_length: usize,
        graph2: *const u8,
        graph2_length: usize,
        out: *mut u8,
        out_length: usize,
    ) -> Answer;
}

/// The joined graph's file stands at the start of the output: 6 bytes for each node, then 6 for each edge. The sets are those of the united interface.
#[derive(Clone, Copy, Debug, PartialEq, Eq)]
pub struct Joined {
    pub nodes: u64,
    pub edges: u64,
    pub provided: u8,
    pub required: u8,
}

impl Joined {
    pub fn records(&self) -> u64 {
        self.nodes + self.edges
    }
}

/// Joins two sides, each of an interface and a graph, with an output that the caller lends; see [`Buffers::join`](crate::Buffers::join).
pub fn join(
    interface1: &[u8],
    graph1: &[u8],
    interface2: &[u8],
    graph2: &[u8],
    out: &mut [u8],
) -> Result<Joined, Refusal> {
    let answer = join_answer([interface1, graph1, interface2, graph2], out).accepted()?;
    let set = |value: u64| value.try_into().expect("a set of methods in a byte");
    let (provided, required) = (set(answer.third), set(answer.fourth));
    Ok(Joined { nodes: answer.first, edges: answer.second, provided, required })
}

/// The answer as it comes; the files are in the order of `join`.
pub fn join_answer(files: [&[u8]; 4], out: &mut [u8]) -> Answer {
    let [interface1, graph1, interface2, graph2] = files;
    // Safe: each pointer goes with its own length, and what is written overlaps nothing, since its borrow is exclusive.
    unsafe {
        tintboulder_join(
            interface1.as_ptr(),
            interface1.len(),
            graph1.as_ptr(),
            graph1.len(),
            interface2.as_ptr(),
            interface2.len(),
            graph2.as_ptr(),
            graph2.len(),
            out.as_mut_ptr(),
            out.len(),
        )
    }
}

#[cfg(test)]
mod tests {
    use super::{join, Joined, Refusal};
    use crate::refusal::Reason::{Empty, NotOfInterface, ShortOutput};

    /// Method 1 calls 2; method 2 calls nothing.
    const FIRST: [&[u8]; 2] = [&[5, 1, 2, 0, 0, 0], &[1, 1, 0, 1, 0, 0, 2, 0, 2, 0, 0, 0]];
    const SECOND: [&[u8]; 2] = [&[5, 2, 0, 0, 0, 0], &[1, 2, 1, 1, 0, 0, 2, 0, 0, 0, 0, 0]];

    fn joined(first: [&[u8]; 2], second: [&[u8]; 2], out: &mut [u8]) -> Result<Joined, Refusal> {
        join(first[0], first[1], second[0], second[1], out)
    }

    #[test]
    fn the_second_graph_stands_behind_the_first() {
        let mut out = [7; 25];
        let answer = joined(FIRST, SECOND, &mut out);
        assert_eq!(answer, Ok(Joined { nodes: 2, edges: 2, provided: 3, required: 2 }));
        let file = [[1, 1, 0, 1, 0, 0], [1, 2, 1, 1, 0, 0], [2, 0, 2, 0, 0, 0], [2, 1, 0, 1, 0, 0]];
        assert_eq!(out[..], [file.concat(), vec![7]].concat());
    }

    #[test]
    fn refusals_leave_the_output() {
        let refused = |reason, file| Err(Refusal { reason, file, record: 0 });
        let mut out = [7; 23];
        assert_eq!(joined(FIRST, SECOND, &mut out), refused(ShortOutput, 0));
        assert_eq!(joined(FIRST, FIRST, &mut out), refused(NotOfInterface, 0));
        assert_eq!(joined(FIRST, [SECOND[0], FIRST[1]], &mut out), refused(NotOfInterface, 4));
        assert_eq!(joined([FIRST[0], &[]], [&[], &[]], &mut out), refused(Empty, 3));
        assert_eq!(out, [7; 23]);
    }
}
