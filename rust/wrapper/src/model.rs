//! Modelling: the most general module that an interface and a property allow.

use crate::boundary::{Answer, OnTwoFiles};
use crate::refusal::Refusal;

extern "C" {
    fn tintboulder_model(
        interface: *const u8,
        interface_length: usize,
        property: *const u8,
        property_length: usize,
        out: *mut u8,
        out_length: usize,
        work: *mut u8,
        work_length: usize,
    ) -> Answer;
}

/// Modelling as a call, for its published length and the answer as six numbers.
// Safe: it is a function of the boundary, and 3 is its number there.
pub const MODEL: OnTwoFiles = unsafe { OnTwoFiles::new(tintboulder_model, 3) };

/// A graph file, of a model or of deliveries, stands at the start of the output: 6 bytes for each node, then 6 for each edge.
#[derive(Clone, Copy, Debug, PartialEq, Eq)]
pub struct Written {
    pub nodes: u64,
    pub edges: u64,
}

impl Written {
    pub(crate) fn of(answer: Answer) -> Result<Written, Refusal> {
        let answer = answer.accepted()?;
        Ok(Written { nodes: answer.first, edges: answer.second })
    }

    pub fn records(&self) -> u64 {
        self.nodes + self.edges
    }
}

/// Writes the model with buffers that the caller lends; see [`Buffers::model`](crate::Buffers::model). The work buffer is zero afterwards, except after refusal 13.
pub fn model(
    interface: &[u8],
    property: &[u8],
    out: &mut [u8],
    work: &mut [u8],
) -> Result<Written, Refusal> {
    Written::of(MODEL.answer([interface, property], out, work))
}

#[cfg(test)]
mod tests {
    use super::{model, Refusal, Written, MODEL};
    use crate::refusal::Reason::{Empty, ShortOutput, ShortWork};

    const INTERFACE: &[u8] = &[5, 1, 0, 0, 0, 0];
    /// Row 0 is "0 or 0", which is true everywhere.
    const ITSELF: &[u8] = &[3, 8, 0, 0, 0, 0];

    #[test]
    fn the_model_of_true_has_four_states_and_eight_edges() {
        let (mut out, mut work) = (vec![7; 73], vec![7; MODEL.work()]);
        let answer = model(INTERFACE, ITSELF, &mut out, &mut work);
        assert_eq!(answer, Ok(Written { nodes: 4, edges: 8 }));
        assert_eq!((&out[..6], out[72]), (&[1, 1, 0, 0, 0, 0][..], 7));
        assert!(work.iter().all(|&byte| byte == 0));
    }

    #[test]
    fn refusals_leave_the_output() {
        let refused = |reason, file| Err(Refusal { reason, file, record: 0 });
        let (mut out, mut work) = (vec![7; 71], vec![7; MODEL.work()]);
        assert_eq!(model(INTERFACE, ITSELF, &mut out, &mut work), refused(ShortOutput, 0));
        assert_eq!(model(INTERFACE, &[], &mut out, &mut work), refused(Empty, 2));
        let short = work.len() - 1;
        assert_eq!(model(INTERFACE, ITSELF, &mut out, &mut work[..short]), refused(ShortWork, 0));
        assert_eq!(out, vec![7; 71]);
    }
}
