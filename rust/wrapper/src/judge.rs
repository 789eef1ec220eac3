//! Judging: does a graph satisfy a property, and if not, why?

use crate::boundary::{Answer, OnTwoFiles};
use crate::refusal::Refusal;

extern "C" {
    fn tintboulder_judge(
        graph: *const u8,
        graph_length: usize,
        property: *const u8,
        property_length: usize,
        out: *mut u8,
        out_length: usize,
        work: *mut u8,
        work_length: usize,
    ) -> Answer;
}

/// Judging as a call, for its published length and the answer as six numbers.
// Safe: it is a function of the boundary, and 1 is its number there.
pub const JUDGE: OnTwoFiles = unsafe { OnTwoFiles::new(tintboulder_judge, 1) };

#[derive(Clone, Copy, Debug, PartialEq, Eq)]
pub enum Judged {
    Holds,
    /// The fault sheet stands at the start of the output, in so many records.
    Fails {
        records: u64,
    },
}

impl Judged {
    pub(crate) fn of(answer: Answer) -> Result<Judged, Refusal> {
        let answer = answer.accepted()?;
        match answer.verdict {
            1 => Ok(Judged::Holds),
            _ => Ok(Judged::Fails { records: answer.first }),
        }
    }

    /// Records of the fault sheet: none if the property holds.
    pub fn records(&self) -> u64 {
        match *self {
            Judged::Holds => 0,
            Judged::Fails { records } => records,
        }
    }
}

/// Judges the graph with buffers that the caller lends; see [`Buffers::judge`](crate::Buffers::judge). The work buffer is zero afterwards, except after refusal 13.
pub fn judge(
    graph: &[u8],
    property: &[u8],
    out: &mut [u8],
    work: &mut [u8],
) -> Result<Judged, Refusal> {
    Judged::of(JUDGE.answer([graph, property], out, work))
}
