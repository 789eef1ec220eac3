//! Deliveries: one file that holds revisions of several methods, of which the highest stand.

use crate::boundary::{work_of, Answer};
use crate::judge::Judged;
use crate::model::Written;
use crate::refusal::Refusal;

extern "C" {
    fn tintboulder_assemble(
        deliveries: *const u8,
        deliveries_length: usize,
        out: *mut u8,
        out_length: usize,
    ) -> Answer;

    fn tintboulder_judge_deliveries(
        deliveries: *const u8,
        deliveries_length: usize,
        property: *const u8,
        property_length: usize,
        out: *mut u8,
        out_length: usize,
        store: *mut u8,
        store_length: usize,
        work: *mut u8,
        work_length: usize,
    ) -> Answer;
}

/// Writes the graph of the deliveries that stand, with an output that the caller lends; see [`Buffers::assemble`](crate::Buffers::assemble).
pub fn assemble(deliveries: &[u8], out: &mut [u8]) -> Result<Written, Refusal> {
    Written::of(assemble_answer(deliveries, out))
}

/// The answer as it comes.
pub fn assemble_answer(deliveries: &[u8], out: &mut [u8]) -> Answer {
    // Safe: each pointer goes with its own length, and what is written overlaps nothing, since its borrow is exclusive.
    unsafe {
        tintboulder_assemble(deliveries.as_ptr(), deliveries.len(), out.as_mut_ptr(), out.len())
    }
}

/// The published length of the work buffer of judging deliveries. A shorter one is refused by 13.
pub fn judge_deliveries_work() -> usize {
    work_of(9)
}

/// The published length of its store. A shorter one is refused by 13.
pub fn judge_deliveries_store() -> usize {
    work_of(10)
}

/// Judges the graph of the deliveries that stand, with buffers that the caller lends; see [`Buffers::judge_deliveries`](crate::Buffers::judge_deliveries). Store and work
/// buffer are zero afterwards, except after refusal 13.
pub fn judge_deliveries(
    deliveries: &[u8],
    property: &[u8],
    out: &mut [u8],
    store: &mut [u8],
    work: &mut [u8],
) -> Result<Judged, Refusal> {
    Judged::of(judge_deliveries_answer([deliveries, property], out, store, work))
}

/// The answer as it comes; the files are in the order of `judge_deliveries`.
pub fn judge_deliveries_answer(
    files: [&[u8]; 2],
    out: &mut [u8],
    store: &mut [u8],
    work: &mut [u8],
) -> Answer {
    let [deliveries, property] = files;
    // Safe: each pointer goes with its own length, and what is written overlaps nothing, since all three borrows are exclusive.
    unsafe {
        tintboulder_judge_deliveries(
            deliveries.as_ptr(),
            deliveries.len(),
            property.as_ptr(),
            property.len(),
            out.as_mut_ptr(),
            out.len(),
            store.as_mut_ptr(),
            store.len(),
            work.as_mut_ptr(),
            work.len(),
        )
    }
}
