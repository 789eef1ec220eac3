//! What the calls of the C boundary (include/tintboulder.h) share: the answer as it comes, and the one place where slices become pointers.

use crate::refusal::{Reason, Refusal};

/// The six numbers of an answer. Verdict 0 is a refusal; values that a call does not name are 0.
#[repr(C)]
#[derive(Clone, Copy, Debug, PartialEq, Eq)]
pub struct Answer {
    pub verdict: u32,
    pub number: u32,
    pub first: u64,
    pub second: u64,
    pub third: u64,
    pub fourth: u64,
}

impl Answer {
    /// The answer itself, unless it is a refusal.
    pub(crate) fn accepted(self) -> Result<Answer, Refusal> {
        if self.verdict != 0 {
            return Ok(self);
        }
        let reason = Reason::of(self.number).expect("a number of the published table");
        Err(Refusal { reason, file: self.first, record: self.second })
    }
}

/// A check of one file.
#[derive(Clone, Copy)]
pub struct OnFile {
    function: FileFunction,
}

pub(crate) type FileFunction = unsafe extern "C" fn(*const u8, usize) -> Answer;

impl OnFile {
    /// Safe if the function is one of the boundary, which are total.
    pub(crate) const unsafe fn new(function: FileFunction) -> OnFile {
        OnFile { function }
    }

    /// The answer as it comes.
    pub fn answer(&self, file: &[u8]) -> Answer {
        // Safe: the pointer goes with its own length.
        unsafe { (self.function)(file.as_ptr(), file.len()) }
    }
}

/// A call that takes two files and is lent an output and a work buffer.
#[derive(Clone, Copy)]
pub struct OnTwoFiles {
    function: TwoFilesFunction,
    number: u64,
}

pub(crate) type TwoFilesFunction = unsafe extern "C" fn(
    *const u8,
    usize,
    *const u8,
    usize,
    *mut u8,
    usize,
    *mut u8,
    usize,
) -> Answer;

extern "C" {
    fn tintboulder_work(call: u64) -> u64;
}

/// The published length of the work buffer of the call with this number.
pub(crate) fn work_of(call: u64) -> usize {
    // Safe: it takes and gives numbers.
    let length = unsafe { tintboulder_work(call) };
    length.try_into().expect("a length of at most 1,048,576")
}

impl OnTwoFiles {
    /// Safe if the function is one of the boundary, which are total. The number is the call's for `tintboulder_work`.
    pub(crate) const unsafe fn new(function: TwoFilesFunction, number: u64) -> OnTwoFiles {
        OnTwoFiles { function, number }
    }

    /// The published length of the work buffer. A shorter one is refused by 13.
    pub fn work(&self) -> usize {
        work_of(self.number)
    }

    /// The answer as it comes. The work buffer is zero afterwards, except after refusal 13.
    pub fn answer(&self, files: [&[u8]; 2], out: &mut [u8], work: &mut [u8]) -> Answer {
        let [first, second] = files;
        // Safe: each pointer goes with its own length, and what is written overlaps nothing, since both borrows are exclusive.
        unsafe {
            (self.function)(
                first.as_ptr(),
                first.len(),
                second.as_ptr(),
                second.len(),
                out.as_mut_ptr(),
                out.len(),
                work.as_mut_ptr(),
                work.len(),
            )
        }
    }
}

/// A call that takes five files and a start method and is lent an output, a store and a work buffer.
pub(crate) type FiveFilesFunction = unsafe extern "C" fn(
    *const u8,
    usize,
    *const u8,
    usize,
    *const u8,
    usize,
    *const u8,
    usize,
    *const u8,
    usize,
    u8,
    *mut u8,
    usize,
    *mut u8,
    usize,
    *mut u8,
    usize,
) -> Answer;

/// Buffers that a call is lent.
pub(crate) struct Lent<'a> {
    pub out: &'a mut [u8],
    pub store: &'a mut [u8],
    pub work: &'a mut [u8],
}

/// The answer as it comes. Safe if the function is one of the boundary, which are total.
pub(crate) unsafe fn on_five_files(
    function: FiveFilesFunction,
    files: [&[u8]; 5],
    start: u8,
    Lent { out, store, work }: Lent,
) -> Answer {
    let [first, second, third, fourth, fifth] = files;
    // Safe: each pointer goes with its own length, and what is written overlaps nothing, since all three borrows are exclusive.
    unsafe {
        function(
            first.as_ptr(),
            first.len(),
            second.as_ptr(),
            second.len(),
            third.as_ptr(),
            third.len(),
            fourth.as_ptr(),
            fourth.len(),
            fifth.as_ptr(),
            fifth.len(),
            start,
            out.as_mut_ptr(),
            out.len(),
            store.as_mut_ptr(),
            store.len(),
            work.as_mut_ptr(),
            work.len(),
        )
    }
}

#[cfg(test)]
pub(crate) mod tests {
    use super::Lent;
    use crate::refusal::{Reason, Refusal};

    /// Calls with so many bytes of output, store and work, all of them 7 before; checks store and work, and returns the output.
    pub fn with_lengths<Verdict: Copy>(
        [out, store, work]: [usize; 3],
        call: impl FnOnce(Lent) -> Result<Verdict, Refusal>,
    ) -> (Result<Verdict, Refusal>, Vec<u8>) {
        let [mut out, mut store, mut work] = [out, store, work].map(|length| vec![7; length]);
        let answer = call(Lent { out: &mut out, store: &mut store, work: &mut work });
        let short = answer.is_err_and(|refusal| refusal.reason == Reason::ShortWork);
        let left = if short { 7 } else { 0 };
        assert!(store.iter().chain(&work).all(|&byte| byte == left));
        (answer, out)
    }
}
