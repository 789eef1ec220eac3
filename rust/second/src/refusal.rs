//! The refusals and their numbers.

/// Why a call is refused.
pub mod number {
    pub const LENGTH: u8 = 1;
    pub const KIND: u8 = 2;
    pub const RANGE: u8 = 3;
    pub const ORDER: u8 = 4;
    pub const LIMIT: u8 = 5;
    pub const EMPTY: u8 = 6;
    pub const PAST_THE_LAST: u8 = 7;
    pub const BETWEEN_METHODS: u8 = 8;
    pub const NOT_OF_INTERFACE: u8 = 9;
    pub const NOT_PROVIDED: u8 = 10;
    pub const TOO_LARGE: u8 = 11;
    pub const SHORT_OUTPUT: u8 = 12;
    pub const SHORT_WORK: u8 = 13;
    pub const REPEATED_REVISION: u8 = 14;
    pub const NO_ENTRY: u8 = 16;
}

/// A refusal with its place: the file's position from 1 and the first offending record from 0.
#[derive(Clone, Copy, Debug, PartialEq, Eq)]
pub struct Refusal {
    pub number: u8,
    pub file: u8,
    pub record: usize,
}

impl Refusal {
    /// A refusal that no single file causes.
    pub(crate) fn of_call(number: u8) -> Refusal {
        Refusal { number, file: 0, record: 0 }
    }
}
