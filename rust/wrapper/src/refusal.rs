//! Refusals: why a call said no verdict, and where.

use std::error::Error;
use std::fmt::{self, Display, Formatter};

/// Why a call is refused, in the order of the published table.
#[derive(Clone, Copy, Debug, PartialEq, Eq, PartialOrd, Ord, Hash)]
pub enum Reason {
    Length = 1,
    Kind,
    Range,
    Order,
    Limit,
    Empty,
    PastTheLast,
    BetweenMethods,
    NotOfInterface,
    NotProvided,
    TooLarge,
    ShortOutput,
    ShortWork,
    RepeatedRevision,
    // Number 15 is of no call yet.
    NoEntry = 16,
}

use Reason::*;

/// What each number means.
const TABLE: [(Reason, &str); 15] = [
    (Length, "the length is no multiple of 6"),
    (Kind, "the kind of a record is wrong for its place"),
    (Range, "a field is out of range or an unused byte is not 0"),
    (Order, "the order is broken or a key is repeated"),
    (Limit, "a limit on nodes, edges, rows or \"or\" rows is passed"),
    (Empty, "the file has no record"),
    (PastTheLast, "a node or row number is past the last"),
    (BetweenMethods, "an edge leads from one method to another, or a node is of a foreign method"),
    (NotOfInterface, "the graph is not of its interface"),
    (NotProvided, "a required method, or the start method, is provided by nobody"),
    (TooLarge, "the model, the joined graph or the standing graph would pass the limits"),
    (ShortOutput, "the output is shorter than the whole result"),
    (ShortWork, "a work buffer is shorter than published"),
    (RepeatedRevision, "two deliveries of one method have equal revisions"),
    (NoEntry, "the known graph lacks an entry for a method that it provides"),
];

impl Reason {
    /// The number in the published table.
    pub fn number(self) -> u32 {
        self as u32
    }

    /// The reason with this number, if the table has it.
    pub fn of(number: u32) -> Option<Reason> {
        TABLE.iter().map(|&(reason, _)| reason).find(|reason| reason.number() == number)
    }

    fn words(self) -> &'static str {
        let row = TABLE.iter().find(|&&(reason, _)| reason == self);
        row.expect("every reason is in the table").1
    }
}

/// A refusal: why, the file's position from 1, and the first offending record from 0. File and record are 0 where no single file is the cause.
///
/// ```
/// let refusal = tintboulder::check_graph(&[1, 1, 0, 1, 0, 0, 2, 0, 0, 1, 0, 0]).unwrap_err();
/// assert_eq!(refusal.reason, tintboulder::Reason::PastTheLast);
/// let words = "refused by 7 (a node or row number is past the last): file 1, record 1";
/// assert_eq!(refusal.to_string(), words);
/// ```
#[derive(Clone, Copy, Debug, PartialEq, Eq)]
pub struct Refusal {
    pub reason: Reason,
    pub file: u64,
    pub record: u64,
}

impl Display for Refusal {
    fn fmt(&self, formatter: &mut Formatter) -> fmt::Result {
        let Refusal { reason, file, record } = self;
        write!(formatter, "refused by {} ({}): ", reason.number(), self.meaning())?;
        match file {
            0 => write!(formatter, "no single file"),
            _ => write!(formatter, "file {file}, record {record}"),
        }
    }
}

impl Refusal {
    /// In words; three reasons mean something else where no single file is the cause.
    fn meaning(&self) -> &'static str {
        match (self.file, self.reason) {
            (0, Range) => "the start method is not 1 to 8",
            (0, PastTheLast) => "the number is not below both node counts together",
            (0, NotOfInterface) => "both sides provide one method",
            (_, reason) => reason.words(),
        }
    }
}

impl Error for Refusal {}

#[cfg(test)]
mod tests {
    use super::{Reason, Refusal, TABLE};

    #[test]
    fn the_table_is_in_the_order_of_the_numbers() {
        for (number, (reason, words)) in (1..=14).chain([16]).zip(TABLE) {
            assert_eq!((reason.number(), Reason::of(number)), (number, Some(reason)));
            assert_eq!(reason.words(), words);
        }
        assert_eq!([0, 15, 17, u32::MAX].map(Reason::of), [None; 4]);
    }

    #[test]
    fn words_tell_a_file_from_the_call() {
        let said = |reason, file| Refusal { reason, file, record: 2 }.to_string();
        assert_eq!(
            said(Reason::NotOfInterface, 4),
            "refused by 9 (the graph is not of its interface): file 4, record 2"
        );
        assert_eq!(
            said(Reason::NotOfInterface, 0),
            "refused by 9 (both sides provide one method): no single file"
        );
        for reason in [Reason::Range, Reason::PastTheLast] {
            let [of_call, of_file] = [0, 1].map(|file| Refusal { reason, file, record: 0 });
            assert_ne!(of_call.meaning(), of_file.meaning());
        }
    }
}
