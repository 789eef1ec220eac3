//! The composed verdict: is the known graph clean with every flow graph of the other interface that satisfies the property and has an entry for each method that it
//! provides, whichever and however large it is? And is there one?

use crate::boundary::{on_five_files, work_of, Answer, Lent};
use crate::refusal::Refusal;

extern "C" {
    fn tintboulder_compose(
        known_interface: *const u8,
        known_interface_length: usize,
        known_graph: *const u8,
        known_graph_length: usize,
        other_interface: *const u8,
        other_interface_length: usize,
        property: *const u8,
        property_length: usize,
        rules: *const u8,
        rules_length: usize,
        start: u8,
        out: *mut u8,
        out_length: usize,
        store: *mut u8,
        store_length: usize,
        work: *mut u8,
        work_length: usize,
    ) -> Answer;
}

/// What is known of both sides: the written one by its graph, the other one by its property.
#[derive(Clone, Copy, Debug)]
pub struct Sides<'a> {
    pub known_interface: &'a [u8],
    pub known_graph: &'a [u8],
    pub other_interface: &'a [u8],
    pub property: &'a [u8],
}

/// What is said of every module that may come to stand on a side that is not written: a flow graph of its interface that satisfies its property and has an entry for each
/// method that it provides.
#[derive(Clone, Copy, Debug, PartialEq, Eq)]
pub enum Composed {
    Clean,
    /// The trail stands at the start of the output, in so many records.
    Bad {
        records: u64,
    },
    /// There is no such module, of one side at least.
    Impossible,
}

impl Composed {
    pub(crate) fn of(answer: Answer) -> Result<Composed, Refusal> {
        let answer = answer.accepted()?;
        match answer.verdict {
            1 => Ok(Composed::Clean),
            2 => Ok(Composed::Bad { records: answer.first }),
            3 => Ok(Composed::Impossible),
            other => unreachable!("no composed verdict is {other}"),
        }
    }

    /// Records of the trail: none unless it is bad.
    pub fn records(&self) -> u64 {
        match *self {
            Composed::Bad { records } => records,
            Composed::Clean | Composed::Impossible => 0,
        }
    }
}

/// The published length of the work buffer. A shorter one is refused by 13.
pub fn compose_work() -> usize {
    work_of(7)
}

/// The published length of the store. A shorter one is refused by 13.
pub fn compose_store() -> usize {
    work_of(8)
}

/// Watches the runs from the start method, with whatever the other side will be, and with buffers that the caller lends; see
/// [`Buffers::compose`](crate::Buffers::compose). The trail of a bad one is of the known graph joined with the maximal model. Store and work buffer are zero
/// afterwards, except after refusal 13.
pub fn compose(
    sides: &Sides,
    rules: &[u8],
    start: u8,
    out: &mut [u8],
    store: &mut [u8],
    work: &mut [u8],
) -> Result<Composed, Refusal> {
    let Sides { known_interface, known_graph, other_interface, property } = *sides;
    let files = [known_interface, known_graph, other_interface, property, rules];
    Composed::of(compose_answer(files, start, out, store, work))
}

/// The answer as it comes; the files are those of the sides in their order, then the rules.
pub fn compose_answer(
    files: [&[u8]; 5],
    start: u8,
    out: &mut [u8],
    store: &mut [u8],
    work: &mut [u8],
) -> Answer {
    // Safe: it is a function of the boundary.
    unsafe { on_five_files(tintboulder_compose, files, start, Lent { out, store, work }) }
}

#[cfg(test)]
mod tests {
    use super::{compose, compose_store, compose_work, Answer, Composed, Lent, Refusal, Sides};
    use crate::boundary::tests::with_lengths;
    use crate::refusal::Reason::{
        Empty, NoEntry, NotOfInterface, NotProvided, Range, ShortOutput, ShortWork,
    };

    /// Method 1 calls method 2 again and again; method 2 is not written.
    const SIDES: Sides = Sides {
        known_interface: &[5, 1, 2, 0, 0, 0],
        known_graph: &[1, 1, 0, 1, 0, 0, 2, 0, 2, 0, 0, 0],
        other_interface: &[5, 2, 1, 0, 0, 0],
        property: NO_CALL,
    };
    /// No call of method 1, now or after internal steps.
    const NO_CALL: &[u8] =
        &[3, 7, 1, 2, 0, 0, 3, 9, 1, 3, 0, 0, 3, 9, 0, 0, 0, 0, 3, 2, 0, 0, 0, 0];
    const ANYTHING: &[u8] = &[3, 1, 0, 0, 0, 0];
    const NEVER: &[u8] = &[3, 2, 0, 0, 0, 0];
    /// A call of method 1 by method 2 is bad.
    const RULES: &[u8] = &[4, 0, 1, 2, 1, 7];

    fn composed(
        sides: &Sides,
        start: u8,
        lengths: [usize; 3],
    ) -> (Result<Composed, Refusal>, Vec<u8>) {
        with_lengths(lengths, |Lent { out, store, work }| {
            compose(sides, RULES, start, out, store, work)
        })
    }

    /// With the lengths published.
    fn roomy(out: usize) -> [usize; 3] {
        [out, compose_store(), compose_work()]
    }

    #[test]
    fn published_lengths() {
        assert_eq!((compose_store(), compose_work()), (46_949, 103_456));
    }

    #[test]
    fn the_property_keeps_it_clean() {
        let (answer, out) = composed(&SIDES, 1, roomy(3));
        assert_eq!((answer, out), (Ok(Composed::Clean), vec![7; 3]));
    }

    #[test]
    fn what_the_property_allows_has_a_trail() {
        let sides = Sides { property: ANYTHING, ..SIDES };
        let lengths = [20, compose_store() + 1, compose_work() + 1];
        let (answer, out) = composed(&sides, 1, lengths);
        assert_eq!(answer, Ok(Composed::Bad { records: 3 }));
        // Node 2 is the model's entry that does not return.
        let trail = [[0, 0, 0, 0, 0, 0], [0, 0, 2, 2, 2, 0], [2, 0, 2, 1, 0, 7]].concat();
        assert_eq!(out, [trail, vec![7, 7]].concat());
    }

    #[test]
    fn what_no_entry_satisfies_is_impossible() {
        let sides = Sides { property: NEVER, ..SIDES };
        for out in [0, 18] {
            assert_eq!(composed(&sides, 1, roomy(out)), (Ok(Composed::Impossible), vec![7; out]));
        }
        // It provides nothing, so it lacks no entry.
        let closed = Sides {
            known_interface: &[5, 3, 2, 0, 0, 0],
            known_graph: &[1, 1, 0, 1, 0, 0, 1, 2, 1, 1, 0, 0, 2, 0, 2, 0, 0, 0],
            other_interface: &[5, 0, 1, 0, 0, 0],
            ..sides
        };
        assert_eq!(composed(&closed, 1, roomy(0)).0, Ok(Composed::Clean));
    }

    /// Its entry calls method 2 and then returns.
    const CALLS_ONCE: Sides = Sides {
        known_interface: &[5, 1, 2, 0, 0, 0],
        known_graph: &[1, 1, 0, 1, 0, 0, 1, 1, 1, 0, 0, 0, 2, 0, 2, 1, 0, 0],
        other_interface: &[5, 2, 0, 0, 0, 0],
        property: NEVER,
    };

    #[test]
    fn impossible_stands_in_place_of_bad() {
        let rules = [4, 0, 1, 1, 2, 7];
        let said = |sides: &Sides| {
            with_lengths(roomy(0), |Lent { out, store, work }| {
                compose(sides, &rules, 1, out, store, work)
            })
        };
        assert_eq!(said(&CALLS_ONCE), (Ok(Composed::Impossible), vec![]));
        // With something to call it would be bad, and the trail needs room.
        let short = Err(Refusal { reason: ShortOutput, file: 0, record: 0 });
        assert_eq!(said(&Sides { property: ANYTHING, ..CALLS_ONCE }), (short, vec![]));
    }

    #[test]
    fn known_methods_have_entries() {
        let lacking = Sides { known_interface: &[5, 5, 2, 0, 0, 0], ..CALLS_ONCE };
        let refused = Err(Refusal { reason: NoEntry, file: 0, record: 0 });
        for property in [ANYTHING, NEVER] {
            let sides = Sides { property, ..lacking };
            assert_eq!(composed(&sides, 1, roomy(18)), (refused, vec![7; 18]));
        }
    }

    #[test]
    #[should_panic(expected = "no composed verdict is 4")]
    fn no_other_verdict_is_read_as_bad() {
        let answer = Answer { verdict: 4, number: 0, first: 0, second: 0, third: 0, fourth: 0 };
        _ = Composed::of(answer);
    }

    #[test]
    fn refusals_leave_the_output() {
        let refused = |reason, file| Err(Refusal { reason, file, record: 0 });
        let sides = Sides { property: ANYTHING, ..SIDES };
        let [_, store, work] = roomy(0);
        assert_eq!(composed(&sides, 1, roomy(17)), (refused(ShortOutput, 0), vec![7; 17]));
        assert_eq!(
            composed(&sides, 1, [18, store - 1, work]),
            (refused(ShortWork, 0), vec![7; 18])
        );
        assert_eq!(
            composed(&sides, 1, [18, store, work - 1]),
            (refused(ShortWork, 0), vec![7; 18])
        );
        for start in [0, 9, 255] {
            assert_eq!(composed(&sides, start, roomy(18)), (refused(Range, 0), vec![7; 18]));
        }
        assert_eq!(composed(&sides, 3, roomy(18)), (refused(NotProvided, 0), vec![7; 18]));
        let shared = Sides { other_interface: SIDES.known_interface, ..SIDES };
        assert_eq!(composed(&shared, 1, roomy(18)), (refused(NotOfInterface, 0), vec![7; 18]));
        let empty = Sides { property: &[], ..SIDES };
        assert_eq!(composed(&empty, 0, roomy(18)), (refused(Empty, 4), vec![7; 18]));
    }
}
