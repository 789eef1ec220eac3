//! The composed verdict on two sides that are not written: is every pair of flow graphs clean, of which each is of its side's interface, satisfies its property and has an
//! entry for each method that it provides? And is there one?

use crate::boundary::{on_five_files, work_of, Answer, Lent};
use crate::compose::Composed;
use crate::refusal::Refusal;

extern "C" {
    fn tintboulder_compose_both(
        interface1: *const u8,
        interface1_length: usize,
        property1: *const u8,
        property1_length: usize,
        interface2: *const u8,
        interface2_length: usize,
        property2: *const u8,
        property2_length: usize,
        rules: *const u8,
        rules_length: usize,
        start: u8,
        out: *mut u8,
        out_length: usize,
        store: *mut u8,
        store_length: usize,
        work: *mut u8,
        work_length: usize,
    ) -> Answer;
}

/// What is known of a side that is not written.
#[derive(Clone, Copy, Debug)]
pub struct Unwritten<'a> {
    pub interface: &'a [u8],
    pub property: &'a [u8],
}

/// The published length of the work buffer. A shorter one is refused by 13.
pub fn compose_both_work() -> usize {
    work_of(11)
}

/// The published length of the store. A shorter one is refused by 13.
pub fn compose_both_store() -> usize {
    work_of(12)
}

/// Watches the runs from the start method, with whatever either side will be, and with buffers that the caller lends; see
/// [`Buffers::compose_both`](crate::Buffers::compose_both). The trail of a bad one is of the maximal models joined, the first side's nodes first. Store and work buffer
/// are zero afterwards, except after refusal 13.
pub fn compose_both(
    sides: &[Unwritten; 2],
    rules: &[u8],
    start: u8,
    out: &mut [u8],
    store: &mut [u8],
    work: &mut [u8],
) -> Result<Composed, Refusal> {
    let [first, second] = sides;
    let files = [first.interface, first.property, second.interface, second.property, rules];
    Composed::of(compose_both_answer(files, start, out, store, work))
}

/// The answer as it comes; the files are interface and property of each side, then the rules.
pub fn compose_both_answer(
    files: [&[u8]; 5],
    start: u8,
    out: &mut [u8],
    store: &mut [u8],
    work: &mut [u8],
) -> Answer {
    // Safe: it is a function of the boundary.
    unsafe { on_five_files(tintboulder_compose_both, files, start, Lent { out, store, work }) }
}

#[cfg(test)]
mod tests {
    use super::{compose_both, compose_both_store, compose_both_work};
    use super::{Composed, Lent, Refusal, Unwritten};
    use crate::boundary::tests::with_lengths;
    use crate::refusal::Reason::{
        Empty, NotOfInterface, NotProvided, Range, ShortOutput, ShortWork, TooLarge,
    };
    use generator::generate::chain_of_boxes;

    /// Method 1 may call method 2.
    const FIRST: Unwritten = Unwritten { interface: &[5, 1, 2, 0, 0, 0], property: ANYTHING };
    /// Method 2 may call method 1.
    const SECOND: Unwritten = Unwritten { interface: &[5, 2, 1, 0, 0, 0], property: ANYTHING };
    const ANYTHING: &[u8] = &[3, 1, 0, 0, 0, 0];
    const NEVER: &[u8] = &[3, 2, 0, 0, 0, 0];
    /// No call of method 1, now or after any step.
    const NO_CALL: &[u8] =
        &[3, 7, 1, 2, 0, 0, 3, 9, 1, 3, 0, 0, 3, 10, 0, 0, 0, 0, 3, 2, 0, 0, 0, 0];
    /// A call of method 1 by method 2 is bad.
    const RULES: &[u8] = &[4, 0, 1, 2, 1, 7];

    fn composed(
        sides: [Unwritten; 2],
        start: u8,
        lengths: [usize; 3],
    ) -> (Result<Composed, Refusal>, Vec<u8>) {
        with_lengths(lengths, |Lent { out, store, work }| {
            compose_both(&sides, RULES, start, out, store, work)
        })
    }

    /// With the lengths published.
    fn roomy(out: usize) -> [usize; 3] {
        [out, compose_both_store(), compose_both_work()]
    }

    #[test]
    fn published_lengths() {
        assert_eq!((compose_both_store(), compose_both_work()), (52_224, 103_456));
    }

    #[test]
    fn a_property_keeps_it_clean() {
        let clean = Unwritten { property: NO_CALL, ..SECOND };
        for sides in [[FIRST, clean], [clean, FIRST]] {
            assert_eq!(composed(sides, 1, roomy(3)), (Ok(Composed::Clean), vec![7; 3]));
        }
    }

    #[test]
    fn what_the_properties_allow_has_a_trail() {
        let [out, store, work] = roomy(14);
        let (answer, out) = composed([FIRST, SECOND], 2, [out, store + 1, work + 1]);
        assert_eq!(answer, Ok(Composed::Bad { records: 2 }));
        // Of either model the second node is an entry that does not return.
        assert_eq!(out, [5, 0, 0, 0, 5, 0, 5, 0, 2, 1, 1, 7, 7, 7]);
        let (answer, out) = composed([SECOND, FIRST], 2, roomy(12));
        assert_eq!(answer, Ok(Composed::Bad { records: 2 }));
        assert_eq!(out, [1, 0, 0, 0, 1, 0, 1, 0, 2, 1, 5, 7]);
    }

    #[test]
    fn what_no_entry_satisfies_is_impossible() {
        let [first, second] = [FIRST, SECOND].map(|side| Unwritten { property: NEVER, ..side });
        for sides in [[first, SECOND], [FIRST, second], [first, second]] {
            for (start, out) in [(1, 0), (2, 0), (2, 12)] {
                let said = composed(sides, start, roomy(out));
                assert_eq!(said, (Ok(Composed::Impossible), vec![7; out]));
            }
        }
        // Method 1 alone can have an entry, and what provides nothing lacks none.
        let in_1 = Unwritten { interface: &[5, 5, 2, 0, 0, 0], property: &[3, 3, 1, 0, 0, 0] };
        assert_eq!(composed([in_1, SECOND], 1, roomy(0)).0, Ok(Composed::Impossible));
        let nothing = Unwritten { interface: &[5, 0, 1, 0, 0, 0], property: NEVER };
        let alone = Unwritten { interface: &[5, 1, 1, 0, 0, 0], ..FIRST };
        assert_eq!(composed([alone, nothing], 1, roomy(0)).0, Ok(Composed::Clean));
    }

    #[test]
    fn refusals_leave_the_output() {
        let [_, store, work] = roomy(0);
        let refused = |sides, start, lengths: [usize; 3], reason, file| {
            let refusal = Err(Refusal { reason, file, record: 0 });
            assert_eq!(composed(sides, start, lengths), (refusal, vec![7; lengths[0]]));
        };
        let sides = [FIRST, SECOND];
        refused(sides, 2, roomy(11), ShortOutput, 0);
        refused(sides, 2, [12, store - 1, work], ShortWork, 0);
        refused(sides, 2, [12, store, work - 1], ShortWork, 0);
        for start in [0, 9, 255] {
            refused(sides, start, roomy(12), Range, 0);
        }
        refused(sides, 3, roomy(12), NotProvided, 0);
        refused([FIRST, FIRST], 3, roomy(12), NotOfInterface, 0);
        let empty = Unwritten { property: &[], ..FIRST };
        refused([empty, SECOND], 0, roomy(12), Empty, 2);
        refused([FIRST, empty], 0, roomy(12), Empty, 4);
        // 66 states for each method.
        let large = Unwritten { interface: &[5, 254, 1, 0, 0, 0], property: &chain_of_boxes(32) };
        let other = Unwritten { interface: &[5, 1, 0, 0, 0, 0], ..FIRST };
        refused([large, other], 1, roomy(0), TooLarge, 0);
        refused([other, large], 1, roomy(0), TooLarge, 0);
        let impossible = Unwritten { property: NEVER, ..other };
        refused([impossible, large], 1, roomy(0), TooLarge, 0);
    }
}
