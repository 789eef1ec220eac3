//! Calls that each break one promise, which has to be noticed.

use crate::promises::check;
use crate::target::{Target, Writes};
use compare::case::Case;
use compare::Input;
use std::cell::Cell;
use tintboulder::Answer;

type Call = fn(&Input, &mut [u8], &mut [&mut [u8]]) -> Answer;

const WORK: usize = 8;
/// A node and an edge from it to itself.
const GRAPH: [u8; 12] = [1, 1, 0, 1, 0, 0, 2, 0, 0, 0, 0, 0];

/// Copies a graph file of one node and one edge. It keeps every promise.
const COPY: Target = Target {
    name: "copy",
    rooms: &[|| WORK],
    call: copy,
    input: |_| [GRAPH.to_vec()].into(),
    values: &[2],
    writes: Writes::Graph,
};

fn copy(input: &Input, out: &mut [u8], work: &mut [&mut [u8]]) -> Answer {
    let file = &input.files[0];
    if let Some(refusal) = refusal(file, work) {
        return refusal;
    }
    let Some(out) = out.get_mut(..file.len()) else { return refused(12, 0, 0) };
    out.copy_from_slice(file);
    answer(1, 0, [1, 1, 0, 0])
}

/// By 13 or 1, after which the work buffer is as it should be.
fn refusal(file: &[u8], work: &mut [&mut [u8]]) -> Option<Answer> {
    if work[0].len() < WORK {
        return Some(refused(13, 0, 0));
    }
    work[0].fill(0);
    (file.len() != GRAPH.len()).then(|| refused(1, 1, 0))
}

fn refused(number: u32, file: u64, record: u64) -> Answer {
    answer(0, number, [file, record, 0, 0])
}

fn answer(verdict: u32, number: u32, [first, second, third, fourth]: [u64; 4]) -> Answer {
    Answer { verdict, number, first, second, third, fourth }
}

/// The first promise that the call breaks, with every length from nothing to past the need, on a file that is copied and on one that is refused.
fn noticed(call: Call) -> Option<String> {
    noticed_of(Target { call, ..COPY })
}

fn noticed_of(target: Target) -> Option<String> {
    let files = [&GRAPH[..], &GRAPH[..11]];
    let lengths = (0..16).flat_map(|out| (0..10).map(move |work| (out, work)));
    let mut cases = files.into_iter().flat_map(|file| {
        lengths.clone().map(|(out, work)| {
            let input = [file.to_vec()].into();
            Case { input, out, work: vec![work], seed: (16 * work + out) as u64 }
        })
    });
    cases.find_map(|case| check(&target, &case).err())
}

#[track_caller]
fn assert_noticed(words: &str, call: Call) {
    let wrong = noticed(call).unwrap_or_default();
    assert!(wrong.contains(words), "{wrong:?}");
}

#[test]
fn kept_promises_are_kept() {
    assert_eq!(noticed(copy), None);
}

#[test]
fn answers_that_are_not_well_formed() {
    assert_noticed("no such refusal", |input, out, work| match copy(input, out, work) {
        Answer { number: 1, .. } => refused(15, 0, 0),
        answer => answer,
    });
    assert_noticed("no such verdict", |input, out, work| match copy(input, out, work) {
        Answer { verdict: 1, .. } => answer(2, 0, [1, 1, 0, 0]),
        answer => answer,
    });
    assert_noticed("a verdict has a number", |input, out, work| {
        let answer = copy(input, out, work);
        Answer { number: answer.number.max(1), ..answer }
    });
    assert_noticed("not named", |input, out, work| Answer { fourth: 1, ..copy(input, out, work) });
    assert_noticed("said of an output", |input, out, work| match copy(input, out, work) {
        Answer { verdict: 1, .. } => answer(1, 0, [u64::MAX, 1, 0, 0]),
        answer => answer,
    });
}

#[test]
fn verdicts_that_take_the_place_of_impossible() {
    let said_by = |call: Call| {
        let composed = Target { values: &[0, 1, 0], writes: Writes::Records, call, ..COPY };
        noticed_of(composed).unwrap_or_default()
    };
    assert_eq!(said_by(|input, _, work| of_a_graph(input, work, 3, 0)), "");
    let bad = said_by(|input, _, work| of_a_graph(input, work, 2, 0));
    assert!(bad.contains("explained by no record"), "{bad}");
    let counted = said_by(|input, _, work| of_a_graph(input, work, 3, 1));
    assert!(counted.contains("not named"), "{counted}");
    let unknown = said_by(|input, _, work| of_a_graph(input, work, 4, 0));
    assert!(unknown.contains("no such verdict"), "{unknown}");
}

/// A verdict with one value that writes nothing, unless the file is refused.
fn of_a_graph(input: &Input, work: &mut [&mut [u8]], verdict: u32, value: u64) -> Answer {
    refusal(&input.files[0], work).unwrap_or_else(|| answer(verdict, 0, [value, 0, 0, 0]))
}

#[test]
fn refusals_without_their_place() {
    let places: [(&str, Call); 4] = [
        ("a file", |input, out, work| placed(copy(input, out, work), 2, 0)),
        ("a file", |input, out, work| placed(copy(input, out, work), u64::MAX, 0)),
        ("a file", |input, out, work| placed(copy(input, out, work), 0, 0)),
        ("a record", |input, out, work| placed(copy(input, out, work), 1, 1)),
    ];
    for (words, call) in places {
        assert_noticed(words, call);
    }
    assert_noticed("a file", |input, out, work| match copy(input, out, work) {
        Answer { number: 12, .. } => refused(12, 1, 0),
        answer => answer,
    });
    assert_noticed("a file", |input, out, work| match copy(input, out, work) {
        Answer { number: 1, .. } => refused(16, 1, 0),
        answer => answer,
    });
    assert_noticed("a record", |input, out, work| match copy(input, out, work) {
        Answer { number: 1, .. } => refused(2, 1, 1),
        answer => answer,
    });
}

/// The refusal by 1 with another place.
fn placed(said: Answer, file: u64, record: u64) -> Answer {
    match said.number {
        1 => refused(1, file, record),
        _ => said,
    }
}

#[test]
fn bytes_that_are_not_the_result() {
    assert_noticed("output byte 12", |input, out, work| {
        let answer = copy(input, out, work);
        out.iter_mut().skip(GRAPH.len()).for_each(|byte| *byte ^= 1);
        answer
    });
    assert_noticed("output byte 0", |input, out, work| {
        let answer = copy(input, out, work);
        if let (0, Some(byte)) = (answer.verdict, out.first_mut()) {
            *byte ^= 1;
        }
        answer
    });
    assert_noticed("work 1 byte 7", |input, out, work| {
        let answer = copy(input, out, work);
        work[0].iter_mut().skip(7).for_each(|byte| *byte = 1);
        answer
    });
    assert_noticed("work 1 byte 0", |input, out, work| {
        work[0].fill(0);
        copy(input, out, work)
    });
}

#[test]
fn bytes_around_the_lent_buffers() {
    assert_noticed("output byte -1", |input, out, work| {
        change(out.as_mut_ptr().wrapping_sub(1));
        copy(input, out, work)
    });
    assert_noticed("output byte 0", |input, out, work| {
        change(out.as_mut_ptr_range().end);
        copy(input, out, work)
    });
    assert_noticed("work 1 byte -1", |input, out, work| {
        change(work[0].as_mut_ptr().wrapping_sub(1));
        copy(input, out, work)
    });
    assert_noticed("work 1 byte 0", |input, out, work| {
        change(work[0].as_mut_ptr_range().end);
        copy(input, out, work)
    });
}

/// Changes a byte of a file or next to a buffer, as a call of the boundary could.
fn change(byte: *mut u8) {
    // Safe: there are sentinels on both sides of every lent buffer, and no file is empty here.
    unsafe { *byte ^= 1 }
}

#[test]
fn answers_that_do_not_follow_from_the_files() {
    thread_local!(static CALLS: Cell<u64> = const { Cell::new(0) });
    assert_noticed("again", |input, out, work| {
        CALLS.set(CALLS.get() + 1);
        match (copy(input, out, work), CALLS.get() % 2) {
            (Answer { number: 1, .. }, 0) => refused(5, 1, 0),
            (answer, _) => answer,
        }
    });
    assert_noticed("other bytes in the lent buffers", |input, out, work| {
        let lent = work[0].first().is_some_and(|byte| byte % 2 == 0);
        match copy(input, out, work) {
            Answer { number: 1, .. } if lent => refused(5, 1, 0),
            answer => answer,
        }
    });
    assert_noticed("other bytes are written", |input, out, work| {
        let method = 1 + work[0].first().map_or(0, |byte| byte % 8);
        let answer = copy(input, out, work);
        if answer.verdict == 1 {
            out[1] = method;
        }
        answer
    });
}

#[test]
fn files_that_are_changed_or_read_behind_their_end() {
    assert_noticed("a file is changed", |input, out, work| {
        change(input.files[0].as_ptr().cast_mut());
        copy(input, out, work)
    });
    assert_noticed("behind the files", |input, out, work| {
        let end = input.files[0].as_ptr_range().end;
        // Safe: there are bytes behind every file.
        let behind = unsafe { *end };
        match copy(input, out, work) {
            Answer { number: 1, .. } if behind % 2 == 0 => refused(5, 1, 0),
            answer => answer,
        }
    });
}

#[test]
fn results_that_follow_from_the_lengths() {
    assert_noticed("13 is not said", |input, out, work| match work[0].len() {
        0..9 => refused(13, 0, 0),
        _ => copy(input, out, work),
    });
    assert_noticed("with a long one", |input, out, work| match copy(input, out, work) {
        Answer { number: 1, .. } => refused(12, 0, 0),
        answer => answer,
    });
    assert_noticed("with 12 bytes of output", |input, out, work| match out.len() {
        12 => copy(input, &mut [], work),
        _ => copy(input, out, work),
    });
    assert_noticed("12 bytes said of an output of 11", |input, out, work| match out.len() {
        11 => copy(input, &mut [0; 12], work),
        _ => copy(input, out, work),
    });
    assert_noticed("with 11 bytes of output for 12", |input, out, work| {
        match (copy(input, out, work), out.len()) {
            (Answer { number: 12, .. }, 11) => refused(5, 1, 0),
            (answer, _) => answer,
        }
    });
}

#[test]
fn graphs_that_are_not_accepted() {
    assert_noticed("is checked with", |input, out, work| {
        let answer = copy(input, out, work);
        if answer.verdict == 1 {
            out[1] = 9;
        }
        answer
    });
    assert_noticed("is checked with", |input, out, work| match copy(input, out, work) {
        Answer { verdict: 1, .. } => answer(1, 0, [2, 0, 0, 0]),
        answer => answer,
    });
}
