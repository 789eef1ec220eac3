//! Judging through the boundary: both verdicts, the order of refusals, and what becomes of the lent buffers.

use tintboulder::Reason::{self, Empty, PastTheLast, ShortOutput, ShortWork};
use tintboulder::{judge, Judged, Refusal, JUDGE};

const GRAPH: &[u8] = &[1, 1, 0, 1, 0, 0, 1, 1, 1, 0, 0, 0, 2, 0, 1, 1, 0, 0];
/// After each call of method 1, and after each internal step: not return.
const BOX_1: &[u8] = &[3, 9, 1, 1, 0, 0, 3, 6, 0, 0, 0, 0];
const BOX_0: &[u8] = &[3, 9, 0, 1, 0, 0, 3, 6, 0, 0, 0, 0];
const SHEET: [u8; 12] = [0, 0, 1, 1, 0, 255, 1, 1, 0, 255, 0, 255];

/// The answer and both buffers, which hold nothing but sevens before the call.
fn judged(
    files: [&[u8]; 2],
    out: usize,
    work: usize,
) -> (Result<Judged, Refusal>, Vec<u8>, Vec<u8>) {
    let (mut out, mut work) = (vec![7; out], vec![7; work]);
    let answer = judge(files[0], files[1], &mut out, &mut work);
    (answer, out, work)
}

fn refused(reason: Reason, file: u64, record: u64) -> Result<Judged, Refusal> {
    Err(Refusal { reason, file, record })
}

#[test]
fn published_length() {
    assert_eq!(JUDGE.work(), 41_664);
}

#[test]
fn failing_graph_has_a_sheet() {
    let (answer, out, work) = judged([GRAPH, BOX_1], 14, JUDGE.work() + 1);
    assert_eq!(answer, Ok(Judged::Fails { records: 2 }));
    assert_eq!(out, [&SHEET[..], &[7, 7]].concat());
    assert!(work.iter().all(|&byte| byte == 0));
}

#[test]
fn holding_graph_writes_nothing() {
    let (answer, out, work) = judged([GRAPH, BOX_0], 3, JUDGE.work());
    assert_eq!((answer, out), (Ok(Judged::Holds), vec![7; 3]));
    assert!(work.iter().all(|&byte| byte == 0));
}

#[test]
fn short_output_is_left_alone() {
    let (answer, out, work) = judged([GRAPH, BOX_1], 11, JUDGE.work());
    assert_eq!((answer, out), (refused(ShortOutput, 0, 0), vec![7; 11]));
    assert!(work.iter().all(|&byte| byte == 0));
}

#[test]
fn short_work_comes_first_and_is_left_alone() {
    let (answer, out, work) = judged([&[9], &[]], 12, JUDGE.work() - 1);
    assert_eq!((answer, out), (refused(ShortWork, 0, 0), vec![7; 12]));
    assert!(work.iter().all(|&byte| byte == 7));
}

#[test]
fn files_are_refused_in_order() {
    assert_eq!(judged([&GRAPH[12..], &[]], 0, JUDGE.work()).0, refused(PastTheLast, 1, 0));
    assert_eq!(judged([GRAPH, &[]], 0, JUDGE.work()).0, refused(Empty, 2, 0));
}
