//! Deliveries through the boundary: what stands, both verdicts, the order of refusals, and what becomes of the lent buffers.

use generator::extremes::{cycle, row_cycle};
use tintboulder::Reason::{
    self, BetweenMethods, Empty, Length, PastTheLast, RepeatedRevision, ShortOutput, ShortWork,
    TooLarge,
};
use tintboulder::{
    assemble, judge_deliveries, judge_deliveries_store, judge_deliveries_work, Buffers, Judged,
    Record, Refusal, Written,
};

/// Method 2, then two revisions of method 1, the higher one first.
const DELIVERIES: [Record; 8] = [
    [6, 2, 3, 0, 0, 0],
    [1, 2, 0, 1, 0, 0],
    [2, 0, 0, 0, 0, 0],
    [6, 1, 9, 0, 0, 0],
    [1, 1, 0, 1, 0, 0],
    [1, 1, 1, 0, 0, 0],
    [2, 0, 2, 1, 0, 0],
    [6, 1, 8, 0, 0, 0],
];
const STANDING: [Record; 5] = [
    [1, 1, 0, 1, 0, 0],
    [1, 1, 1, 0, 0, 0],
    [1, 2, 0, 1, 0, 0],
    [2, 0, 2, 1, 0, 0],
    [2, 2, 0, 2, 0, 0],
];
/// In method 1.
const IN_ONE: &[u8] = &[3, 3, 1, 0, 0, 0];
const SHEET: Record = [2, 0, 0, 255, 0, 255];
const REPEATED: &[u8] = &[6, 1, 1, 0, 0, 0, 6, 1, 1, 0, 0, 0];

fn refused<T>(reason: Reason, file: u64, record: u64) -> Result<T, Refusal> {
    Err(Refusal { reason, file, record })
}

/// Nodes of methods 1 and 2, so many each.
fn two_methods(first: usize, second: usize) -> Vec<u8> {
    let delivery = |method, count| {
        [vec![6, method, 1, 0, 0, 0], [1, method, 0, 1, 0, 0].repeat(count)].concat()
    };
    [delivery(1, first), delivery(2, second)].concat()
}

#[test]
fn standing_graph_is_written() {
    let mut out = [7; 31];
    let answer = assemble(&DELIVERIES.concat(), &mut out);
    assert_eq!(answer, Ok(Written { nodes: 3, edges: 2 }));
    assert_eq!(out[..], [STANDING.concat(), vec![7]].concat());
    assert_eq!(assemble(&[], &mut []), Ok(Written { nodes: 0, edges: 0 }));
}

#[test]
fn every_order_of_four_is_assembled_and_judged_alike() -> Result<(), Refusal> {
    let third = [[6, 3, 1, 0, 0, 0], [1, 3, 1, 1, 0, 0]];
    let four = [&DELIVERIES[..3], &DELIVERIES[3..7], &DELIVERIES[7..], &third];
    let orders = (0..4usize.pow(4)).map(|n| [n % 4, n / 4 % 4, n / 16 % 4, n / 64]);
    let orders = orders.filter(|order| (0..4).all(|at| order.contains(&at)));
    let mut buffers = Buffers::new();
    let mut said = Vec::new();
    for order in orders {
        let file = order.map(|at| four[at].concat()).concat();
        let graph = buffers.assemble(&file)?.written.to_vec();
        let sheet = buffers.judge_deliveries(&file, IN_ONE)?.written.to_vec();
        said.push([graph, sheet]);
    }
    let nodes = [&STANDING[..3], &third[1..]].concat();
    let graph = [&nodes[..], &STANDING[3..]].concat().concat();
    assert_eq!(said, vec![[graph, SHEET.to_vec()]; 24]);
    Ok(())
}

#[test]
fn refusals_of_assembling_leave_the_output() {
    let mut out = [7; 29];
    let mut assembled = |file: &[u8]| assemble(file, &mut out);
    assert_eq!(assembled(&DELIVERIES.concat()), refused(ShortOutput, 0, 0));
    assert_eq!(assembled(&[6; 5]), refused(Length, 1, 0));
    assert_eq!(assembled(REPEATED), refused(RepeatedRevision, 0, 0));
    let foreign = [REPEATED, &[1, 2, 0, 0, 0, 0]].concat();
    assert_eq!(assembled(&foreign), refused(BetweenMethods, 1, 2));
    let large = two_methods(200, 57);
    assert_eq!(assembled(&large), refused(TooLarge, 0, 0));
    assert_eq!(assembled(&[&large[..], &large[..6]].concat()), refused(RepeatedRevision, 0, 0));
    assert_eq!(assembled(&two_methods(200, 56)), refused(ShortOutput, 0, 0));
    assert_eq!(out, [7; 29]);
}

/// Judges with so many bytes of output, store and work, all of them 7 before; checks store and work, and returns the output.
fn judged(files: [&[u8]; 2], [out, store, work]: [usize; 3]) -> (Result<Judged, Refusal>, Vec<u8>) {
    let [mut out, mut store, mut work] = [out, store, work].map(|length| vec![7; length]);
    let answer = judge_deliveries(files[0], files[1], &mut out, &mut store, &mut work);
    let left = if answer.is_err_and(|refusal| refusal.reason == ShortWork) { 7 } else { 0 };
    assert!(store.iter().chain(&work).all(|&byte| byte == left));
    (answer, out)
}

/// With the lengths published.
fn roomy(out: usize) -> [usize; 3] {
    [out, judge_deliveries_store(), judge_deliveries_work()]
}

#[test]
fn published_lengths() {
    assert_eq!((judge_deliveries_store(), judge_deliveries_work()), (26_112, 41_664));
}

#[test]
fn failing_deliveries_have_a_sheet() {
    let deliveries = DELIVERIES.concat();
    let [out, store, work] = roomy(8);
    let (answer, out) = judged([&deliveries, IN_ONE], [out, store + 1, work + 1]);
    assert_eq!(answer, Ok(Judged::Fails { records: 1 }));
    assert_eq!(out, [&SHEET[..], &[7, 7]].concat());
}

#[test]
fn holding_deliveries_write_nothing() {
    let emptied = [DELIVERIES.concat(), vec![6, 2, 4, 0, 0, 0]].concat();
    assert_eq!(judged([&emptied, IN_ONE], roomy(3)), (Ok(Judged::Holds), vec![7; 3]));
    assert_eq!(judged([&[], &[3, 2, 0, 0, 0, 0]], roomy(0)), (Ok(Judged::Holds), vec![]));
}

#[test]
fn refusals_of_judging_leave_the_output() {
    let deliveries = DELIVERIES.concat();
    let [_, store, work] = roomy(0);
    let refusal = |files: [&[u8]; 2], lengths| {
        let (answer, out) = judged(files, lengths);
        assert!(out.iter().all(|&byte| byte == 7));
        answer
    };
    let files = [&deliveries[..], IN_ONE];
    assert_eq!(refusal(files, roomy(5)), refused(ShortOutput, 0, 0));
    assert_eq!(refusal(files, [6, store - 1, work]), refused(ShortWork, 0, 0));
    assert_eq!(refusal(files, [6, store, work - 1]), refused(ShortWork, 0, 0));
    assert_eq!(refusal([&[6], IN_ONE], [6, 0, 0]), refused(ShortWork, 0, 0));
    assert_eq!(refusal([&[6], &[3]], roomy(6)), refused(Length, 1, 0));
    assert_eq!(refusal([REPEATED, &[]], roomy(6)), refused(Empty, 2, 0));
    let past = [3, 7, 0, 9, 0, 0];
    assert_eq!(refusal([REPEATED, &past], roomy(6)), refused(PastTheLast, 2, 0));
    assert_eq!(refusal([REPEATED, IN_ONE], roomy(6)), refused(RepeatedRevision, 0, 0));
    assert_eq!(refusal([&two_methods(256, 1), IN_ONE], roomy(0)), refused(TooLarge, 0, 0));
}

#[test]
fn results_at_the_limits_have_room() -> Result<(), Refusal> {
    let mut buffers = Buffers::new();
    let graph = cycle(true);
    let delivered = [vec![6, 1, 1, 0, 0, 0], graph.clone()].concat();
    let assembled = buffers.assemble(&delivered)?;
    assert_eq!(assembled.written, graph);
    let sheet = buffers.judge_deliveries(&delivered, &row_cycle())?.written.to_vec();
    assert!(sheet.len() > 6 * 7_900);
    assert_eq!(buffers.judge(&graph, &row_cycle())?.written, sheet);
    Ok(())
}
