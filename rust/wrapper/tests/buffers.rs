//! Buffers that are lent to one call after the other: the longest results have room, and what one call leaves does not show in the next.

use generator::extremes::{cycle, dense_cycle, longest_trail, row_cycle};
use tintboulder::Reason::Length;
use tintboulder::{Buffers, Compared, Composed, Judged, Refusal, Sides, Watched};

const ENTRY: &[u8] = &[1, 1, 0, 1, 0, 0];
const NOTHING: &[u8] = &[5, 0, 0, 0, 0, 0];
const METHOD_1: &[u8] = &[5, 1, 1, 0, 0, 0];
const RETURN: &[u8] = &[3, 5, 0, 0, 0, 0];

#[test]
fn results_at_the_limits_have_room() -> Result<(), Refusal> {
    let mut buffers = Buffers::new();
    let sheet = buffers.judge(&cycle(true), &row_cycle())?;
    assert!(sheet.verdict.records() > 7_900);
    assert_eq!(sheet.records().len() as u64, sheet.verdict.records());

    let relation = buffers.compare(&cycle(true), &cycle(true))?;
    assert_eq!((relation.verdict, relation.written.len()), (Compared::Yes, 256 * 32));
    assert!((0..256).all(|node| relation.relates(node, node)));
    assert!(!relation.relates(255, 254) && !relation.relates(256, 0) && !relation.relates(0, 256));

    let graph = dense_cycle();
    let joined = buffers.join(METHOD_1, &graph, NOTHING, &[])?;
    assert_eq!((joined.verdict.nodes, joined.written), (256, &graph[..]));

    let [interface, graph, rules] = longest_trail();
    let trail = buffers.watch(&interface, &graph, &rules, 1)?;
    assert_eq!((trail.verdict, trail.records().len()), (Watched::Bad { records: 1_793 }, 1_793));
    Ok(())
}

#[test]
fn nothing_is_left_for_the_next_call() -> Result<(), Refusal> {
    let mut buffers = Buffers::default();
    buffers.judge(&cycle(true), &row_cycle())?;
    let failing = buffers.judge(ENTRY, RETURN)?;
    assert_eq!(failing.verdict, Judged::Fails { records: 1 });
    assert_eq!(failing.records(), [[0, 0, 0, 255, 0, 255]]);

    let model = buffers.model(METHOD_1, RETURN)?.records().to_vec();
    assert_eq!(Buffers::new().model(METHOD_1, RETURN)?.records(), model);

    let sides = Sides {
        known_interface: METHOD_1,
        known_graph: ENTRY,
        other_interface: NOTHING,
        property: RETURN,
    };
    let clean = buffers.compose(&sides, &[], 1)?;
    assert_eq!((clean.verdict, clean.records()), (Composed::Clean, &[][..]));
    Ok(())
}

#[test]
fn refusals_are_passed_on() {
    let refusal = Refusal { reason: Length, file: 2, record: 0 };
    let mut buffers = Buffers::new();
    assert_eq!(buffers.judge(ENTRY, &[3]), Err(refusal));
    assert_eq!(buffers.compare(ENTRY, &[1]), Err(refusal));
    assert_eq!(buffers.model(METHOD_1, &[3]), Err(refusal));
    assert_eq!(buffers.watch(METHOD_1, &[1], &[], 1), Err(refusal));
}
