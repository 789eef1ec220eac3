//! What is said of deliveries, checked on the proved calls: what stands is the same without the others and in any order, also with one more delivery, which leaves the
//! nodes of other methods as they were; and it is judged as the graph file that assembling writes.

use crate::calls::Claim;
use crate::case::Input;
use crate::tally::Checked;
use generator::deliveries::{further, standing};
use generator::generate::{property, Random, Size};
use second::record::kind;
use tintboulder::{Buffers, Judged, Record, Refusal};

pub const LEFT_STANDING: Claim = Claim {
    check: left_standing,
    counts: |Checked { appended, standing, .. }| {
        format!("{appended} deliveries appended to accepted files, {standing} of them stand")
    },
};

pub const ASSEMBLED: Claim = Claim {
    check: assembled,
    counts: |checked| format!("{} standing graphs judged as graph files", checked.assembled),
};

/// A delivery is appended. If the file is still accepted, graph and judgement are those of the standing deliveries alone in any order, and what the graph has of other
/// methods is what it had.
fn left_standing(
    input: &Input,
    _verdict: u32,
    graph: &[u8],
    random: &mut Random,
    checked: &mut Checked,
) -> Result<(), String> {
    let further = further(random, &input.files[0]);
    let longer = [&input.files[0][..], &further].concat();
    let mut alone = standing(&longer);
    let stands = alone.contains(&&further[..]);
    random.shuffle(&mut alone);
    let (alone, property) = (alone.concat(), property(random, Size::Small));
    let mut buffers = Buffers::new();
    let mut said = |file: &[u8]| graph_and_sheet(&mut buffers, file, &property);
    let Ok(of_all) = said(&longer) else { return Ok(()) };
    if others(&of_all.0, further[1]) != others(graph, further[1]) {
        return Err(format!("{further:?} appended: other methods are not as before"));
    }
    if said(&alone) != Ok(of_all) {
        return Err(format!("{further:?} appended: not as {alone:?} alone with {property:?}"));
    }
    checked.appended += 1;
    checked.standing += u64::from(stands);
    Ok(())
}

/// The nodes of other methods than this one, and their edges with each method's nodes numbered from 0.
fn others(graph: &[u8], method: u8) -> Vec<Record> {
    let (records, _) = graph.as_chunks();
    let first = |of: u8| records.iter().take_while(|node: &&Record| node[1] != of).count() as u8;
    let own = |&record: &Record| match record {
        [kind::NODE, of, ..] => (of != method).then_some(record),
        [edge, from, label, to, ..] => {
            let of = records[usize::from(from)][1];
            let moved = [edge, from - first(of), label, to - first(of), 0, 0];
            (of != method).then_some(moved)
        }
    };
    records.iter().filter_map(own).collect()
}

/// What both proved calls write of a file.
fn graph_and_sheet(
    buffers: &mut Buffers,
    file: &[u8],
    property: &[u8],
) -> Result<(Vec<u8>, Judged, Vec<u8>), Refusal> {
    let graph = buffers.assemble(file)?.written.to_vec();
    let said = buffers.judge_deliveries(file, property)?;
    Ok((graph, said.verdict, said.written.to_vec()))
}

/// The verdict and the sheet are those of the graph file that is assembled.
fn assembled(
    input: &Input,
    verdict: u32,
    sheet: &[u8],
    _random: &mut Random,
    checked: &mut Checked,
) -> Result<(), String> {
    let [deliveries, property] = input.files();
    let mut buffers = Buffers::new();
    let refused = |refusal: Refusal| format!("refused, though not as deliveries: {refusal}");
    let graph = buffers.assemble(deliveries).map_err(refused)?.written.to_vec();
    let said = buffers.judge(&graph, property).map_err(refused)?;
    if (said.verdict == Judged::Holds) != (verdict == 1) || said.written != sheet {
        return Err(format!("judged otherwise as a graph file: {:?}", said.verdict));
    }
    checked.assembled += 1;
    Ok(())
}

#[cfg(test)]
mod tests {
    use super::{assembled, left_standing, others, Checked, Random};

    /// An entry of method 1 in a high revision, and one that returns in its first.
    const DELIVERIES: [[u8; 6]; 4] =
        [[6, 1, 254, 0, 0, 0], [1, 1, 0, 1, 0, 0], [6, 1, 1, 0, 0, 0], [1, 1, 1, 1, 0, 0]];
    const SHEET: [u8; 6] = [0, 0, 0, 255, 0, 255];

    #[test]
    fn what_stands_is_left() {
        let (mut random, mut checked) = (Random::new(1), Checked::default());
        let input = [DELIVERIES.concat()].into();
        for _ in 0..200 {
            let graph = &DELIVERIES[1];
            left_standing(&input, 1, graph, &mut random, &mut checked).expect("it stands");
        }
        let Checked { appended, standing, .. } = checked;
        assert!(
            appended < 200 && standing > 20 && appended > standing + 20,
            "{appended} {standing}"
        );
    }

    #[test]
    fn lost_nodes_of_other_methods_are_found_out() {
        let (mut random, mut checked) = (Random::new(1), Checked::default());
        let input = [DELIVERIES.concat()].into();
        let mut lost = || left_standing(&input, 1, &[], &mut random, &mut checked).is_err();
        assert!((0..200).any(|_| lost()));
    }

    #[test]
    fn others_are_numbered_within_their_method() {
        let nodes = [[1, 1, 0, 1, 0, 0], [1, 2, 0, 1, 0, 0], [1, 2, 1, 0, 0, 0]];
        let edges = [[2, 0, 0, 0, 0, 0], [2, 2, 3, 1, 0, 0]];
        let graph = [nodes.concat(), edges.concat()].concat();
        assert_eq!(others(&graph, 1), [nodes[1], nodes[2], [2, 1, 3, 0, 0, 0]]);
        assert_eq!(others(&graph, 2), [nodes[0], edges[0]]);
        assert_eq!(others(&graph, 3).concat().len(), graph.len());
    }

    #[test]
    fn wrong_verdicts_and_sheets_are_found_out() {
        let returns = vec![3, 5, 0, 0, 0, 0];
        let input = [DELIVERIES.concat(), returns].into();
        let (mut random, mut checked) = (Random::new(1), Checked::default());
        let mut right = |verdict, sheet: &[u8]| {
            assembled(&input, verdict, sheet, &mut random, &mut checked).is_ok()
        };
        assert!(right(2, &SHEET));
        assert!(!right(1, &SHEET) && !right(2, &[]) && !right(2, &[1, 0, 0, 255, 0, 255]));
        assert_eq!(checked.assembled, 1);
    }
}
