//! Makes a case smaller while it still shows what it was kept for.

use second::record::{kind, RECORD_LEN};
use std::iter;
use std::ops::Range;

/// A case from which no record and no last byte can be dropped, with the numbers of nodes and rows kept or moved up, and in which no byte can be 0 instead, if
/// `shows` is to stay true.
pub fn shrink(bytes: &[u8], shows: impl Fn(&[u8]) -> bool) -> Vec<u8> {
    let mut case = bytes.to_vec();
    loop {
        let found = smaller(&case).find(|bytes| shows(bytes));
        match found {
            Some(bytes) => case = bytes,
            None => return case,
        }
    }
}

/// A number for which `shows` is true and which no smaller step from `number` down can better.
pub fn least(mut number: usize, shows: impl Fn(usize) -> bool) -> usize {
    let mut step = number;
    while step > 0 {
        if shows(number - step) {
            number -= step;
            step = step.min(number);
        } else {
            step /= 2;
        }
    }
    number
}

fn smaller(case: &[u8]) -> impl Iterator<Item = Vec<u8>> + '_ {
    let records = case.len() / RECORD_LEN;
    let without_part = (0..records).rev().map(move |i| without(case, i * RECORD_LEN, RECORD_LEN));
    let moved_up = (0..records).rev().map(move |i| moved_up(case, i));
    let without_last = case.len().checked_sub(1).map(move |last| without(case, last, 1));
    let cleared = (0..case.len()).filter(|&i| case[i] != 0).map(move |i| {
        let mut bytes = case.to_vec();
        bytes[i] = 0;
        bytes
    });
    without_many(case).chain(moved_up).chain(without_part).chain(without_last).chain(cleared)
}

/// Without half of the records, a quarter, and so on: a long file would take too long record by record.
fn without_many(case: &[u8]) -> impl Iterator<Item = Vec<u8>> + '_ {
    let records = case.len() / RECORD_LEN;
    let counts = iter::successors(Some(records / 2), |count| Some(count / 2));
    let parts = counts.take_while(|&count| count > 8).flat_map(move |count| {
        (0..=records - count).rev().step_by(count).map(move |first| (first, count))
    });
    parts.map(|(first, count)| without(case, first * RECORD_LEN, count * RECORD_LEN))
}

fn without(case: &[u8], from: usize, count: usize) -> Vec<u8> {
    [&case[..from], &case[from + count..]].concat()
}

/// Without a node or row: the numbers behind it move up by one, and edges of the node go with it. In a file of deliveries the numbers are those of its delivery.
fn moved_up(case: &[u8], dropped: usize) -> Vec<u8> {
    let (records, rest) = case.as_chunks::<RECORD_LEN>();
    let dropped_kind = records[dropped][0];
    let part = delivery_around(records, dropped);
    let number = dropped - part.start;
    let mut bytes = Vec::new();
    for (at, record) in records.iter().enumerate().filter(|&(at, _)| at != dropped) {
        let mut record = *record;
        let numbers: &[usize] = match (dropped_kind, record[0], record[1]) {
            _ if !part.contains(&at) => &[],
            (kind::NODE, kind::EDGE, _) => &[1, 3],
            (kind::ROW, kind::ROW, 7 | 8) => &[2, 3],
            (kind::ROW, kind::ROW, 9) => &[3],
            (kind::ROW, kind::ROW, 10) => &[2],
            _ => &[],
        };
        let of_dropped = numbers.iter().any(|&field| usize::from(record[field]) == number);
        if of_dropped && record[0] == kind::EDGE {
            continue;
        }
        for &field in numbers {
            record[field] -= u8::from(usize::from(record[field]) > number);
        }
        bytes.extend(record);
    }
    bytes.extend(rest);
    bytes
}

/// The records between two openings among which this one is, or the whole file if it has none.
fn delivery_around(records: &[[u8; RECORD_LEN]], at: usize) -> Range<usize> {
    let is_opening = |record: &[u8; RECORD_LEN]| record[0] == kind::OPENING;
    let start = records[..at].iter().rposition(is_opening).map_or(0, |opening| opening + 1);
    let end = records[at..].iter().position(is_opening).map_or(records.len(), |far| at + far);
    start..end
}

#[cfg(test)]
mod tests {
    use super::{least, moved_up, shrink};

    #[test]
    fn keeps_only_the_record_that_shows() {
        let bytes: Vec<u8> = (1..=30).collect();
        assert_eq!(shrink(&bytes, |case| case.contains(&15)), [0, 0, 15]);
    }

    #[test]
    fn keeps_as_many_records_as_show() {
        let bytes = [1, 1, 0, 0, 0, 7].repeat(3_000);
        let sevens = |case: &[u8]| case.iter().filter(|&&byte| byte == 7).count();
        assert_eq!(shrink(&bytes, |case| sevens(case) >= 20), [0, 0, 0, 0, 0, 7].repeat(20));
    }

    #[test]
    fn numbers_move_up_with_their_nodes_and_rows() {
        let node = [1, 1, 0, 0, 0, 0];
        let graph = [node, node, node, [2, 0, 0, 1, 0, 0], [2, 0, 0, 2, 0, 0]].concat();
        let step = [node, node, [2, 0, 0, 1, 0, 0]].concat();
        assert_eq!(moved_up(&graph, 1), step);
        let rows = [[3, 9, 2, 2, 0, 0], [3, 1, 0, 0, 0, 0], [3, 8, 0, 2, 0, 0]].concat();
        assert_eq!(moved_up(&rows, 1), [3, 9, 2, 1, 0, 0, 3, 8, 0, 1, 0, 0]);
        let rows = [[3, 10, 2, 0, 0, 0], [3, 1, 0, 0, 0, 0], [3, 10, 0, 0, 0, 0]].concat();
        assert_eq!(moved_up(&rows, 1), [3, 10, 1, 0, 0, 0, 3, 10, 0, 0, 0, 0]);
    }

    #[test]
    fn numbers_move_up_within_a_delivery() {
        let part = [[6, 1, 1, 0, 0, 0], [1, 1, 0, 0, 0, 0], [1, 1, 1, 0, 0, 0]];
        let edges = [[2, 0, 0, 0, 0, 0], [2, 1, 0, 1, 0, 0]];
        let whole = [&part[..], &edges].concat();
        let less = [part[0], part[2], edges[0]];
        assert_eq!(moved_up(&whole.repeat(2).concat(), 6), [&whole[..], &less].concat().concat());
        assert_eq!(moved_up(&whole.repeat(2).concat(), 1), [&less[..], &whole].concat().concat());
        let opening_less = [&whole[..], &whole[1..]].concat();
        assert_eq!(moved_up(&whole.repeat(2).concat(), 5), opening_less.concat());
    }

    #[test]
    fn keeps_a_case_that_cannot_be_smaller() {
        assert_eq!(shrink(&[], |_| true), []);
        assert_eq!(shrink(&[7; 6], |case| case == [7; 6]), [7; 6]);
    }

    #[test]
    fn finds_the_least_number() {
        assert_eq!(least(1_000, |number| number >= 313), 313);
        assert_eq!(least(7, |_| true), 0);
        assert_eq!(least(0, |_| true), 0);
    }
}
