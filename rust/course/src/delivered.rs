//! Examples of deliveries: which of them stand, the refusals, the limits, and judging what stands. A call is one file that the program reads. Of assembling: the output's
//! length, two bytes, low byte first, then the deliveries. Of judging: the lengths of the deliveries and of the output, two bytes each, low byte first, whether a store
//! and whether a work buffer is lent, then the deliveries and the property.

use crate::calls::written_lines;
use crate::examples::with_edges;
use crate::judged::verdict_lines;
use crate::Example;
use second::record::{Limits, RECORD_LEN};
use second::{assemble, judge_deliveries};

/// The published lengths of the store and of the work buffer.
const ROOMS: [usize; 2] = [26_112, 41_664];
/// Room for every standing graph, and for the sheets of these examples.
const LONG: usize = 26_112;
/// Bytes before the files of a call of judging.
const HEADER: usize = 6;

fn assembled(name: &str, deliveries: &[u8], out_len: usize) -> Example {
    let bytes = [&(out_len as u16).to_le_bytes(), deliveries].concat();
    Example { name: format!("assemble-{name}.bin"), bytes }
}

/// A call with room for every standing graph; the deliveries are in decimals.
fn whole((name, deliveries): (&str, &str)) -> Example {
    assembled(name, &records(deliveries), LONG)
}

/// Records in decimals, parted by slashes; zeros at the end of a record are left out.
pub fn records(text: &str) -> Vec<u8> {
    let record = |text: &str| {
        let mut record = [0; RECORD_LEN];
        for (field, decimal) in record.iter_mut().zip(text.split_whitespace()) {
            *field = decimal.parse().expect("a byte");
        }
        record
    };
    text.split('/').filter(|record| !record.trim().is_empty()).flat_map(record).collect()
}

pub fn of_the_paper() -> Vec<Example> {
    let accepted = [
        ("no-byte", ""),
        ("opening-alone", "6 1 1"),
        ("highest-revision-first", "6 1 255 / 1 1 0 1 / 6 1 1 / 1 1 1 1"),
        ("methods-ascend", "6 2 1 / 1 2 0 1 / 6 1 1 / 1 1 0 1"),
        ("numbers-move", "6 2 3 / 1 2 0 1 / 2 0 0 0 / 6 1 9 / 1 1 0 1 / 1 1 1 0 / 2 0 2 1"),
        ("method-emptied", "6 1 1 / 1 1 0 1 / 6 1 2"),
        ("order-starts-again", "6 1 1 / 1 1 / 2 0 0 0 / 6 1 2 / 1 1 / 2 0 0 0"),
        ("equal-revisions-of-two-methods", "6 1 1 / 6 2 1 / 6 1 2 / 6 2 2"),
    ];
    accepted.map(whole).into()
}

pub fn of_refusals() -> Vec<Example> {
    let refused = [
        ("2-node-before-any-opening", "1 1"),
        ("2-edge-before-any-opening", "2 0 0 0"),
        ("2-row-before-any-opening", "3 1"),
        ("2-kind-0", "6 1 1 / 0"),
        ("2-kind-7", "6 1 1 / 7 1 1"),
        ("2-interface-in-a-delivery", "6 1 1 / 5 1 1"),
        ("2-node-after-edge", "6 1 1 / 1 1 / 2 0 0 0 / 1 1"),
        ("2-later-than-3", "6 0 1 / 6 1 1 / 255"),
        ("3-method-0", "6 0 1"),
        ("3-method-9", "6 9 1"),
        ("3-revision-0", "6 1 0"),
        ("3-fourth-byte-not-0", "6 1 1 1"),
        ("3-fifth-byte-not-0", "6 1 1 0 7"),
        ("3-sixth-byte-not-0", "6 1 1 0 0 7"),
        ("3-later-than-8", "6 1 1 / 1 2 / 6 1 2 / 1 9"),
        ("4-edge-twice", "6 1 1 / 1 1 / 2 0 0 0 / 2 0 0 0"),
        ("7-no-node", "6 1 1 / 2 0 0 0"),
        ("7-own-nodes-only", "6 1 1 / 1 1 / 6 1 2 / 1 1 / 2 0 0 1"),
        ("8-foreign-node", "6 1 1 / 1 2"),
        ("8-node-before-edge", "6 1 1 / 1 1 / 1 2 / 2 0 0 1"),
        ("7-later-than-8", "6 1 1 / 1 2 / 6 1 2 / 1 1 / 2 0 0 1"),
        ("14-one-revision-twice", "6 1 1 / 6 1 1"),
        ("14-neither-stands", "6 1 5 / 6 1 7 / 6 1 5"),
        ("8-before-14", "6 1 1 / 6 1 1 / 1 2"),
    ];
    let opening_and_more = records("6 1 1 / 6 1 1");
    let mut all = vec![
        assembled("1-5-bytes", &opening_and_more[..5], LONG),
        assembled("1-opening-and-a-byte", &opening_and_more[..7], LONG),
    ];
    all.extend(refused.map(whole));
    all
}

fn delivery(method: u8, revision: u8, nodes: usize) -> Vec<u8> {
    delivery_with(method, revision, nodes, 0)
}

/// A delivery of entries, with so many edges.
fn delivery_with(method: u8, revision: u8, nodes: usize, edges: usize) -> Vec<u8> {
    let graph = with_edges([1, method, 0, 1, 0, 0], nodes, edges);
    [&[6, method, revision, 0, 0, 0], graph.as_flattened()].concat()
}

/// Methods 1 and 2, half of the edges of a graph each and some more in the second.
fn edges_of_two(more: usize) -> Vec<u8> {
    [delivery_with(1, 1, 46, 2048), delivery_with(2, 1, 46, 2048 + more)].concat()
}

pub fn at_the_limits() -> Vec<Example> {
    let both = |second| [delivery(1, 1, 200), delivery(2, 1, second)].concat();
    let joined = |name: &str, parts: &[Vec<u8>]| assembled(name, &parts.concat(), LONG);
    let revisions = |method| (1..=255).map(move |revision| delivery(method, revision, 1));
    vec![
        joined("5-old-revision-of-257-nodes", &[delivery(1, 1, 257), delivery(1, 2, 0)]),
        joined("5-old-revision-of-4097-edges", &[delivery_with(1, 1, 65, 4097), delivery(1, 2, 0)]),
        joined("200-and-56-nodes", &[both(56)]),
        joined("11-200-and-57-nodes", &[both(57)]),
        joined("11-2048-and-2049-edges", &[edges_of_two(1)]),
        joined("200-and-57-nodes-less-200", &[both(57), delivery(1, 2, 0)]),
        joined("14-before-11", &[both(57), delivery(1, 1, 0)]),
        joined("every-revision-of-every-method", &(1..=8).flat_map(revisions).collect::<Vec<_>>()),
    ]
}

pub fn of_lent_buffers() -> Vec<Example> {
    let node = records("6 1 1 / 1 1 0 1");
    vec![
        assembled("12-output-of-5-bytes", &node, 5),
        assembled("12-output-of-6-bytes", &node, 6),
        assembled("12-no-output-for-no-node", &node[..6], 0),
        assembled("11-before-12", &[delivery(1, 1, 256), delivery(2, 1, 1)].concat(), 0),
    ]
}

/// What a call is lent: bytes of output, a store or none, and a work buffer or none.
type Lent = (usize, [bool; 2]);

fn judged(name: &str, deliveries: &[u8], property: &[u8], (out_len, lends): Lent) -> Example {
    let lengths = [deliveries.len(), out_len].map(|n| (n as u16).to_le_bytes()).concat();
    let bytes = [&lengths, &lends.map(u8::from)[..], deliveries, property].concat();
    Example { name: format!("deliveries-{name}.bin"), bytes }
}

pub fn of_judging() -> Vec<Example> {
    let (two, in_one) = ("6 1 1 / 1 1 0 1 / 6 2 1 / 1 2 0 1", "3 3 1");
    let repeated = "6 1 1 / 6 1 1";
    let roomy = (LONG, [true; 2]);
    let in_decimals = |name: &str, deliveries: &str, property: &str, lent| {
        judged(name, &records(deliveries), &records(property), lent)
    };
    let second_first = "6 2 1 / 1 2 0 1 / 6 1 1 / 1 1 0 1";
    let of_257 = [delivery(1, 1, 256), delivery(2, 1, 1)].concat();
    vec![
        in_decimals("second-method-fails", two, in_one, roomy),
        in_decimals("second-method-first", second_first, in_one, roomy),
        in_decimals("second-method-emptied", &format!("6 2 2 / {two}"), in_one, roomy),
        in_decimals("no-byte", "", "3 2", roomy),
        judged("2048-and-2048-edges", &edges_of_two(0), &records("3 6"), (0, [true; 2])),
        in_decimals("7-property-before-14", repeated, "3 7 0 9", roomy),
        in_decimals("14-one-revision-twice", repeated, in_one, roomy),
        in_decimals("8-deliveries-before-property", "6 1 1 / 1 2", "", roomy),
        in_decimals("6-no-row", two, "", roomy),
        in_decimals("12-output-of-5-bytes", two, in_one, (5, [true; 2])),
        in_decimals("12-output-of-6-bytes", two, in_one, (6, [true; 2])),
        in_decimals("14-before-12", repeated, in_one, (0, [true; 2])),
        judged("11-before-12", &of_257, &records(in_one), (0, [true; 2])),
        in_decimals("13-no-store", two, in_one, (LONG, [false, true])),
        in_decimals("13-no-work-buffer", two, in_one, (LONG, [true, false])),
        in_decimals("13-before-files", "1 1", "", (LONG, [true, false])),
    ]
}

/// What the program prints of a call of assembling, as the second implementation has it.
pub fn assembled_lines(name: &str, bytes: &[u8]) -> String {
    let (out_len, deliveries) = bytes.split_at(2);
    let out_len = u16::from_le_bytes([out_len[0], out_len[1]]);
    written_lines(name, assemble(&Limits::DESK, deliveries, out_len.into()))
}

/// The same of a call of judging deliveries.
pub fn judged_lines(name: &str, bytes: &[u8]) -> String {
    let number = |at: usize| usize::from(u16::from_le_bytes([bytes[at], bytes[at + 1]]));
    let (deliveries, property) = bytes[HEADER..].split_at(number(0));
    let lent = [0, 1].map(|at| (usize::from(bytes[4 + at]) * ROOMS[at], ROOMS[at]));
    verdict_lines(name, judge_deliveries(&Limits::DESK, deliveries, property, number(2), lent))
}
