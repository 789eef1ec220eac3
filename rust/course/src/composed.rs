//! Examples of the composed verdict: a side that is not written beside one that is, the same by operator 10, the refusals, and each case study that has both with each of its properties, from
//! each method of both. A call is one file that the program reads: the lengths of the first four files and of the output, two bytes each, low byte first, whether a
//! store and whether a work buffer is lent, the start method, then the five files.

use crate::cases::Case;
use crate::examples::with_edges;
use crate::modelled::{FALSE, LARGE, NO_STEP};
use crate::watched::{verdict_lines, LONG};
use crate::Example;
use second::record::Limits;
use second::{compose, Sides};

type Record = [u8; 6];
/// The published lengths of the store and of the work buffer.
const ROOMS: [usize; 2] = [46_949, 103_456];
/// Bytes before the files.
const HEADER: usize = 13;

/// What a call is lent: bytes of output, a store or none, and a work buffer or none.
pub type Lent = (usize, [bool; 2]);

pub fn example(
    verb: &str,
    name: &str,
    files: [&[u8]; 5],
    start: u8,
    (out_len, lends): Lent,
) -> Example {
    let [first, second, third, fourth, _] = files.map(<[u8]>::len);
    let lengths = [first, second, third, fourth, out_len].map(|n| (n as u16).to_le_bytes());
    let [store, work] = lends.map(u8::from);
    let header = [&lengths.concat()[..], &[store, work, start]].concat();
    Example { name: format!("{verb}-{name}.bin"), bytes: [header, files.concat()].concat() }
}

/// What the file of a call holds.
pub struct Call<'a> {
    pub files: [&'a [u8]; 5],
    pub start: u8,
    pub out_len: usize,
    lends: [bool; 2],
}

impl Call<'_> {
    pub fn of(bytes: &[u8]) -> Call<'_> {
        let number = |at: usize| usize::from(u16::from_le_bytes([bytes[at], bytes[at + 1]]));
        let (first, rest) = bytes[HEADER..].split_at(number(0));
        let (second, rest) = rest.split_at(number(2));
        let (third, rest) = rest.split_at(number(4));
        let (fourth, fifth) = rest.split_at(number(6));
        let files = [first, second, third, fourth, fifth];
        let lends = [bytes[10], bytes[11]].map(|lends| lends == 1);
        Call { files, start: bytes[12], out_len: number(8), lends }
    }

    /// The length of each buffer that is lent and the published one, by those that are published.
    pub fn lent(&self, rooms: [usize; 2]) -> [(usize, usize); 2] {
        [0, 1].map(|at| (usize::from(self.lends[at]) * rooms[at], rooms[at]))
    }
}

/// The files as records, and the start method.
#[derive(Clone, Copy)]
struct Composition<'a> {
    known: Record,
    graph: &'a [Record],
    other: Record,
    property: &'a [Record],
    rules: &'a [Record],
    start: u8,
}

fn lent(name: &str, call: &Composition, lent: Lent) -> Example {
    let [graph, property, rules] = [call.graph, call.property, call.rules].map(<[_]>::concat);
    let files = [&call.known[..], &graph, &call.other, &property, &rules];
    example("compose", name, files, call.start, lent)
}

fn whole(name: &str, call: Composition) -> Example {
    lent(name, &call, (LONG, [true; 2]))
}

const ENTRY: Record = [1, 1, 0, 1, 0, 0];
const TRUE: Record = [3, 1, 0, 0, 0, 0];
/// No call of method 1, now or after internal steps.
const NO_CALL: [Record; 4] = [[3, 7, 1, 2, 0, 0], [3, 9, 1, 3, 0, 0], [3, 9, 0, 0, 0, 0], FALSE];
/// Not return, now or after a step of any kind.
const NO_RETURN: [Record; 5] = [
    [3, 7, 1, 2, 0, 0],
    [3, 6, 0, 0, 0, 0],
    [3, 7, 3, 4, 0, 0],
    [3, 9, 0, 0, 0, 0],
    [3, 9, 1, 0, 0, 0],
];
/// Method 1 calls method 2 again and again. Method 2 is not written; if it calls method 1, that is bad.
const CALLING: Composition = Composition {
    known: [5, 1, 2, 0, 0, 0],
    graph: &[ENTRY, [2, 0, 2, 0, 0, 0]],
    other: [5, 2, 1, 0, 0, 0],
    property: &[TRUE],
    rules: &[[4, 0, 1, 2, 1, 7]],
    start: 1,
};
/// The same where a return of method 2 is bad.
const RETURNED_TO: Composition = Composition { rules: &[[4, 0, 2, 2, 1, 7]], ..CALLING };
/// Method 1 calls itself, which is bad, and the other side can have no entry.
const ALONE: Composition = Composition {
    known: [5, 1, 3, 0, 0, 0],
    graph: &[ENTRY, [2, 0, 1, 0, 0, 0]],
    property: &[FALSE],
    rules: &[[4, 0, 1, 1, 1, 7]],
    ..CALLING
};

pub fn of_the_paper() -> Vec<Example> {
    vec![
        whole("any-call-is-allowed", CALLING),
        whole("no-call-is-allowed", Composition { property: &NO_CALL, ..CALLING }),
        whole("from-the-other-side", Composition { start: 2, ..CALLING }),
        whole("without-rules", Composition { rules: &[], ..CALLING }),
        whole("any-return-is-allowed", RETURNED_TO),
        whole("no-return-is-allowed", Composition { property: &NO_RETURN, ..RETURNED_TO }),
        whole("no-model-known-side-bad", ALONE),
        whole("no-model-known-side-clean", Composition { rules: CALLING.rules, ..ALONE }),
        whole("no-model-known-side-calls-it", Composition { property: &[FALSE], ..RETURNED_TO }),
        whole("no-known-node", Composition { graph: &[], start: 2, ..CALLING }),
    ]
}

/// The other side takes no step, whatever its label; it may return.
pub fn of_any_label() -> Vec<Example> {
    let property = &NO_STEP[1..];
    vec![
        whole("any-step-is-forbidden", Composition { property, ..CALLING }),
        whole("any-step-is-forbidden-but-return", Composition { property, ..RETURNED_TO }),
    ]
}

pub fn of_refusals() -> Vec<Example> {
    let (row, edge, state_7) = ([TRUE], [[2, 0, 0, 0, 0, 0]], [[4, 7, 1, 2, 1, 7]]);
    let node_of_2: Record = [1, 2, 0, 1, 0, 0];
    let shared = Composition { other: CALLING.known, ..CALLING };
    vec![
        whole("file-1-before-2", Composition { known: [5, 1, 2, 1, 0, 0], graph: &row, ..CALLING }),
        whole("file-2-before-3", Composition { graph: &edge, other: ENTRY, ..CALLING }),
        whole(
            "file-3-before-4",
            Composition { other: [5, 2, 1, 1, 0, 0], property: &edge, ..CALLING },
        ),
        whole("file-4-before-5", Composition { property: &[], rules: &row, ..CALLING }),
        whole("files-before-start-method", Composition { rules: &state_7, start: 9, ..CALLING }),
        whole("3-start-method-0", Composition { start: 0, ..CALLING }),
        whole("3-start-method-9", Composition { start: 9, ..CALLING }),
        whole("start-method-before-9", Composition { start: 0, ..shared }),
        whole("9-graph-node", Composition { graph: &[ENTRY, node_of_2], ..CALLING }),
        whole("9-graph-call", Composition { known: [5, 1, 0, 0, 0, 0], ..CALLING }),
        whole("9-both-provide-1", shared),
        whole("9-graph-before-shared-method", Composition { graph: &[node_of_2], ..shared }),
        whole("9-before-10", Composition { start: 3, ..shared }),
        whole("10-known-side-requires-3", Composition { known: [5, 1, 6, 0, 0, 0], ..CALLING }),
        whole("10-other-side-requires-3", Composition { other: [5, 2, 4, 0, 0, 0], ..CALLING }),
        whole("10-start-method-3", Composition { start: 3, ..CALLING }),
        whole("10-before-11", Composition { other: [5, 254, 1, 0, 0, 0], ..LARGE_MODEL }),
    ]
}

/// A model that passes the limits, beside an empty known side.
const LARGE_MODEL: Composition = Composition {
    known: [5, 0, 0, 0, 0, 0],
    graph: &[],
    other: LARGE[0],
    property: LARGE.split_at(1).1,
    ..CALLING
};

/// The model of method 2 has four states and 16 edges.
pub fn at_the_limits() -> Vec<Example> {
    let joined = |name: &str, nodes: usize, edges: usize| {
        let call = [2, nodes as u8 - 1, 2, 0, 0, 0];
        let graph = [with_edges(ENTRY, nodes, edges - 1), vec![call]].concat();
        whole(name, Composition { graph: &graph, ..CALLING })
    };
    vec![
        whole("11-model-of-336-states", LARGE_MODEL),
        joined("252-and-4-nodes", 252, 1),
        joined("11-253-and-4-nodes", 253, 1),
        joined("4080-and-16-edges", 64, 4080),
        joined("11-4081-and-16-edges", 64, 4081),
    ]
}

pub fn of_lent_buffers() -> Vec<Example> {
    let clean = Composition { property: &NO_CALL, ..CALLING };
    let refused = Composition { known: ENTRY, ..CALLING };
    vec![
        lent("12-output-of-17-bytes", &CALLING, (17, [true; 2])),
        lent("12-output-of-18-bytes", &CALLING, (18, [true; 2])),
        lent("12-no-output-for-no-trail", &clean, (0, [true; 2])),
        lent("11-before-12", &LARGE_MODEL, (0, [true; 2])),
        lent("13-no-store", &CALLING, (LONG, [false, true])),
        lent("13-no-work-buffer", &CALLING, (LONG, [true, false])),
        lent("13-before-files", &refused, (LONG, [false, true])),
    ]
}

/// A case study with another side: what it is called here, its five files and the start method.
pub struct Study {
    pub name: String,
    pub files: [Vec<u8>; 5],
    pub start: u8,
}

/// Each property of each case study that has another side, from each method of both sides.
pub fn studies(cases: &[Case]) -> Vec<Study> {
    cases.iter().filter_map(of_case).flatten().collect()
}

fn of_case(case: &Case) -> Option<Vec<Study>> {
    let (_, known) = case.known("interface").next()?;
    let (_, graph) = case.known("graph").next()?;
    let (_, other) = case.files("interface2").next()?;
    let (_, rules) = case.files("rules").next()?;
    let provided = known[1] | other[1];
    let mut all = Vec::new();
    for (name, property) in case.files("property") {
        for start in (1..=8).filter(|start| provided >> (start - 1) & 1 == 1) {
            let name = format!("{name}-from-{start}-of-{}", case.name);
            let files = [known, graph, other, property, rules].map(<[u8]>::to_vec);
            all.push(Study { name, files, start });
        }
    }
    Some(all)
}

pub fn of_cases(cases: &[Case]) -> Vec<Example> {
    let whole = |study: &Study| {
        let files = study.files.each_ref().map(Vec::as_slice);
        example("compose", &study.name, files, study.start, (LONG, [true; 2]))
    };
    studies(cases).iter().map(whole).collect()
}

/// What the program prints of a call, as the second implementation has it.
pub fn lines(name: &str, bytes: &[u8]) -> String {
    let call = Call::of(bytes);
    let [known_interface, known_graph, other_interface, property, rules] = call.files;
    let sides = Sides { known_interface, known_graph, other_interface, property };
    let (limits, lent) = (&Limits::DESK, call.lent(ROOMS));
    verdict_lines(name, compose(limits, &sides, rules, call.start, call.out_len, lent))
}
