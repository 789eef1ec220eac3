//! Examples of joining: the limits and refusals of the paper, and each known side of a case study with each written other side. A call is one file that the program
//! reads: the lengths of the first three files and of the output, two bytes each, low byte first, then the four files.

use crate::calls::written_lines;
use crate::cases::Case;
use crate::examples::with_edges;
use crate::Example;
use second::join;
use second::record::Limits;

type Record = [u8; 6];
const ENTRY: Record = [1, 1, 0, 1, 0, 0];
const CALLEE: Record = [1, 2, 1, 1, 0, 0];
/// Bytes before the files.
const HEADER: usize = 8;
/// Room for every joined graph.
const LONG: usize = 26_112;

/// Interface and graph of the first side, then of the second.
type Sides<'a> = [&'a [u8]; 4];

fn example(name: &str, files: Sides, out_len: usize) -> Example {
    let [first, second, third, _] = files.map(<[u8]>::len);
    let header: Vec<u8> =
        [first, second, third, out_len].iter().flat_map(|&n| (n as u16).to_le_bytes()).collect();
    Example { name: format!("join-{name}.bin"), bytes: [header, files.concat()].concat() }
}

/// A call with room for every joined graph. The first record of each side is its interface.
fn whole(name: &str, first: &[Record], second: &[Record]) -> Example {
    let [first, second] = [first.concat(), second.concat()];
    let ((interface1, graph1), (interface2, graph2)) = (first.split_at(6), second.split_at(6));
    example(name, [interface1, graph1, interface2, graph2], LONG)
}

/// Method 1 calls 2, and method 2 calls 1 back.
const CALLING: [Record; 3] = [[5, 1, 2, 0, 0, 0], ENTRY, [2, 0, 2, 0, 0, 0]];
const CALLED: [Record; 3] = [[5, 2, 1, 0, 0, 0], CALLEE, [2, 0, 1, 0, 0, 0]];

pub fn of_the_paper() -> Vec<Example> {
    let none = [[5, 0, 0, 0, 0, 0]];
    let of_one: Record = [5, 1, 0, 0, 0, 0];
    vec![
        whole("two-sides", &CALLING, &CALLED),
        whole("empty-sides", &none, &none),
        whole("method-without-an-entry", &[[5, 5, 2, 0, 0, 0], ENTRY], &CALLED),
        whole("9-both-provide-1", &CALLING, &CALLING),
        whole("9-first-graph-node", &[of_one, ENTRY, CALLEE], &CALLED),
        whole("9-first-graph-call", &[of_one, ENTRY, [2, 0, 2, 0, 0, 0]], &CALLED),
        whole("9-second-graph-node", &CALLING, &[CALLED[0], ENTRY]),
        whole("9-second-graph-call", &CALLING, &[[5, 2, 0, 0, 0, 0], CALLED[1], CALLED[2]]),
        whole("9-graph-before-shared-method", &CALLING, &[of_one, CALLEE]),
        whole("graph-before-interface", &[of_one, CALLED[2]], &[[5, 2, 0, 1, 0, 0]]),
        whole("files-before-9", &[of_one, CALLEE], &[of_one, CALLED[2]]),
    ]
}

pub fn at_the_limits() -> Vec<Example> {
    let first = |nodes, edges| [vec![CALLING[0]], with_edges(ENTRY, nodes, edges)].concat();
    let second = |nodes, edges| [vec![CALLED[0]], with_edges(CALLEE, nodes, edges)].concat();
    vec![
        whole("200-and-56-nodes", &first(200, 0), &second(56, 0)),
        whole("11-200-and-57-nodes", &first(200, 0), &second(57, 0)),
        whole("11-2048-and-2049-edges", &first(64, 2048), &second(64, 2049)),
    ]
}

pub fn of_lent_buffers() -> Vec<Example> {
    let [interface1, graph1] = [CALLING[0].to_vec(), CALLING[1..].concat()];
    let [interface2, graph2] = [CALLED[0].to_vec(), CALLED[1..].concat()];
    let files = [&interface1[..], &graph1, &interface2, &graph2];
    vec![
        example("12-output-of-23-bytes", files, 23),
        example("12-output-of-24-bytes", files, 24),
        example("12-no-output-for-no-record", [&interface1, &[], &interface2, &[]], 0),
        example("9-before-12", [&interface1, &graph1, &interface1, &graph1], 0),
    ]
}

pub fn of_cases(cases: &[Case]) -> Vec<Example> {
    let mut all = Vec::new();
    for case in cases {
        let interfaces = case.known("interface").zip(case.files("interface2"));
        for ((_, interface1), (_, interface2)) in interfaces {
            for (name1, graph1) in case.known("graph") {
                for (name2, graph2) in case.files("graph2") {
                    let name = format!("{name1}-{name2}-of-{}", case.name);
                    all.push(example(&name, [interface1, graph1, interface2, graph2], LONG));
                }
            }
        }
    }
    all
}

/// What the program prints of a call, as the second implementation has it.
pub fn lines(name: &str, bytes: &[u8]) -> String {
    let number = |at: usize| usize::from(u16::from_le_bytes([bytes[at], bytes[at + 1]]));
    let (interface1, rest) = bytes[HEADER..].split_at(number(0));
    let (graph1, rest) = rest.split_at(number(2));
    let (interface2, graph2) = rest.split_at(number(4));
    written_lines(name, join(&Limits::DESK, interface1, graph1, interface2, graph2, number(6)))
}
