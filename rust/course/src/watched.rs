//! Examples of watching: those of the paper, its refusals, and each closed side of a case study with its rules, from each method that it provides. A call is one file
//! that the program reads: the lengths of the first two files and of the output, two bytes each, low byte first, whether a work buffer is lent, the start method,
//! then the three files.

use crate::calls::decimals;
use crate::cases::Case;
use crate::Example;
use second::record::Limits;
use second::{watch, Outcome};

type Record = [u8; 6];
/// The published length of watching's work buffer.
const ROOM: usize = 46_949;
/// Room for every trail: one record for each node and state, and the bad one.
pub const LONG: usize = 6 * (256 * 7 + 1);
/// Bytes before the files.
const HEADER: usize = 8;

/// What a call is lent: bytes of output, and a work buffer or none.
type Lent = (usize, bool);

fn example(name: &str, files: [&[u8]; 3], start: u8, (out_len, lends_work): Lent) -> Example {
    let [interface, graph, _] = files.map(<[u8]>::len);
    let lengths = [interface, graph, out_len].map(|n| (n as u16).to_le_bytes()).concat();
    let header = [&lengths[..], &[u8::from(lends_work), start]].concat();
    Example { name: format!("watch-{name}.bin"), bytes: [header, files.concat()].concat() }
}

fn whole(name: &str, interface: Record, graph: &[Record], rules: &[Record], start: u8) -> Example {
    let files = [&interface[..], &graph.concat(), &rules.concat()];
    example(name, files, start, (LONG, true))
}

const INTERFACE: Record = [5, 1, 1, 0, 0, 0];
const ENTRY: Record = [1, 1, 0, 1, 0, 0];
/// Entry 0 calls method 1 and comes to node 1, which returns.
const P10: [Record; 3] = [ENTRY, [1, 1, 1, 0, 0, 0], [2, 0, 1, 1, 0, 0]];
/// The same with an entry that returns.
const P11: [Record; 4] = [P10[0], P10[1], [1, 1, 1, 1, 0, 0], P10[2]];
const RULES: [Record; 1] = [[4, 0, 2, 1, 1, 7]];

pub fn of_the_paper() -> Vec<Example> {
    let node_of_2 = [ENTRY, [1, 2, 0, 1, 0, 0]];
    vec![
        whole("p10", INTERFACE, &P10, &RULES, 1),
        whole("p11", INTERFACE, &P11, &RULES, 1),
        whole("p11-without-rules", INTERFACE, &P11, &[], 1),
        whole("p11-no-node", INTERFACE, &[], &RULES, 1),
        whole("method-without-an-entry", [5, 7, 1, 0, 0, 0], &P11, &RULES, 1),
        whole("seven-calls-deep", INTERFACE, &P10, &by_depth(), 1),
        whole("3-start-method-0", INTERFACE, &P11, &RULES, 0),
        whole("3-start-method-9", INTERFACE, &P11, &RULES, 9),
        whole("files-before-start-method", INTERFACE, &P11, &[[4, 7, 2, 1, 1, 7]], 9),
        whole("start-method-before-9", [5, 2, 0, 0, 0, 0], &P11, &RULES, 0),
        whole("9-graph-node", INTERFACE, &node_of_2, &RULES, 1),
        whole("9-graph-call", [5, 1, 0, 0, 0, 0], &P11, &RULES, 1),
        whole("9-before-10", [5, 1, 2, 0, 0, 0], &P11, &RULES, 1),
        whole("10-requires-2-provides-1", [5, 1, 2, 0, 0, 0], &P11[..3], &RULES, 1),
        whole("10-start-method-2", INTERFACE, &P11, &RULES, 2),
    ]
}

/// The state counts the calls of method 1 that are open.
fn by_depth() -> Vec<Record> {
    (0..7).map(|state| [4, state, 1, 1, 1, state + 1]).collect()
}

pub fn of_lent_buffers() -> Vec<Example> {
    let [bad, clean, rules] = [P11.concat(), P10.concat(), RULES.concat()];
    let files = [&INTERFACE[..], &bad, &rules];
    vec![
        example("12-output-of-11-bytes", files, 1, (11, true)),
        example("12-output-of-12-bytes", files, 1, (12, true)),
        example("12-no-output-for-no-trail", [&INTERFACE, &clean, &rules], 1, (0, true)),
        example("10-before-12", files, 2, (0, true)),
        example("13-no-work-buffer", files, 1, (LONG, false)),
        example("13-before-files", [&[5], &bad, &rules], 1, (LONG, false)),
    ]
}

pub fn of_cases(cases: &[Case]) -> Vec<Example> {
    let mut all = Vec::new();
    for case in cases {
        for ((_, interface), (_, rules)) in case.files("interface").zip(case.files("rules")) {
            let [provided, required] = [interface[1], interface[2]];
            if required & !provided != 0 {
                continue;
            }
            for (name, graph) in case.files("graph") {
                for start in (1..=8).filter(|start| provided >> (start - 1) & 1 == 1) {
                    let name = format!("{name}-from-{start}-of-{}", case.name);
                    all.push(example(&name, [interface, graph, rules], start, (LONG, true)));
                }
            }
        }
    }
    all
}

/// What the program prints of a call, as the second implementation has it.
pub fn lines(name: &str, bytes: &[u8]) -> String {
    let number = |at: usize| usize::from(u16::from_le_bytes([bytes[at], bytes[at + 1]]));
    let (interface, rest) = bytes[HEADER..].split_at(number(0));
    let (graph, rules) = rest.split_at(number(2));
    let work_len = if bytes[6] == 1 { ROOM } else { 0 };
    let start = bytes[7];
    let said = watch(&Limits::DESK, interface, graph, rules, start, number(4), work_len, ROOM);
    verdict_lines(name, said)
}

/// What the program prints of a verdict on runs.
pub fn verdict_lines(name: &str, said: Outcome) -> String {
    match said {
        Outcome::Refused(r) => format!("{name}: refused {} {} {}\n", r.number, r.file, r.record),
        Outcome::Said { verdict: 1, .. } => format!("{name}: clean\n"),
        Outcome::Said { verdict: 3, .. } => format!("{name}: impossible\n"),
        Outcome::Said { values, written, .. } => {
            format!("{name}: bad {}\n{}", values[0], decimals(&written, 6))
        }
    }
}
