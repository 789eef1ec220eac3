//! The public calls: their refusals in the published order, then what they say.

use crate::deliveries::{check_deliveries, has_repeated_revision, standing_within, Delivery};
use crate::files::{check_graph, check_interface, check_property, check_rules, Fault};
use crate::graph::Graph;
use crate::join::{fit_joined, joined, joined_within};
use crate::model::maximal_model;
use crate::monitor::Monitor;
use crate::record::{method, Interface, Limits, Record, Row, Rule, INTERNAL, RECORD_LEN};
use crate::refusal::{number, Refusal};
use crate::set::ByteSet;
use crate::sheet::fault_sheet;
use crate::simulation::{largest_simulation, uncovered_entry};
use crate::trail::bad_trail;
use crate::{Outcome, Sides, Unwritten};

/// Holds, yes, written, shown or clean.
const POSITIVE: u32 = 1;
/// Fails, no or bad.
const NEGATIVE: u32 = 2;
/// No graph conforms to an unwritten side and has all its entries.
const IMPOSSIBLE: u32 = 3;

/// Judging: does the graph satisfy the property?
pub fn judge(
    limits: &Limits,
    graph: &[u8],
    property: &[u8],
    out_len: usize,
    work_len: usize,
    room: usize,
) -> Outcome {
    outcome(|| {
        check_work(work_len, room)?;
        let graph = in_file(1, check_graph(graph, limits))?;
        let rows = in_file(2, check_property(property, limits))?;
        say_records(fault_sheet(&graph, &rows), out_len)
    })
}

/// Comparing: does the second graph simulate the first?
pub fn compare(
    limits: &Limits,
    first: &[u8],
    second: &[u8],
    out_len: usize,
    work_len: usize,
    room: usize,
) -> Outcome {
    outcome(|| {
        check_work(work_len, room)?;
        let first = in_file(1, check_graph(first, limits))?;
        let second = in_file(2, check_graph(second, limits))?;
        let related = largest_simulation(&first, &second);
        let written = related.iter().flat_map(ByteSet::bytes).collect();
        match uncovered_entry(&first, &second, &related) {
            None => say(POSITIVE, vec![], written, out_len),
            Some(entry) => say(NEGATIVE, vec![entry as u64], written, out_len),
        }
    })
}

/// Modelling: the maximal model of the interface and property.
pub fn model(
    limits: &Limits,
    interface: &[u8],
    property: &[u8],
    out_len: usize,
    work_len: usize,
    room: usize,
) -> Outcome {
    outcome(|| {
        check_work(work_len, room)?;
        let interface = in_file(1, check_interface(interface))?;
        let rows = in_file(2, check_property(property, limits))?;
        let model = small(maximal_model(limits, &interface, &rows))?;
        say(POSITIVE, sizes(&model), model.bytes(), out_len)
    })
}

/// Joining: both graphs in one, and their interfaces united.
pub fn join(
    limits: &Limits,
    interface1: &[u8],
    graph1: &[u8],
    interface2: &[u8],
    graph2: &[u8],
    out_len: usize,
) -> Outcome {
    outcome(|| {
        let interface1 = in_file(1, check_interface(interface1))?;
        let graph1 = in_file(2, check_graph(graph1, limits))?;
        let interface2 = in_file(3, check_interface(interface2))?;
        let graph2 = in_file(4, check_graph(graph2, limits))?;
        check_of_interface(2, &graph1, &interface1)?;
        check_of_interface(4, &graph2, &interface2)?;
        check_disjoint(&interface1, &interface2)?;
        let graph = small(joined_within(limits, &graph1, &graph2))?;
        let united = interface1.united(&interface2);
        let mut values = sizes(&graph);
        values.extend([united.provided, united.required].map(u64::from));
        say(POSITIVE, values, graph.bytes(), out_len)
    })
}

/// Showing: the record of a node of the joined graph, in the file it came from.
pub fn show(limits: &Limits, graph1: &[u8], graph2: &[u8], number: usize) -> Outcome {
    outcome(|| {
        let first = in_file(1, check_graph(graph1, limits))?.nodes.len();
        let second = in_file(2, check_graph(graph2, limits))?.nodes.len();
        let (file, node) = if number < first { (graph1, number) } else { (graph2, number - first) };
        if number >= first + second {
            return Err(Refusal::of_call(number::PAST_THE_LAST));
        }
        let written = file[node * RECORD_LEN..][..RECORD_LEN].to_vec();
        say(POSITIVE, vec![], written, RECORD_LEN)
    })
}

/// Watching: is a run of the graph bad?
#[expect(clippy::too_many_arguments, reason = "three files, a method and three lengths are given")]
pub fn watch(
    limits: &Limits,
    interface: &[u8],
    graph: &[u8],
    rules: &[u8],
    start: u8,
    out_len: usize,
    work_len: usize,
    room: usize,
) -> Outcome {
    outcome(|| {
        check_work(work_len, room)?;
        let interface = in_file(1, check_interface(interface))?;
        let graph = in_file(2, check_graph(graph, limits))?;
        let rules = in_file(3, check_rules(rules))?;
        let start = check_start(start)?;
        check_of_interface(2, &graph, &interface)?;
        check_provided(&interface, start)?;
        say_runs(&graph, &rules, start, out_len)
    })
}

/// The composed verdict: is a run of the known graph joined with the other side's model bad?
pub fn compose(
    limits: &Limits,
    sides: &Sides,
    rules: &[u8],
    start: u8,
    out_len: usize,
    lent: [(usize, usize); 2],
) -> Outcome {
    outcome(|| {
        check_lent(lent)?;
        let interface = in_file(1, check_interface(sides.known_interface))?;
        let graph = in_file(2, check_graph(sides.known_graph, limits))?;
        let other = Unwritten { interface: sides.other_interface, property: sides.property };
        let other = check_unwritten(3, &other, limits)?;
        let rules = in_file(5, check_rules(rules))?;
        let start = check_start(start)?;
        check_of_interface(2, &graph, &interface)?;
        let known = Side { interface, code: Code::Graph(graph) };
        say_composed(limits, [known, other], &rules, start, out_len)
    })
}

/// The composed verdict on two unwritten sides: is a run of their models, joined, bad?
pub fn compose_both(
    limits: &Limits,
    sides: &[Unwritten; 2],
    rules: &[u8],
    start: u8,
    out_len: usize,
    lent: [(usize, usize); 2],
) -> Outcome {
    outcome(|| {
        check_lent(lent)?;
        let first = check_unwritten(1, &sides[0], limits)?;
        let second = check_unwritten(3, &sides[1], limits)?;
        let rules = in_file(5, check_rules(rules))?;
        let start = check_start(start)?;
        say_composed(limits, [first, second], &rules, start, out_len)
    })
}

/// Assembling: the graph of the deliveries that stand.
pub fn assemble(limits: &Limits, deliveries: &[u8], out_len: usize) -> Outcome {
    outcome(|| {
        let deliveries = in_file(1, check_deliveries(deliveries, limits))?;
        let graph = standing_graph(limits, &deliveries)?;
        say(POSITIVE, sizes(&graph), graph.bytes(), out_len)
    })
}

/// Judging deliveries: does the graph of those that stand satisfy the property?
pub fn judge_deliveries(
    limits: &Limits,
    deliveries: &[u8],
    property: &[u8],
    out_len: usize,
    lent: [(usize, usize); 2],
) -> Outcome {
    outcome(|| {
        check_lent(lent)?;
        let deliveries = in_file(1, check_deliveries(deliveries, limits))?;
        let rows = in_file(2, check_property(property, limits))?;
        let graph = standing_graph(limits, &deliveries)?;
        say_records(fault_sheet(&graph, &rows), out_len)
    })
}

/// A side of a composed verdict whose files are accepted.
struct Side {
    interface: Interface,
    code: Code,
}

enum Code {
    Graph(Graph),
    /// A model of these rows stands for it.
    Unwritten(Vec<Row>),
}

impl Side {
    /// A graph without an entry is refused; whether a model lacks one is for the verdict to say.
    fn check_entries(&self) -> Result<(), Refusal> {
        match &self.code {
            Code::Graph(graph) => check(graph.has_all_entries(&self.interface), number::NO_ENTRY),
            Code::Unwritten(_) => Ok(()),
        }
    }

    fn graph(self, limits: &Limits) -> Result<Graph, Refusal> {
        match self.code {
            Code::Graph(graph) => Ok(graph),
            Code::Unwritten(rows) => small(maximal_model(limits, &self.interface, &rows)),
        }
    }
}

fn outcome(call: impl FnOnce() -> Result<Outcome, Refusal>) -> Outcome {
    call().unwrap_or_else(Outcome::Refused)
}

fn in_file<T>(file: u8, checked: Result<T, Fault>) -> Result<T, Refusal> {
    checked.map_err(|(number, record)| Refusal { number, file, record })
}

/// The interface file has this position, the property the next one.
fn check_unwritten(file: u8, side: &Unwritten, limits: &Limits) -> Result<Side, Refusal> {
    let interface = in_file(file, check_interface(side.interface))?;
    let rows = in_file(file + 1, check_property(side.property, limits))?;
    Ok(Side { interface, code: Code::Unwritten(rows) })
}

/// Refuses by a number that no single file causes, unless the condition is met.
fn check(condition: bool, number: u8) -> Result<(), Refusal> {
    if condition {
        Ok(())
    } else {
        Err(Refusal::of_call(number))
    }
}

fn check_work(work_len: usize, room: usize) -> Result<(), Refusal> {
    check(work_len >= room, number::SHORT_WORK)
}

/// Each buffer by its length and the published one.
fn check_lent(lent: [(usize, usize); 2]) -> Result<(), Refusal> {
    lent.into_iter().try_for_each(|(work_len, room)| check_work(work_len, room))
}

fn check_start(start: u8) -> Result<usize, Refusal> {
    method(start).ok_or(Refusal::of_call(number::RANGE))
}

fn check_of_interface(file: u8, graph: &Graph, interface: &Interface) -> Result<(), Refusal> {
    let node = graph.nodes.iter().position(|node| !interface.provides(node.method));
    let unrequired = |label| label != INTERNAL && !interface.requires(label);
    let edge = graph.edges.iter().position(|edge| unrequired(edge.label));
    match node.or(edge.map(|edge| graph.nodes.len() + edge)) {
        Some(record) => Err(Refusal { number: number::NOT_OF_INTERFACE, file, record }),
        None => Ok(()),
    }
}

fn check_disjoint(first: &Interface, second: &Interface) -> Result<(), Refusal> {
    check(first.provided & second.provided == 0, number::NOT_OF_INTERFACE)
}

fn check_provided(interface: &Interface, start: usize) -> Result<(), Refusal> {
    let closed = interface.required & !interface.provided == 0;
    check(closed && interface.provides(start), number::NOT_PROVIDED)
}

/// A graph that is not there because it would pass the limits is refused.
fn small(graph: Option<Graph>) -> Result<Graph, Refusal> {
    graph.ok_or(Refusal::of_call(number::TOO_LARGE))
}

fn standing_graph(limits: &Limits, deliveries: &[Delivery]) -> Result<Graph, Refusal> {
    check(!has_repeated_revision(deliveries), number::REPEATED_REVISION)?;
    small(standing_within(limits, deliveries))
}

fn sizes(graph: &Graph) -> Vec<u64> {
    vec![graph.nodes.len() as u64, graph.edges.len() as u64]
}

fn say(
    verdict: u32,
    values: Vec<u64>,
    written: Vec<u8>,
    out_len: usize,
) -> Result<Outcome, Refusal> {
    check(written.len() <= out_len, number::SHORT_OUTPUT)?;
    Ok(Outcome::Said { verdict, values, written })
}

/// The negative verdict with the records that explain it, or else the positive one.
fn say_records(records: Option<Vec<Record>>, out_len: usize) -> Result<Outcome, Refusal> {
    match records {
        None => say(POSITIVE, vec![], vec![], out_len),
        Some(records) => say(NEGATIVE, vec![records.len() as u64], records.concat(), out_len),
    }
}

fn say_runs(
    graph: &Graph,
    rules: &[Rule],
    start: usize,
    out_len: usize,
) -> Result<Outcome, Refusal> {
    say_records(bad_trail(graph, &Monitor::new(rules), start), out_len)
}

/// Both sides joined and watched, or impossible where a model lacks an entry; unless they share a
/// method, the known graph lacks an entry, a method is left unprovided, or they pass the limits,
/// alone or together.
fn say_composed(
    limits: &Limits,
    [first, second]: [Side; 2],
    rules: &[Rule],
    start: usize,
    out_len: usize,
) -> Result<Outcome, Refusal> {
    check_disjoint(&first.interface, &second.interface)?;
    [&first, &second].into_iter().try_for_each(Side::check_entries)?;
    check_provided(&first.interface.united(&second.interface), start)?;
    let interfaces = [first.interface, second.interface];
    let [first, second] = [first.graph(limits)?, second.graph(limits)?];
    // What is refused does not depend on the verdict, so the sizes come first.
    check(fit_joined(limits, &first, &second), number::TOO_LARGE)?;
    if !(first.has_all_entries(&interfaces[0]) && second.has_all_entries(&interfaces[1])) {
        return say(IMPOSSIBLE, vec![], vec![], out_len);
    }
    say_runs(&joined(&first, &second), rules, start, out_len)
}
