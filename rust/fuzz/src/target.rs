//! The calls of the boundary, and what is known of each without a second implementation.

use compare::calls::Call;
use compare::{checks, compose, deliveries, join, judge, model, show, simulation, watch, Input};
use generator::generate::{Kind, Random};
use tintboulder::{
    Answer, OnFile, Record, CHECK_GRAPH, CHECK_INTERFACE, CHECK_PROPERTY, CHECK_RULES,
};

#[derive(Clone, Copy)]
pub struct Target {
    pub name: &'static str,
    /// The published length of each work buffer that is lent.
    pub rooms: &'static [fn() -> usize],
    /// The call with an output and the work buffers.
    pub call: fn(&Input, &mut [u8], &mut [&mut [u8]]) -> Answer,
    /// Files that are mostly accepted.
    pub input: fn(&mut Random) -> Input,
    /// How many values each of its verdicts names, from verdict 1 on.
    pub values: &'static [usize],
    pub writes: Writes,
}

/// What a verdict other than a refusal writes.
#[derive(Clone, Copy, PartialEq)]
pub enum Writes {
    Nothing,
    /// One record.
    Record,
    /// As many records as verdict 2 says, and nothing by the others.
    Records,
    /// A graph file with as many nodes and edges as the answer says.
    Graph,
    /// A line for each node of the first file.
    Relation,
}

const LINE: u64 = 32;

/// In the order of `Kind::ALL`.
const CHECKS: [OnFile; 4] = [CHECK_GRAPH, CHECK_PROPERTY, CHECK_RULES, CHECK_INTERFACE];

pub const TARGETS: [Target; 14] = [
    check::<0>("check graph"),
    check::<1>("check property"),
    check::<2>("check rules"),
    check::<3>("check interface"),
    of(judge::CALL, &[0, 1], Writes::Records),
    of(simulation::CALL, &[0, 1], Writes::Relation),
    of(model::CALL, &[2], Writes::Graph),
    of(join::CALL, &[4], Writes::Graph),
    of(show::CALL, &[0], Writes::Record),
    of(watch::CALL, &[0, 1], Writes::Records),
    of(compose::CALL, &[0, 1, 0], Writes::Records),
    of(deliveries::ASSEMBLE, &[2], Writes::Graph),
    of(deliveries::JUDGE, &[0, 1], Writes::Records),
    of(compose::BOTH, &[0, 1, 0], Writes::Records),
];

const fn of(call: Call, values: &'static [usize], writes: Writes) -> Target {
    let Call { name, rooms, proved, input, .. } = call;
    Target { name, rooms, call: proved, input, values, writes }
}

/// The check of a kind by its place. It is lent nothing: whatever is offered stays as it is.
const fn check<const KIND: usize>(name: &'static str) -> Target {
    Target {
        name,
        rooms: &[],
        call: |input, _, _| CHECKS[KIND].answer(&input.files[0]),
        input: |random| [checks::file(random, Kind::ALL[KIND])].into(),
        values: &[2],
        writes: Writes::Nothing,
    }
}

impl Target {
    /// Bytes of the result, by an answer that is no refusal.
    pub fn bytes(&self, input: &Input, answer: &Answer) -> u64 {
        let record = size_of::<Record>() as u64;
        match self.writes {
            Writes::Nothing => 0,
            Writes::Record => record,
            Writes::Records if answer.verdict == 2 => answer.first.saturating_mul(record),
            Writes::Records => 0,
            Writes::Graph => answer.first.saturating_add(answer.second).saturating_mul(record),
            Writes::Relation => CHECK_GRAPH.answer(&input.files[0]).first * LINE,
        }
    }
}
