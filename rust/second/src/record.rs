//! The six kinds of six-byte records, their fields and the limits on their number.

/// Length in bytes of every record.
pub const RECORD_LEN: usize = 6;

/// One record as it stands in a file.
pub type Record = [u8; RECORD_LEN];

/// First byte of a record.
pub mod kind {
    pub const NODE: u8 = 1;
    pub const EDGE: u8 = 2;
    pub const ROW: u8 = 3;
    pub const RULE: u8 = 4;
    pub const INTERFACE: u8 = 5;
    pub const OPENING: u8 = 6;
}

/// Second byte of a row.
mod operator {
    pub const TRUE: u8 = 1;
    pub const FALSE: u8 = 2;
    pub const IN: u8 = 3;
    pub const NOT_IN: u8 = 4;
    pub const RETURN: u8 = 5;
    pub const NOT_RETURN: u8 = 6;
    pub const AND: u8 = 7;
    pub const OR: u8 = 8;
    pub const BOX: u8 = 9;
    /// A box over every label.
    pub const BOX_ALL: u8 = 10;
}

/// Number of methods; they are numbered from 1.
pub const METHODS: usize = 8;
/// Number of labels: the internal step and a call of each method.
pub const LABELS: usize = METHODS + 1;
/// Label of an internal step.
pub const INTERNAL: usize = 0;
/// Number of monitor states.
pub const STATES: usize = 8;
/// The monitor state that is bad and stays bad.
pub const BAD: usize = STATES - 1;

/// The largest accepted numbers of nodes, edges, rows and rows with operator "or".
#[derive(Clone, Copy, Debug, PartialEq, Eq)]
pub struct Limits {
    pub nodes: usize,
    pub edges: usize,
    pub rows: usize,
    pub ors: usize,
}

impl Limits {
    /// The published limits.
    pub const DESK: Limits = Limits { nodes: 256, edges: 4096, rows: 32, ors: 12 };

    /// Whether a graph may have so many nodes and edges.
    pub(crate) fn allow(&self, nodes: usize, edges: usize) -> bool {
        nodes <= self.nodes && edges <= self.edges
    }
}

#[derive(Clone, Copy, Debug, PartialEq, Eq)]
pub struct Node {
    pub method: usize,
    pub returns: bool,
    pub entry: bool,
}

#[derive(Clone, Copy, Debug, PartialEq, Eq, PartialOrd, Ord)]
pub struct Edge {
    pub from: usize,
    pub label: usize,
    pub to: usize,
}

#[derive(Clone, Copy, Debug, PartialEq, Eq)]
pub enum Row {
    True,
    False,
    In(usize),
    NotIn(usize),
    Return,
    NotReturn,
    And(usize, usize),
    Or(usize, usize),
    Box { label: usize, row: usize },
    BoxAll(usize),
}

#[derive(Clone, Copy, Debug, PartialEq, Eq, PartialOrd, Ord)]
pub enum Event {
    Call,
    Return,
}

/// In `state`, the event between methods `from` and `to` leads to state `next`.
#[derive(Clone, Copy, Debug, PartialEq, Eq)]
pub struct Rule {
    pub state: usize,
    pub event: Event,
    pub from: usize,
    pub to: usize,
    pub next: usize,
}

/// Sets of methods; the bit of weight 2^(m-1) stands for method m.
#[derive(Clone, Copy, Debug, PartialEq, Eq)]
pub struct Interface {
    pub provided: u8,
    pub required: u8,
}

/// Opens a delivery: what follows are the nodes and edges of one method, in one revision.
#[derive(Clone, Copy, Debug, PartialEq, Eq, Hash)]
pub(crate) struct Opening {
    pub method: usize,
    /// From 1 on.
    pub revision: u8,
}

fn flag(byte: u8) -> Option<bool> {
    match byte {
        0 => Some(false),
        1 => Some(true),
        _ => None,
    }
}

/// The number of a method, if `byte` is one.
pub(crate) fn method(byte: u8) -> Option<usize> {
    Some(usize::from(byte)).filter(|number| (1..=METHODS).contains(number))
}

/// `byte` as a number below `end`.
fn below(end: usize, byte: u8) -> Option<usize> {
    Some(usize::from(byte)).filter(|&number| number < end)
}

// Each `from_record` is `None` when a field is out of range or an unused byte is not 0.
// Node and row numbers are taken as they are: their range depends on the rest of the file.

impl Node {
    pub fn record(&self) -> Record {
        let method = self.method as u8;
        [kind::NODE, method, self.returns.into(), self.entry.into(), 0, 0]
    }

    pub(crate) fn from_record(record: &Record) -> Option<Node> {
        let [kind::NODE, number, returns, entry, 0, 0] = *record else {
            return None;
        };
        Some(Node { method: method(number)?, returns: flag(returns)?, entry: flag(entry)? })
    }
}

impl Edge {
    pub fn record(&self) -> Record {
        let [from, label, to] = [self.from, self.label, self.to].map(|field| field as u8);
        [kind::EDGE, from, label, to, 0, 0]
    }

    pub(crate) fn from_record(record: &Record) -> Option<Edge> {
        let [kind::EDGE, from, label, to, 0, 0] = *record else {
            return None;
        };
        Some(Edge { from: usize::from(from), label: below(LABELS, label)?, to: usize::from(to) })
    }

    /// The edge where so many nodes stand before those that it joins.
    pub(crate) fn moved(&self, before: usize) -> Edge {
        Edge { from: self.from + before, label: self.label, to: self.to + before }
    }
}

impl Row {
    pub(crate) fn from_record(record: &Record) -> Option<Row> {
        let [kind::ROW, operator, a, b, 0, 0] = *record else {
            return None;
        };
        let operands = (usize::from(a), usize::from(b));
        match (operator, a, b) {
            (operator::TRUE, 0, 0) => Some(Row::True),
            (operator::FALSE, 0, 0) => Some(Row::False),
            (operator::IN, _, 0) => method(a).map(Row::In),
            (operator::NOT_IN, _, 0) => method(a).map(Row::NotIn),
            (operator::RETURN, 0, 0) => Some(Row::Return),
            (operator::NOT_RETURN, 0, 0) => Some(Row::NotReturn),
            (operator::AND, _, _) => Some(Row::And(operands.0, operands.1)),
            (operator::OR, _, _) => Some(Row::Or(operands.0, operands.1)),
            (operator::BOX, _, _) => {
                below(LABELS, a).map(|label| Row::Box { label, row: operands.1 })
            }
            (operator::BOX_ALL, _, 0) => Some(Row::BoxAll(operands.0)),
            _ => None,
        }
    }

    /// The numbers of the rows this row names.
    pub(crate) fn operands(&self) -> impl Iterator<Item = usize> {
        let (a, b) = match *self {
            Row::And(a, b) | Row::Or(a, b) => (Some(a), Some(b)),
            Row::Box { row, .. } | Row::BoxAll(row) => (Some(row), None),
            _ => (None, None),
        };
        a.into_iter().chain(b)
    }

    /// The row that a box looks at after edges with this label, if any.
    pub(crate) fn box_operand(&self, after: usize) -> Option<usize> {
        match *self {
            Row::Box { label, row } => (label == after).then_some(row),
            Row::BoxAll(row) => Some(row),
            _ => None,
        }
    }

    /// Whether the row, read without its operands, is false at a method and return flag.
    pub(crate) fn is_false_at(&self, at: usize, returns: bool) -> bool {
        match *self {
            Row::False => true,
            Row::In(method) => method != at,
            Row::NotIn(method) => method == at,
            Row::Return => !returns,
            Row::NotReturn => returns,
            Row::True | Row::And(..) | Row::Or(..) | Row::Box { .. } | Row::BoxAll(_) => false,
        }
    }
}

impl Rule {
    pub(crate) fn from_record(record: &Record) -> Option<Rule> {
        let [kind::RULE, state, event, from, to, next] = *record else {
            return None;
        };
        Some(Rule {
            state: below(BAD, state)?,
            event: match event {
                1 => Event::Call,
                2 => Event::Return,
                _ => return None,
            },
            from: method(from)?,
            to: method(to)?,
            next: below(STATES, next)?,
        })
    }

    /// What the rule is about: at most one rule of a file has it.
    pub(crate) fn key(&self) -> (usize, Event, usize, usize) {
        (self.state, self.event, self.from, self.to)
    }
}

impl Interface {
    pub(crate) fn from_record(record: &Record) -> Option<Interface> {
        let [kind::INTERFACE, provided, required, 0, 0, 0] = *record else {
            return None;
        };
        Some(Interface { provided, required })
    }

    pub fn provides(&self, method: usize) -> bool {
        self.provided >> (method - 1) & 1 == 1
    }

    pub fn requires(&self, method: usize) -> bool {
        self.required >> (method - 1) & 1 == 1
    }

    /// The methods that are provided, ascending.
    pub(crate) fn provided_methods(&self) -> impl Iterator<Item = usize> + '_ {
        (1..=METHODS).filter(|&method| self.provides(method))
    }

    pub(crate) fn united(&self, other: &Interface) -> Interface {
        Interface {
            provided: self.provided | other.provided,
            required: self.required | other.required,
        }
    }
}

impl Opening {
    pub(crate) fn from_record(record: &Record) -> Option<Opening> {
        let [kind::OPENING, number, revision @ 1..=255, 0, 0, 0] = *record else {
            return None;
        };
        Some(Opening { method: method(number)?, revision })
    }
}
