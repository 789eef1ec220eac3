//! The composed verdict: is every run clean, whatever module is written against the property? Four calls: a property that allows everything, one that forbids the
//! call that is bad, one that no module meets, and one that is refused because it names a row that it does not have.

use tintboulder::{Buffers, Composed, Record, Refusal, Said, Sides};

/// The known side: method 1 calls method 2 again and again. The other side is not written: it provides method 2 and may call method 1.
const SIDES: Sides = Sides {
    known_interface: &[5, 1, 2, 0, 0, 0],
    known_graph: KNOWN_GRAPH.as_flattened(),
    other_interface: &[5, 2, 1, 0, 0, 0],
    property: ANYTHING,
};
const KNOWN_GRAPH: &[Record] = &[
    [1, 1, 0, 1, 0, 0], // node 0: method 1, no return, an entry
    [2, 0, 2, 0, 0, 0], // from node 0 a call of method 2; behind it node 0
];
/// A call of method 1 by method 2 is bad.
const RULES: &[u8] = &[4, 0, 1, 2, 1, 7];
const START: u8 = 1;

const ANYTHING: &[u8] = &[3, 1, 0, 0, 0, 0];
const NOTHING: &[u8] = &[3, 2, 0, 0, 0, 0];
const NO_CALL: &[Record] = &[
    [3, 7, 1, 2, 0, 0], // row 0, the root: rows 1 and 2
    [3, 9, 1, 3, 0, 0], // row 1: after every call of method 1, row 3
    [3, 9, 0, 0, 0, 0], // row 2: after every internal step, row 0 again
    [3, 2, 0, 0, 0, 0], // row 3: false
];
const MISSING_ROW: &[Record] = &[
    [3, 7, 1, 1, 0, 0], // row 0: row 1
    [3, 9, 1, 2, 0, 0], // row 1: after every call of method 1, row 2, which is not there
];

fn main() {
    print!("{}", report());
}

/// A verdict or a refusal for each property, with the same buffers.
fn report() -> String {
    let properties = [
        ("anything", ANYTHING),
        ("no call of method 1", NO_CALL.as_flattened()),
        ("nothing", NOTHING),
        ("a row that is not there", MISSING_ROW.as_flattened()),
    ];
    let mut buffers = Buffers::new();
    let line = |(name, property)| {
        let said = buffers.compose(&Sides { property, ..SIDES }, RULES, START);
        format!("{name}: {}\n", in_words(said))
    };
    properties.map(line).concat()
}

fn in_words(said: Result<Said<Composed>, Refusal>) -> String {
    let said = match said {
        Err(refusal) => return refusal.to_string(),
        Ok(said) => said,
    };
    match said.verdict {
        Composed::Clean => "clean with every module that conforms".into(),
        Composed::Bad { records } => {
            let trail: String = said.records().iter().map(decimals).collect();
            format!("bad with a module that conforms, by a trail of {records} records{trail}")
        }
        Composed::Impossible => "impossible: no module conforms".into(),
    }
}

fn decimals(record: &Record) -> String {
    format!("\n    {}", record.map(|field| field.to_string()).join(" "))
}

#[cfg(test)]
mod tests {
    #[test]
    fn prints_what_stands_beside_it() {
        assert_eq!(super::report(), include_str!("compose.out"));
    }
}
