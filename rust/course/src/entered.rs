//! Examples of methods without an entry: of the known graph (16), and of a side on which no module can be loaded ("impossible"), with one side that is not written and with
//! two. The calls are those of the composed verdict.

use crate::composed::{example, Lent};
use crate::delivered::records;
use crate::watched::LONG;
use crate::Example;

/// The files of a call in decimals; the start method is 1.
type Files<'a> = [&'a str; 5];

fn lent(verb: &str, name: &str, files: Files, lent: Lent) -> Example {
    let files = files.map(records);
    example(verb, name, files.each_ref().map(Vec::as_slice), 1, lent)
}

fn compose(name: &str, files: Files) -> Example {
    lent("compose", name, files, (LONG, [true; 2]))
}

fn both(name: &str, files: Files) -> Example {
    lent("both", name, files, (LONG, [true; 2]))
}

/// Method 1 calls method 2, which is bad.
const CALLER: &str = "1 1 0 1 / 1 1 1 0 / 2 0 2 1";
const CALLED: &str = "4 0 1 1 2 7";
/// Method 1 calls itself, which is bad.
const ITSELF: &str = "1 1 0 1 / 2 0 1 0";
const BY_ITSELF: &str = "4 0 1 1 1 7";
const TRUE: &str = "3 1";
const FALSE: &str = "3 2";
const IN_METHOD_2: &str = "3 3 2";
/// Its model has 294 states over the interface.
const LARGE: [&str; 2] = ["5 254 1", "3 9 1 4 / 3 9 1 2 / 3 9 1 5 / 3 7 1 0 / 3 8 1 0 / 3 9 1 3"];

pub fn all() -> Vec<Example> {
    [of_the_known_graph(), of_one_side(), of_two_sides()].into_iter().flatten().collect()
}

/// What 16 asks for, and its place in the order.
fn of_the_known_graph() -> Vec<Example> {
    let known =
        |name, interface, graph, other| compose(name, [interface, graph, other, TRUE, CALLED]);
    let no_entry = "1 1 0 0 / 1 1 1 0 / 2 0 2 1";
    vec![
        known("entry-of-each-method", "5 1 2", CALLER, "5 2"),
        known("16-method-3-has-no-node", "5 5 2", CALLER, "5 2"),
        known("16-method-1-has-no-entry", "5 1 2", no_entry, "5 2"),
        known("16-one-entry-of-two-methods", "5 5 2", "1 1 0 1 / 1 3 0 0 / 2 0 2 0", "5 2"),
        known("two-entries-of-two-methods", "5 5 2", "1 1 0 1 / 1 3 0 1 / 2 0 2 0", "5 2"),
        known("16-before-10", "5 5 130", CALLER, "5 2"),
        known("9-shared-method-before-16", "5 5 2", CALLER, "5 6"),
        known("9-graph-before-16", "5 5 2", "1 1 0 1 / 1 2 0 1", "5 2"),
        compose("16-before-11", ["5 1", "", LARGE[0], LARGE[1], CALLED]),
        compose("16-before-impossible", ["5 5 2", CALLER, "5 2", FALSE, CALLED]),
        known("nothing-provided-and-no-node", "5 0", "", "5 3 2"),
    ]
}

/// The model of method 2 alone, over methods 2 and 3, has four states.
fn of_one_side() -> Vec<Example> {
    let other =
        |name, interface, property| compose(name, ["5 1 2", CALLER, interface, property, CALLED]);
    let nothing = |name, rules| compose(name, ["5 1 1", ITSELF, "5 0", FALSE, rules]);
    let at_the_limit = |name, nodes: usize| {
        let graph = ["1 1 0 1", &" / 1 1 0 0".repeat(nodes - 1)].concat();
        compose(name, ["5 1 2", &graph, "5 6", IN_METHOD_2, CALLED])
    };
    let no_output = ["5 1 2", CALLER, "5 2", FALSE, CALLED];
    let in_2_or_3 = "3 8 1 2 / 3 3 2 / 3 3 3";
    vec![
        other("impossible-no-module", "5 2", FALSE),
        other("impossible-no-entry-of-3", "5 6", IN_METHOD_2),
        other("entries-of-2-and-3", "5 6", in_2_or_3),
        compose("impossible-clean-without-rules", ["5 1 2", CALLER, "5 2", FALSE, ""]),
        compose("impossible-never-called", ["5 1 1", ITSELF, "5 2", FALSE, BY_ITSELF]),
        nothing("nothing-provided-bad", BY_ITSELF),
        nothing("nothing-provided-clean", CALLED),
        at_the_limit("impossible-252-and-4-nodes", 252),
        at_the_limit("11-before-impossible-253-and-4-nodes", 253),
        lent("compose", "impossible-without-output", no_output, (0, [true; 2])),
        lent("compose", "13-before-impossible", no_output, (LONG, [true, false])),
    ]
}

fn of_two_sides() -> Vec<Example> {
    let pair = |name, first, second| both(name, ["5 1 2", first, "5 2 1", second, CALLED]);
    let no_output = ["5 1 2", TRUE, "5 2 1", FALSE, CALLED];
    let [large, property] = LARGE;
    let of_8 = property.replace("3 9 1", "3 9 8");
    let first_large = ["5 127 128", &of_8, "5 128 1", FALSE, CALLED];
    vec![
        pair("impossible-first-side", FALSE, TRUE),
        pair("impossible-second-side", TRUE, FALSE),
        pair("impossible-either-side", FALSE, FALSE),
        both("impossible-no-entry-of-3", ["5 1 2", TRUE, "5 6 1", IN_METHOD_2, CALLED]),
        both("nothing-provided-and-false", ["5 1 1", TRUE, "5 0", FALSE, BY_ITSELF]),
        both("9-before-impossible", ["5 1 2", TRUE, "5 3 1", FALSE, CALLED]),
        both("10-before-impossible", ["5 1 4", TRUE, "5 2 1", FALSE, CALLED]),
        both("11-second-model-before-impossible", ["5 1", FALSE, large, property, CALLED]),
        both("11-first-model-before-impossible", first_large),
        lent("both", "impossible-without-output", no_output, (0, [true; 2])),
    ]
}
