//! Examples of the composed verdict on two sides that are not written: what their properties allow, sides without a model, the refusals in their order, the limits, and the
//! purse with both its applets only specified. A call is one file that the program reads, as that of the composed verdict on one such side, with the interface and the
//! property of the first side, then of the second, and the rules.

use crate::cases::Case;
use crate::composed::{example, Call, Lent};
use crate::delivered::records;
use crate::watched::{verdict_lines, LONG};
use crate::Example;
use second::record::Limits;
use second::{compose_both, Unwritten};

/// The published lengths of the store and of the work buffer.
const ROOMS: [usize; 2] = [52_224, 103_456];
const VERB: &str = "both";

/// Interface and property of each side and the rules, in decimals, and the start method.
#[derive(Clone, Copy)]
struct Composition<'a> {
    first: [&'a str; 2],
    second: [&'a str; 2],
    rules: &'a str,
    start: u8,
}

fn lent(name: &str, call: &Composition, lent: Lent) -> Example {
    let Composition { first, second, rules, start } = *call;
    let files = [first[0], first[1], second[0], second[1], rules].map(records);
    example(VERB, name, files.each_ref().map(Vec::as_slice), start, lent)
}

fn whole(name: &str, call: Composition) -> Example {
    lent(name, &call, (LONG, [true; 2]))
}

const TRUE: &str = "3 1";
const FALSE: &str = "3 2";
/// No call of the method, now or after any step.
const NO_CALL_OF_1: &str = "3 7 1 2 / 3 9 1 3 / 3 10 0 / 3 2";
const NO_CALL_OF_2: &str = "3 7 1 2 / 3 9 2 3 / 3 10 0 / 3 2";
/// Not return, now or after any step.
const NO_RETURN: &str = "3 7 1 2 / 3 6 / 3 10 0";
const NO_STEP: &str = "3 10 1 / 3 2";

/// Methods 1 and 2 may call each other. If method 2 calls method 1, that is bad.
const CALLING: Composition =
    Composition { first: ["5 1 2", TRUE], second: ["5 2 1", TRUE], rules: "4 0 1 2 1 7", start: 1 };
/// The same where a return of method 2 is bad.
const RETURNED_TO: Composition = Composition { rules: "4 0 2 2 1 7", ..CALLING };
/// Method 1 may also call itself, which is bad.
const ITSELF: Composition = Composition { first: ["5 1 3", TRUE], rules: "4 0 1 1 1 7", ..CALLING };
/// Any call and any return between the two methods is bad.
const ANY_EVENT: Composition =
    Composition { rules: "4 0 1 1 2 7 / 4 0 1 2 1 7 / 4 0 2 1 2 7 / 4 0 2 2 1 7", ..CALLING };

pub fn all(cases: &[Case]) -> Vec<Example> {
    let parts = [
        of_properties(),
        required_by_one(),
        without_a_model(),
        of_refusals(),
        at_the_limits(),
        of_lent_buffers(),
        of_the_purse(cases).unwrap_or_default(),
    ];
    parts.into_iter().flatten().collect()
}

fn of_properties() -> Vec<Example> {
    let first = |property| Composition { first: ["5 1 2", property], ..CALLING };
    let second = |property| Composition { second: ["5 2 1", property], ..CALLING };
    let returning = |property| Composition { rules: RETURNED_TO.rules, ..second(property) };
    let exchanged = Composition { first: CALLING.second, second: CALLING.first, ..CALLING };
    // Each call of 2 by 1 is counted.
    let counted: Vec<String> = (0..7).map(|at| format!("4 {at} 1 1 2 {}", at + 1)).collect();
    vec![
        whole("any-call-is-allowed", CALLING),
        whole("from-the-second-side", Composition { start: 2, ..CALLING }),
        whole("sides-exchanged", exchanged),
        whole("sides-exchanged-from-the-first", Composition { start: 2, ..exchanged }),
        whole("second-side-must-not-call", second(NO_CALL_OF_1)),
        whole("second-side-must-not-step", second(NO_STEP)),
        whole("second-side-must-not-be-called", first(NO_CALL_OF_2)),
        whole(
            "second-side-must-not-be-called-but-starts",
            Composition { start: 2, ..first(NO_CALL_OF_2) },
        ),
        whole("first-side-must-not-step", first(NO_STEP)),
        whole("or-of-itself", Composition { first: ["5 1 2", "3 8 0 0"], ..second("3 8 0 0") }),
        whole("without-rules", Composition { rules: "", ..CALLING }),
        whole("p11-both-methods", Composition { second: ["5 2", TRUE], ..RETURNED_TO }),
        whole("second-side-must-not-return", returning(NO_RETURN)),
        whole("second-side-may-return", returning(NO_STEP)),
        whole(
            "seven-calls-one-after-the-other",
            Composition { rules: &counted.join("/"), ..second(NO_STEP) },
        ),
        whole(
            "nothing-is-required",
            Composition { first: ["5 1", TRUE], second: ["5 2", TRUE], ..ANY_EVENT },
        ),
        whole("one-side-calls-itself", ITSELF),
    ]
}

/// One side requires a method of the other, and its call is bad.
fn required_by_one() -> Vec<Example> {
    let [caller, callee] = [["5 1 2", TRUE], ["5 2", TRUE]];
    let one = Composition { first: caller, second: callee, rules: "4 0 1 1 2 7", start: 1 };
    let exchanged = Composition { first: callee, second: caller, ..one };
    let apart = Composition { first: ["5 1", TRUE], ..one };
    let shared = Composition { second: ["5 1 4", TRUE], ..apart };
    let nothing = Composition { first: ["5", FALSE], second: ["5 1 1", TRUE], ..ITSELF };
    vec![
        whole("one-calls-the-other", one),
        whole("one-calls-the-other-exchanged", exchanged),
        whole("one-calls-the-other-but-is-false", Composition { first: ["5 1 2", FALSE], ..one }),
        whole("one-calls-the-other-which-is-false", Composition { second: ["5 2", FALSE], ..one }),
        whole("call-in-a-call", Composition { second: ["5 2 1", TRUE], start: 2, ..one }),
        whole("first-side-provides-nothing-and-is-false", nothing),
        whole("9-though-3-is-required", shared),
        whole("3-start-method-0-though-shared", Composition { start: 0, ..shared }),
        whole("3-start-method-9-though-shared", Composition { start: 9, ..shared }),
        whole("10-method-3-is-required", Composition { first: ["5 1 4", TRUE], ..one }),
        whole("10-start-method-3-of-two-apart", Composition { start: 3, ..apart }),
        whole("start-method-2-of-two-apart", Composition { start: 2, ..apart }),
    ]
}

/// Sides for which no entry can be written, of all methods or of one, and sides that provide nothing.
fn without_a_model() -> Vec<Example> {
    let in_two = |rules| Composition {
        first: ["5 1 6", TRUE],
        second: ["5 6 1", "3 3 2"],
        rules,
        ..CALLING
    };
    let [first, second] = [["5 1 2", FALSE], ["5 2 1", FALSE]];
    vec![
        whole("first-side-without-entry", Composition { first, ..ANY_EVENT }),
        whole("first-side-without-entry-from-2", Composition { first, start: 2, ..ANY_EVENT }),
        whole("second-side-without-entry", Composition { second, ..ANY_EVENT }),
        whole("second-side-without-entry-from-2", Composition { second, start: 2, ..ANY_EVENT }),
        whole("both-sides-without-entry", Composition { first, second, ..ANY_EVENT }),
        whole("second-side-without-entry-first-bad", Composition { second, ..ITSELF }),
        whole("method-without-entry-is-called", in_two("4 0 1 1 3 7")),
        whole("method-with-entry-is-called", in_two("4 0 1 1 2 7")),
        whole(
            "first-side-provides-nothing",
            Composition { first: ["5 0 1", TRUE], second: ["5 1 1", TRUE], ..ITSELF },
        ),
        whole(
            "second-side-provides-nothing",
            Composition { first: ["5 1 1", TRUE], second: ["5 0 1", FALSE], ..ITSELF },
        ),
    ]
}

fn of_refusals() -> Vec<Example> {
    let first = |interface, property| Composition { first: [interface, property], ..CALLING };
    let second = |interface, property| Composition { second: [interface, property], ..CALLING };
    let both = |first: [_; 2], second: [_; 2]| Composition { first, second, ..CALLING };
    let ors = ["3 8 0 0"; 13].join("/");
    let rows = [TRUE; 33].join("/");
    let shared = second("5 1 2", TRUE);
    let mut all = files_in_order();
    all.extend([
        whole("2-node-in-place-of-a-row", first("5 1 2", "1 1 0 1")),
        whole("2-second-record-of-an-interface", second("5 2 1 / 5 2 1", TRUE)),
        whole("3-later-than-7", first("5 1 2", "3 7 0 9 / 3 11")),
        whole("5-13-or-rows-of-the-first-side", first("5 1 2", &ors)),
        whole("5-33-rows-of-the-second-side", second("5 2 1", &rows)),
        whole("6-no-row-of-the-first-side", both(["5 1 2", ""], ["5 2 1", ""])),
        whole("6-no-row-of-the-second-side", second("5 2 1", "")),
        whole("6-no-interface-of-the-second-side", second("", "")),
        whole("3-start-method-0", Composition { start: 0, ..CALLING }),
        whole("3-start-method-9", Composition { start: 9, ..CALLING }),
        whole("3-start-method-255", Composition { start: 255, ..CALLING }),
        whole("start-method-before-9", Composition { start: 9, ..shared }),
        whole("9-both-provide-1", shared),
        whole("9-before-10-start-method", Composition { start: 3, ..shared }),
        whole("9-before-10-required-method", both(["5 3 4", TRUE], ["5 2 8", TRUE])),
        whole("9-without-entry", both(["5 1 1", FALSE], ["5 1 1", FALSE])),
        whole("10-first-side-requires-3", first("5 1 6", TRUE)),
        whole("10-second-side-requires-3", second("5 2 5", NO_STEP)),
        whole("10-start-method-3", Composition { start: 3, ..CALLING }),
        whole("10-nothing-is-provided", both(["5", TRUE], ["5", TRUE])),
        whole("each-side-requires-its-own", both(["5 1 1", TRUE], ["5 2 2", TRUE])),
    ]);
    all
}

/// Two files that are refused, the later one, of five bytes, by the lower number.
fn files_in_order() -> Vec<Example> {
    let cut = |name: &str, refused: [&str; 2], at: usize| {
        let Composition { first, second, rules, start } = CALLING;
        let mut files = [first[0], first[1], second[0], second[1], rules].map(records);
        files[at] = records(refused[0]);
        files[at + 1] = records(refused[1])[1..].to_vec();
        example(VERB, name, files.each_ref().map(Vec::as_slice), start, (LONG, [true; 2]))
    };
    let state_7 = Composition { rules: "4 7 1 2 1 7", start: 9, ..CALLING };
    vec![
        cut("file-1-by-3-before-2-by-1", ["5 1 2 1", TRUE], 0),
        cut("file-2-by-7-before-3-by-1", ["3 7 0 1", "5 2 1"], 1),
        cut("file-3-by-6-before-4-by-1", ["", TRUE], 2),
        cut("file-4-by-7-before-5-by-1", ["3 9 1 1", "4 0 1 2 1 7"], 3),
        whole("file-5-before-start-method", state_7),
    ]
}

/// Six rows whose model has 336 states with eight methods and one label.
const SIX_ROWS: &str = "3 9 1 4 / 3 9 1 2 / 3 9 1 5 / 3 7 1 0 / 3 8 1 0 / 3 9 1 3";

/// Boxes of internal steps, each over the next row, and "true" at the end: two states for each row and method, and two more for each method; two edges of a state for each label.
fn chain(rows: usize) -> String {
    let boxes = (1..rows).map(|next| format!("3 9 0 {next} / "));
    boxes.collect::<String>() + TRUE
}

fn at_the_limits() -> Vec<Example> {
    let [of_31, of_32, of_15, of_16] = [31, 32, 15, 16].map(chain);
    let [four, others, one] = ["5 15 127", "5 240 254", "5 16"];
    let both = |first: [_; 2], second: [_; 2]| Composition { first, second, ..ANY_EVENT };
    let of_256_states = ["5 15", of_31.as_str()];
    let of_264_states = ["5 15", of_32.as_str()];
    let (seven, one_left) = (["5 127", of_15.as_str()], "5 128");
    let halves = both([four, &of_15], [others, &of_15]);
    let bad_late = Composition { rules: "4 0 1 1 5 1 / 4 1 2 5 1 2 / 4 2 1 1 6 7", ..halves };
    vec![
        whole("128-and-128-nodes-4096-edges", Composition { rules: "4 0 1 1 8 7", ..halves }),
        whole("128-and-128-nodes-4096-edges-bad", bad_late),
        whole("11-128-and-136-nodes", both([four, &of_15], [others, &of_16])),
        whole("11-136-and-128-nodes", both([four, &of_16], [others, &of_15])),
        whole("11-2304-and-2048-edges", both(["5 15 255", &of_15], [others, &of_15])),
        whole("256-and-0-nodes", both(of_256_states, [one, FALSE])),
        whole("0-and-256-nodes", both([one, FALSE], of_256_states)),
        whole("256-nodes-and-nothing-provided", both(of_256_states, ["5", FALSE])),
        whole("nothing-provided-and-256-nodes", both(["5", FALSE], of_256_states)),
        whole("11-256-and-4-nodes", both(of_256_states, [one, TRUE])),
        whole("11-first-model-of-264-states", both(of_264_states, [one, FALSE])),
        whole("11-second-model-of-264-states", both([one, FALSE], of_264_states)),
        whole("224-and-32-nodes", both(seven, [one_left, &of_15])),
        whole("11-224-and-34-nodes", both(seven, [one_left, &of_16])),
        whole("11-second-model-of-six-rows", both(["5 1", FALSE], ["5 254 1", SIX_ROWS])),
        whole("11-first-model-of-six-rows", both(["5 254 1", SIX_ROWS], ["5 1", FALSE])),
        whole("10-before-11", Composition { start: 6, ..both(of_264_states, [one, FALSE]) }),
    ]
}

fn of_lent_buffers() -> Vec<Example> {
    let [clean, refused] =
        [["5 2 1", NO_STEP], ["5 2 1", ""]].map(|second| Composition { second, ..CALLING });
    let of_32 = chain(32);
    let large = Composition { first: ["5 29", &of_32], second: ["5 2", TRUE], ..CALLING };
    vec![
        lent("12-output-of-11-bytes", &CALLING, (11, [true; 2])),
        lent("12-output-of-12-bytes", &CALLING, (12, [true; 2])),
        lent("12-no-output-for-no-trail", &clean, (0, [true; 2])),
        lent("11-before-12", &large, (0, [true; 2])),
        lent("13-no-store", &CALLING, (LONG, [false, true])),
        lent("13-no-work-buffer", &CALLING, (LONG, [true, false])),
        lent("13-no-buffer", &CALLING, (LONG, [false; 2])),
        lent("13-before-files", &refused, (LONG, [true, false])),
        lent("13-before-12", &CALLING, (0, [false, true])),
    ]
}

/// The purse, known by properties of its own in another case study, beside the loyalty applet: each pair of their properties, from method 5.
fn of_the_purse(cases: &[Case]) -> Option<Vec<Example>> {
    let named = |name: &str| cases.iter().find(|case| case.name == name);
    let (purse, composed) = (named("purse-sigma-p")?, named("purse-decomposition")?);
    let (_, interface1) = purse.files("interface").next()?;
    let (_, interface2) = composed.files("interface2").next()?;
    let (_, rules) = composed.files("rules").next()?;
    let mut all = Vec::new();
    for (name1, property1) in purse.files("property") {
        for (name2, property2) in composed.files("property") {
            let files = [interface1, property1, interface2, property2, rules];
            let name = format!("{name1}-and-{name2}-from-5-of-the-purse");
            all.push(example(VERB, &name, files, 5, (LONG, [true; 2])));
        }
    }
    Some(all)
}

/// What the program prints of a call, as the second implementation has it.
pub fn lines(name: &str, bytes: &[u8]) -> String {
    let call = Call::of(bytes);
    let [interface1, property1, interface2, property2, rules] = call.files;
    let sides = [(interface1, property1), (interface2, property2)]
        .map(|(interface, property)| Unwritten { interface, property });
    let (limits, lent) = (&Limits::DESK, call.lent(ROOMS));
    verdict_lines(name, compose_both(limits, &sides, rules, call.start, call.out_len, lent))
}
