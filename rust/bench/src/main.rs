//! Prints the time of each call in both implementations, side by side on the same bytes, and their ratio: `cargo run --release -p bench`.
//! With an argument, only the calls of that name; with a second one, only the inputs whose name has it as a part.
//! With `growth` as the first argument, how the times grow with one size of the input at a time; with the name of a call after it, only for that call.
//! With `random`, a seed and a count, the worst ratios on so many random inputs of each call.

mod both;
mod compose;
mod deliveries;
mod growth;
mod inputs;
mod join;
mod judge;
mod model;
mod search;
mod show;
mod side_by_side;
mod simulation;
mod watch;

use side_by_side::{print_header, print_line};
use std::{env, io};

const NOTE: &str = "\
Median of batches in turn, warm, one thread, the same bytes.
proved: the output is as long as the result, work buffers as published; the call clears each of them whole, and the time includes that. Joining, showing and
assembling have none, the composed verdicts and judging deliveries have two.
second: takes its memory from the allocator in every call and clears nothing afterwards.
clearing: filling work buffers of the same lengths with zeros, once, and nothing else. rest: the ratio without it.";

fn main() -> io::Result<()> {
    println!("{NOTE}");
    let mut chosen = env::args().skip(1);
    let (name, part) = (chosen.next(), chosen.next());
    let number = |text: Option<String>| text.and_then(|text| text.parse().ok());
    match name.as_deref() {
        Some("growth") => growth::print(part.as_deref()),
        Some("random") => {
            search::print(number(part).unwrap_or(1), number(chosen.next()).unwrap_or(2000) as usize)
        }
        name => print_calls(name, &part.unwrap_or_default())?,
    }
    Ok(())
}

/// All calls, or those of that name, on the inputs whose name has this part.
fn print_calls(name: Option<&str>, part: &str) -> io::Result<()> {
    let calls = [
        (compare::judge::CALL, judge::inputs()?),
        (compare::simulation::CALL, simulation::inputs()?),
        (compare::model::CALL, model::inputs()?),
        (compare::join::CALL, join::inputs()),
        (compare::show::CALL, show::inputs()),
        (compare::watch::CALL, watch::inputs()),
        (compare::compose::CALL, compose::inputs()?),
        (compare::deliveries::ASSEMBLE, deliveries::assembled()),
        (compare::deliveries::JUDGE, deliveries::judged()),
        (compare::compose::BOTH, both::inputs()),
    ];
    for (call, rows) in calls {
        if name.is_some_and(|name| name != call.name) {
            continue;
        }
        print_header(call.name);
        for row in rows.iter().filter(|row| row.name.contains(part)) {
            print_line(&call, row);
        }
    }
    Ok(())
}
