//! Calls the C boundary with COUNT random inputs for each call and checks what it promises: `fuzz SEED COUNT`. Ends at the first promise that is broken, or crash.

use fuzz::watched::{run, run_inside, INSIDE};
use std::env;
use std::process::ExitCode;

fn main() -> ExitCode {
    let arguments: Vec<String> = env::args().skip(1).collect();
    let (inside, numbers) = match &arguments[..] {
        [numbers @ .., last] if last == INSIDE => (true, numbers),
        numbers => (false, numbers),
    };
    let numbers: Option<Vec<u64>> = numbers.iter().map(|text| text.parse().ok()).collect();
    let Some([seed, count]) = numbers.as_deref() else {
        eprintln!("usage: fuzz SEED COUNT");
        return ExitCode::FAILURE;
    };
    if inside {
        return run_inside(*seed, *count);
    }
    run(*seed, *count).unwrap_or_else(|error| {
        eprintln!("the calls cannot be run: {error}");
        ExitCode::FAILURE
    })
}
