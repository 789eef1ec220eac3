//! Runs both implementations on random files and reports the first difference as a minimal case: `compare SEED COUNT`, COUNT files of each kind and COUNT cases of
//! each call, or twice as many where they are cheap. What a composed verdict says is also checked on runs, on random graphs that conform, or pairs of them, and on lone
//! entries, a property with a box over every label is also judged with nine boxes in its place, and deliveries are also held against those of them that stand.

use std::env;
use std::process::ExitCode;

fn main() -> ExitCode {
    let arguments: Option<Vec<u64>> = env::args().skip(1).map(|text| text.parse().ok()).collect();
    let Some([seed, count]) = arguments.as_deref() else {
        eprintln!("usage: compare SEED COUNT");
        return ExitCode::FAILURE;
    };
    match compare::run(*seed, *count) {
        Ok(()) => ExitCode::SUCCESS,
        Err(report) => {
            println!("{report}");
            ExitCode::FAILURE
        }
    }
}
