//! Both implementations of the flow-graph checker on the same bytes: random files and cases, and the first difference as a minimal case.

pub mod calls;
pub mod case;
pub mod checks;
mod claims;
pub mod compose;
mod conforming;
pub mod deliveries;
pub mod join;
pub mod judge;
mod minimal;
pub mod model;
mod report;
pub mod show;
pub mod simulation;
mod standing;
pub mod tally;
pub mod watch;

use calls::Call;
pub use case::Input;
use generator::generate::{Kind, Random};
use tally::Tally;

const CALLS: &[Call] = &[
    judge::CALL,
    simulation::CALL,
    model::CALL,
    join::CALL,
    show::CALL,
    watch::CALL,
    compose::CALL,
    deliveries::ASSEMBLE,
    deliveries::JUDGE,
    compose::BOTH,
];

/// Prints a line for each call, or ends with the report of a difference.
pub fn run(seed: u64, count: u64) -> Result<(), String> {
    println!("{}", Tally::header());
    let mut random = Random::new(seed);
    for kind in Kind::ALL {
        let tally = checks::run(&mut random, kind, count)?;
        println!("{}", tally.line(&format!("check {kind:?}").to_lowercase()));
    }
    for call in CALLS {
        let (tally, checked) = calls::run(&mut random, call, count)?;
        println!("{}", tally.line(call.name));
        if let Some(claim) = &call.claim {
            println!("{:17}{}", "", (claim.counts)(&checked));
        }
    }
    Ok(())
}
