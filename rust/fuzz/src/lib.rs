//! Random and mutated files, any numbers and buffers of any lengths for every call of the C boundary, and what it promises of each call whatever it is given. There is
//! no second implementation in this: whether a verdict is right is not asked here.

#[cfg(test)]
mod broken;
mod inputs;
mod promises;
mod target;
pub mod watched;

use compare::case::Case;
use compare::tally::Tally;
use compare::Input;
use generator::generate::Random;
use target::{Target, TARGETS};

/// Prints a line for each call, or ends with the report of the first promise that is broken. Before each case it ticks.
pub fn run(seed: u64, count: u64, mut tick: impl FnMut()) -> Result<(), String> {
    println!("{}", Tally::header());
    let mut seeds = Random::new(seed);
    for target in &TARGETS {
        let mut tally = Tally::default();
        for _ in 0..count {
            tick();
            let (mut random, input) = drawn(&mut seeds, target);
            let case = inputs::case(&mut random, target, input);
            let answer =
                promises::check(target, &case).map_err(|wrong| report(target, &case, &wrong))?;
            tally.count(answer.verdict, answer.number);
        }
        println!("{}", tally.line(target.name));
    }
    Ok(())
}

/// The input of the next case, which is drawn from a seed of its own, so that it is known without the cases before it; and the source of what else it needs.
fn drawn(seeds: &mut Random, target: &Target) -> (Random, Input) {
    let mut random = Random::new(seeds.number());
    let input = inputs::input(&mut random, target);
    (random, input)
}

fn report(target: &Target, case: &Case, wrong: &str) -> String {
    let Case { input, out, work, seed } = case;
    format!(
        "{} breaks a promise.\n{}\noutput {out}, work {work:?}, seed of all {seed}\n{wrong}",
        target.name,
        input.listed()
    )
}
