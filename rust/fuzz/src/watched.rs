//! The calls in a process of their own, so that a crash is reported like a broken promise: it ticks before each case, and the last tick tells the case.

use crate::drawn;
use crate::target::TARGETS;
use generator::generate::Random;
use std::env;
use std::io::{self, Read, Write};
use std::process::{Command, ExitCode, Stdio};

/// The argument after seed and count that tells the process of the calls.
pub const INSIDE: &str = "inside";
const TICK: u8 = 0;

/// Runs all cases in another process of this program.
pub fn run(seed: u64, count: u64) -> io::Result<ExitCode> {
    let arguments = [&seed.to_string(), &count.to_string(), INSIDE];
    let mut calls =
        Command::new(env::current_exe()?).args(arguments).stderr(Stdio::piped()).spawn()?;
    let ticks = match calls.stderr.take() {
        Some(errors) => ticks(errors, &mut io::stderr())?,
        None => 0,
    };
    let status = calls.wait()?;
    match status.code() {
        Some(0) => return Ok(ExitCode::SUCCESS),
        // It has printed its report.
        Some(1) => {}
        _ => println!("{status} {}", last_case(seed, count, ticks)),
    }
    Ok(ExitCode::FAILURE)
}

/// Runs all cases in this process.
pub fn run_inside(seed: u64, count: u64) -> ExitCode {
    let mut errors = io::stderr();
    // Nobody to tell is no reason to stop.
    let tick = || errors.write_all(&[TICK]).unwrap_or_default();
    match crate::run(seed, count, tick) {
        Ok(()) => ExitCode::SUCCESS,
        Err(report) => {
            println!("{report}");
            ExitCode::FAILURE
        }
    }
}

/// How often it ticked. What else it said is passed on.
fn ticks(mut errors: impl Read, other: &mut impl Write) -> io::Result<u64> {
    let (mut count, mut buffer) = (0, [0; 4096]);
    loop {
        let length = errors.read(&mut buffer)?;
        if length == 0 {
            return Ok(count);
        }
        for said in buffer[..length].split_inclusive(|&byte| byte == TICK) {
            let text = said.strip_suffix(&[TICK]).unwrap_or(said);
            count += (said.len() - text.len()) as u64;
            other.write_all(text)?;
        }
    }
}

/// The call and the input of the case of the last tick.
fn last_case(seed: u64, count: u64, ticks: u64) -> String {
    let Some(before) = ticks.checked_sub(1) else { return "before the first case".into() };
    let target = &TARGETS[(before / count) as usize];
    let mut seeds = Random::new(seed);
    (0..before).for_each(|_| _ = seeds.number());
    let (_, input) = drawn(&mut seeds, target);
    format!("in {}\n{}", target.name, input.listed())
}

#[cfg(test)]
mod tests {
    use super::{last_case, ticks};
    use crate::run;

    #[test]
    fn ticks_are_counted_and_words_are_passed_on() {
        let mut words = Vec::new();
        assert_eq!(ticks(&b"\0\0one\0two"[..], &mut words).ok(), Some(3));
        assert_eq!(words, b"onetwo");
    }

    #[test]
    fn every_case_ticks_and_is_known_by_its_tick() {
        let mut ticks = 0;
        assert_eq!(run(1, 2, || ticks += 1), Ok(()));
        assert_eq!(ticks, 28);
        assert!(last_case(1, 2, 1).starts_with("in check graph\nfile 1:"));
        assert!(last_case(1, 2, 22).starts_with("in compose\nfile 1:"));
        assert!(last_case(1, 2, 26).starts_with("in judge-deliveries\nfile 1:"));
        assert!(last_case(1, 2, 28).starts_with("in compose-both\nfile 1:"));
        assert_eq!(last_case(1, 2, 0), "before the first case");
    }
}
