//! The time of a call in both implementations, batch by batch in turn, so that what else the machine does falls on both.

use crate::inputs::Timed;
use compare::calls::Call;
use compare::Input;
use std::hint::black_box;
use std::time::{Duration, Instant};

const BATCHES: usize = 9;
const BATCH: Duration = Duration::from_millis(10);

pub fn print_header(call: &str) {
    println!(
        "\n{call:36} {:28} {:>11} {:>11} {:>7} {:>11} {:>7}",
        "answer", "proved", "second", "ratio", "clearing", "rest"
    );
}

/// Runs all inputs of the row one after the other; the time is that of all of them together.
pub fn print_line(call: &Call, row: &Timed) {
    let answers: Vec<String> = row.inputs.iter().map(|input| agreed(call, input)).collect();
    let answer = match &answers[..] {
        [answer] => answer.clone(),
        _ => format!("{} pairs of files", answers.len()),
    };
    let mut buffers = work_buffers(call);
    let mut work: Vec<&mut [u8]> = buffers.iter_mut().map(Vec::as_mut_slice).collect();
    let mut out: Vec<Vec<u8>> = row.inputs.iter().map(|input| vec![0; need(call, input)]).collect();
    let mut cleared = work_buffers(call);
    let proved = &mut || {
        for (input, out) in row.inputs.iter().zip(&mut out) {
            black_box((call.proved)(black_box(input), out, &mut work));
        }
    };
    let second = &mut || {
        for input in &row.inputs {
            black_box(call.result(black_box(input)));
        }
    };
    let clearing = &mut || {
        for _ in &row.inputs {
            black_box(&mut cleared).iter_mut().for_each(|buffer| buffer.fill(0));
        }
    };
    let [proved, second, clearing] = medians([proved, second, clearing]);
    let (ratio, rest) = (proved / second, (proved - clearing) / second);
    let (proved, second, clearing) = (in_units(proved), in_units(second), in_units(clearing));
    println!(
        "{:36} {answer:28} {proved:>11} {second:>11} {ratio:>7.2} {clearing:>11} {rest:>7.2}",
        row.name
    );
}

pub fn work_buffers(call: &Call) -> Vec<Vec<u8>> {
    call.rooms.iter().map(|room| vec![0; room()]).collect()
}

/// The length of the result.
fn need(call: &Call, input: &Input) -> usize {
    call.result(input).1.len()
}

/// What both answer. Times of different answers would say nothing.
fn agreed(call: &Call, input: &Input) -> String {
    let (expected, written) = call.result(input);
    let (mut out, mut buffers) = (vec![0; written.len()], work_buffers(call));
    let mut work: Vec<&mut [u8]> = buffers.iter_mut().map(Vec::as_mut_slice).collect();
    let answer = (call.proved)(input, &mut out, &mut work);
    assert!((answer, out) == (expected, written), "the implementations differ");
    match answer.verdict {
        0 => format!("refused by {}", answer.number),
        verdict @ (1 | 3) => format!("verdict {verdict}"),
        verdict => format!("verdict {verdict}, value {}", answer.first),
    }
}

/// Seconds for one run of each, the median over the batches.
fn medians<const N: usize>(mut calls: [&mut dyn FnMut(); N]) -> [f64; N] {
    let runs: Vec<u32> = calls.iter_mut().map(|call| runs_in_a_batch(call)).collect();
    let mut times = [(); N].map(|()| Vec::new());
    for _ in 0..BATCHES {
        for ((call, &runs), times) in calls.iter_mut().zip(&runs).zip(&mut times) {
            times.push(batch_time(call, runs));
        }
    }
    times.map(|mut times| {
        times.sort_by(f64::total_cmp);
        times[BATCHES / 2]
    })
}

/// Doubles the runs until they fill a batch, which also warms them up.
fn runs_in_a_batch(call: &mut dyn FnMut()) -> u32 {
    let mut runs = 1;
    while batch_time(call, runs) * f64::from(runs) < BATCH.as_secs_f64() {
        runs *= 2;
    }
    runs
}

/// Seconds for one of so many runs.
fn batch_time(call: &mut dyn FnMut(), runs: u32) -> f64 {
    let start = Instant::now();
    for _ in 0..runs {
        call();
    }
    start.elapsed().as_secs_f64() / f64::from(runs)
}

fn in_units(seconds: f64) -> String {
    match seconds {
        s if s < 1e-6 => format!("{:.0} ns", s * 1e9),
        s if s < 1e-3 => format!("{:.1} us", s * 1e6),
        s => format!("{:.2} ms", s * 1e3),
    }
}
