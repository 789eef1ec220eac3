//! The worst ratios on random inputs, valid and damaged, small and at the limits: those that the comparison draws for each call, and pairs of graphs that are hard to compare.

use crate::side_by_side::work_buffers;
use compare::calls::Call;
use compare::Input;
use generator::families::hard_pair;
use generator::generate::Random;
use std::hint::black_box;
use std::time::{Duration, Instant};

const BATCHES: usize = 5;
const BATCH: Duration = Duration::from_micros(20);

/// How many ratios are above three, and the highest.
#[derive(Default)]
struct Ratios {
    slow: usize,
    worst: f64,
}

impl Ratios {
    fn add(&mut self, ratio: f64) {
        self.slow += usize::from(ratio > 3.0);
        self.worst = self.worst.max(ratio);
    }
}

/// What is shown of the inputs of a call: all of them, those that are not refused, and all without the time of clearing.
#[derive(Default)]
struct Found {
    all: Ratios,
    verdicts: Ratios,
    rest: Ratios,
    seconds: f64,
}

/// So many inputs of each call, from a seed.
pub fn print(seed: u64, count: usize) {
    println!(
        "{:24} {:>7} {:>12} {:>7} {:>13} {:>7} {:>11} {:>7} {:>11}",
        "random inputs",
        "inputs",
        "above three",
        "worst",
        "with verdict",
        "worst",
        "rest above",
        "worst",
        "slowest"
    );
    let hard = Call {
        name: "compare, hard pairs",
        input: |random| hard_pair(random).into(),
        ..compare::simulation::CALL
    };
    let calls = [
        compare::judge::CALL,
        compare::simulation::CALL,
        hard,
        compare::model::CALL,
        compare::join::CALL,
        compare::show::CALL,
        compare::watch::CALL,
        compare::compose::CALL,
        compare::deliveries::ASSEMBLE,
        compare::deliveries::JUDGE,
        compare::compose::BOTH,
    ];
    for call in calls {
        let Found { all, verdicts, rest, seconds } = search(&call, &mut Random::new(seed), count);
        println!(
            "{:24} {count:>7} {:>12} {:>7.2} {:>13} {:>7.2} {:>11} {:>7.2} {:>8.0} us",
            call.name,
            all.slow,
            all.worst,
            verdicts.slow,
            verdicts.worst,
            rest.slow,
            rest.worst,
            seconds * 1e6
        );
    }
}

fn search(call: &Call, random: &mut Random, count: usize) -> Found {
    let mut found = Found::default();
    for _ in 0..count {
        let input = (call.input)(random);
        let (answer, written) = call.result(&input);
        let mut least = times(call, &input, written.len());
        // Whatever else the machine does may fall on one of the three: what is above three is timed again.
        if least[0] > 3.0 * least[1] {
            let again = times(call, &input, written.len());
            least.iter_mut().zip(again).for_each(|(least, time)| *least = least.min(time));
        }
        let [proved, second, clearing] = least;
        found.all.add(proved / second);
        if answer.verdict != 0 {
            found.verdicts.add(proved / second);
        }
        found.rest.add((proved - clearing) / second);
        found.seconds = found.seconds.max(proved);
    }
    found
}

/// Seconds of the proved call, of the second implementation and of clearing the work buffers: the fastest of some batches in turn.
fn times(call: &Call, input: &Input, written: usize) -> [f64; 3] {
    let mut out = vec![0; written];
    let (mut buffers, mut cleared) = (work_buffers(call), work_buffers(call));
    let mut work: Vec<&mut [u8]> = buffers.iter_mut().map(Vec::as_mut_slice).collect();
    let mut least = [f64::MAX; 3];
    for _ in 0..BATCHES {
        let proved = batch(&mut || {
            black_box((call.proved)(black_box(input), &mut out, &mut work));
        });
        let second = batch(&mut || {
            black_box(call.result(black_box(input)));
        });
        let clearing =
            batch(&mut || black_box(&mut cleared).iter_mut().for_each(|buffer| buffer.fill(0)));
        for (least, time) in least.iter_mut().zip([proved, second, clearing]) {
            *least = least.min(time);
        }
    }
    least
}

/// Seconds for one of the runs that fill a batch.
fn batch(call: &mut dyn FnMut()) -> f64 {
    let start = Instant::now();
    let mut runs = 0;
    while runs == 0 || start.elapsed() < BATCH {
        call();
        runs += 1;
    }
    start.elapsed().as_secs_f64() / f64::from(runs)
}
