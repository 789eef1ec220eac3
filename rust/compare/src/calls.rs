//! Calls that are lent an output and perhaps work buffers, in both implementations on random cases.

use crate::case::{buffers, out_length, work_lengths, Case, Input};
use crate::minimal::{least, shrink};
use crate::tally::{Checked, Tally};
use generator::generate::Random;
use second::{Outcome, Refusal};
use tintboulder::{Answer, OnTwoFiles};

pub struct Call {
    pub name: &'static str,
    /// The published length of each work buffer that is lent.
    pub rooms: &'static [fn() -> usize],
    /// The proved call with an output and the work buffers.
    pub proved: fn(&Input, &mut [u8], &mut [&mut [u8]]) -> Answer,
    /// The second implementation with the lengths of the output and of the work buffers.
    pub second: fn(&Input, usize, &[usize]) -> Outcome,
    pub input: fn(&mut Random) -> Input,
    /// How many cases are run for each one that is asked for: more where a case is cheap.
    pub cases: u64,
    /// What else is checked of a verdict that both give.
    pub claim: Option<Claim>,
}

pub struct Claim {
    pub check: Check,
    /// What was checked, for the table of a run.
    pub counts: fn(&Checked) -> String,
}

/// Checks by other means what a verdict and the bytes written say of an input; ends with a report where it is not so.
pub type Check = fn(&Input, u32, &[u8], &mut Random, &mut Checked) -> Result<(), String>;

/// Ends with a report at the first case on which anything differs.
pub fn run(random: &mut Random, call: &Call, count: u64) -> Result<(Tally, Checked), String> {
    let (mut tally, mut checked) = (Tally::default(), Checked::default());
    for _ in 0..count * call.cases {
        let case = call.case(random);
        let Ok((answer, written)) = call.compare(&case) else { return Err(call.report(case)) };
        tally.count(answer.verdict, answer.number);
        if let (Some(claim), 1..) = (&call.claim, answer.verdict) {
            (claim.check)(&case.input, answer.verdict, &written, random, &mut checked)
                .map_err(|wrong| format!("{}: {wrong}\n{}", call.name, case.input.listed()))?;
        }
    }
    Ok((tally, checked))
}

impl Call {
    fn case(&self, random: &mut Random) -> Case {
        let input = (self.input)(random);
        let out = out_length(random, self.result(&input).1.len());
        Case { input, out, work: work_lengths(random, self.rooms), seed: random.number() }
    }

    /// What the second implementation answers and writes when there is room for all of it.
    pub fn result(&self, input: &Input) -> (Answer, Vec<u8>) {
        self.expected(input, usize::MAX, &vec![usize::MAX; self.rooms.len()])
    }

    /// The answer of the second implementation as six numbers, and the bytes that it writes.
    fn expected(&self, input: &Input, out: usize, work: &[usize]) -> (Answer, Vec<u8>) {
        match (self.second)(input, out, work) {
            Outcome::Said { verdict, values, written } => (answer(verdict, 0, &values), written),
            Outcome::Refused(Refusal { number, file, record }) => {
                let values = [u64::from(file), record as u64];
                (answer(0, u32::from(number), &values), Vec::new())
            }
        }
    }

    /// The answer of both and the bytes that they write, or what differs.
    fn compare(&self, case: &Case) -> Result<(Answer, Vec<u8>), String> {
        let lent = case.lent();
        let seen = lent.clone().after(|out, work| (self.proved)(&case.input, out, work));
        let (answer, written) = self.expected(&case.input, case.out, &case.work);
        let expected = lent.after_result(answer, &written);
        seen.difference(&expected).map_or(Ok((answer, written)), Err)
    }

    fn report(&self, case: Case) -> String {
        let case = self.minimal(case);
        let Case { input, out, work, seed } = &case;
        let difference = self.compare(&case).err().unwrap_or_default();
        format!(
            "the implementations of {} differ on this case; the second says what is expected.\n{}, output {out}, work {work:?}, seed of all {seed}\n{difference}",
            self.name, input.listed()
        )
    }

    /// Files, number and lengths as small as they can be, each for the others.
    fn minimal(&self, mut case: Case) -> Case {
        let differs = |case: &Case| self.compare(case).is_err();
        loop {
            let before = case.clone();
            for at in 0..case.input.files.len() {
                let shows = |bytes: &[u8]| differs(&case.with_file(at, bytes));
                case.input.files[at] = shrink(&case.input.files[at], shows);
            }
            case.input.number = least(case.input.number, |n| differs(&case.with_number(n)));
            case.out = least(case.out, |out| differs(&Case { out, ..case.clone() }));
            for at in 0..case.work.len() {
                case.work[at] = least(case.work[at], |length| differs(&case.with_work(at, length)));
            }
            if case == before {
                return case;
            }
        }
    }
}

/// The answer of a proved call on two files.
pub fn on_two_files(
    call: OnTwoFiles,
    input: &Input,
    out: &mut [u8],
    work: &mut [&mut [u8]],
) -> Answer {
    let [work] = buffers(work);
    call.answer(input.files(), out, work)
}

fn answer(verdict: u32, number: u32, values: &[u64]) -> Answer {
    let value = |at: usize| values.get(at).copied().unwrap_or(0);
    let (first, second, third, fourth) = (value(0), value(1), value(2), value(3));
    Answer { verdict, number, first, second, third, fourth }
}
