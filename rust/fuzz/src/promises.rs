//! What the boundary promises of every call, checked on one case. An error is the first promise that is broken, in words.

use crate::target::{Target, Writes};
use compare::case::{Case, Seen};
use generator::generate::Random;
use tintboulder::{Answer, Reason, Record, CHECK_GRAPH};

/// Bytes of output that suffice for every result.
pub const LONG: usize = 65_536;
const SHORT_OUTPUT: u32 = Reason::ShortOutput as u32;
const SHORT_WORK: u32 = Reason::ShortWork as u32;
/// Bytes behind each file, on which no answer may depend.
const BEHIND: usize = 64;

type Checked<Held = ()> = Result<Held, String>;

/// What the call answers, if it keeps all its promises.
pub fn check(target: &Target, case: &Case) -> Checked<Answer> {
    let seen = kept(target, case)?;
    if let Some(difference) = target.seen(case)?.difference(&seen) {
        return Err(format!("the same call again differs: {difference}"));
    }
    let other_bytes = Case { seed: !case.seed, ..case.clone() };
    same(target, &kept(target, &other_bytes)?, &seen, case).map_err(|wrong| {
        format!("with other bytes in the lent buffers and behind the files: {wrong}")
    })?;
    lengths(target, case, &seen)?;
    Ok(seen.answer)
}

impl Target {
    /// What the call leaves, which is lent the files with bytes behind them that are not theirs.
    pub fn seen(&self, case: &Case) -> Checked<Seen> {
        let mut random = Random::new(case.seed);
        let mut input = case.input.clone();
        for file in &mut input.files {
            let length = file.len();
            file.extend(random.bytes(BEHIND));
            file.truncate(length);
        }
        let seen = case.lent().after(|out, work| (self.call)(&input, out, work));
        (input == case.input).then_some(seen).ok_or_else(|| "a file is changed".into())
    }

    /// The bytes at the start of the output that the answer says are written.
    fn written<'a>(&self, case: &Case, seen: &'a Seen) -> Checked<&'a [u8]> {
        let bytes = match seen.answer.verdict {
            0 => 0,
            _ => self.bytes(&case.input, &seen.answer),
        };
        let output = seen.output();
        let whole =
            || format!("{bytes} bytes said of an output of {}: {:?}", output.len(), seen.answer);
        usize::try_from(bytes).ok().and_then(|bytes| output.get(..bytes)).ok_or_else(whole)
    }
}

/// What one call leaves: the answer is well formed, and nothing but the result and zeros in the work buffers is written; these are left after 13.
fn kept(target: &Target, case: &Case) -> Checked<Seen> {
    let seen = target.seen(case)?;
    let answer = seen.answer;
    well_formed(target, case, answer).map_err(|wrong| format!("{wrong}: {answer:?}"))?;
    let written = target.written(case, &seen)?;
    let expected = case.lent().after_result(answer, written);
    if let Some(difference) = seen.difference(&expected) {
        return Err(difference);
    }
    if target.writes == Writes::Graph && answer.verdict != 0 {
        accepted(written, answer)?;
    }
    Ok(seen)
}

/// The verdict is one of the call's, values that it does not name are 0, there is a record where records explain the verdict, and a refusal is by 13 just when a work
/// buffer is short.
fn well_formed(target: &Target, case: &Case, answer: Answer) -> Checked {
    let Answer { verdict, number, first, second, third, fourth } = answer;
    let named = match verdict {
        0 => 2,
        _ if number != 0 => return Err("a verdict has a number".into()),
        _ => *target.values.get(verdict as usize - 1).ok_or("no such verdict")?,
    };
    if [first, second, third, fourth][named..].iter().any(|&value| value != 0) {
        return Err("a value that is not named is not 0".into());
    }
    if target.writes == Writes::Records && (verdict, first) == (2, 0) {
        return Err("a verdict is explained by no record".into());
    }
    let short = case.work.iter().zip(target.rooms).any(|(&length, room)| length < room());
    if short != (number == SHORT_WORK) {
        return Err("13 is not said just when a work buffer is short".into());
    }
    match verdict {
        0 => placed(case, answer),
        _ => Ok(()),
    }
}

/// A refusal is one of the table, and the file and the record that it names are there.
fn placed(case: &Case, answer: Answer) -> Checked {
    use Reason::*;
    let (file, record) = (answer.first, answer.second);
    let (of_a_file, of_a_record) = match Reason::of(answer.number).ok_or("no such refusal")? {
        Length | Limit | Empty => (true, false),
        Kind | Order | BetweenMethods => (true, true),
        Range | PastTheLast | NotOfInterface => (file != 0, file != 0),
        NotProvided | TooLarge | ShortOutput | ShortWork | RepeatedRevision | NoEntry => {
            (false, false)
        }
    };
    let named = file.checked_sub(1).map(|before| case.input.files.get(before as usize));
    let records = match (named, of_a_file) {
        (None, false) => 0,
        (Some(Some(bytes)), true) => bytes.len() / size_of::<Record>(),
        _ => return Err("a refusal of a file that it cannot be of".into()),
    };
    let is_there = if of_a_record { record < records as u64 } else { record == 0 };
    is_there.then_some(()).ok_or_else(|| "a refusal of a record that it cannot be of".into())
}

/// A graph that is written is accepted, with the counts of the answer.
fn accepted(file: &[u8], answer: Answer) -> Checked {
    let checked = CHECK_GRAPH.answer(file);
    let (nodes, records) = (answer.first, answer.first + answer.second);
    match (checked.verdict, checked.first, checked.second) == (1, nodes, records) {
        true => Ok(()),
        false => Err(format!("the graph of {answer:?} is checked with {checked:?}")),
    }
}

/// The same answer and the same result.
fn same(target: &Target, one: &Seen, other: &Seen, case: &Case) -> Checked {
    if one.answer != other.answer {
        return Err(format!("{:?} is said instead of {:?}", one.answer, other.answer));
    }
    match target.written(case, one)? == target.written(case, other)? {
        true => Ok(()),
        false => Err(format!("other bytes are written under {:?}", one.answer)),
    }
}

/// A result is refused by 12 just when the output is shorter: there is one with a long output, the same with one that is just long enough, and none with a byte less.
fn lengths(target: &Target, case: &Case, seen: &Seen) -> Checked {
    let with_output = |out: usize| Case { out, ..case.clone() };
    let long = match seen.answer.number {
        0 => None,
        SHORT_OUTPUT => Some(kept(target, &with_output(LONG))?),
        _ => return Ok(()),
    };
    let whole = long.as_ref().unwrap_or(seen);
    let need = target.written(case, whole)?.len();
    if whole.answer.verdict == 0 || long.is_some() && need <= case.out {
        return Err(format!(
            "12 with an output of {}, {:?} with a long one",
            case.out, whole.answer
        ));
    }
    let exact = kept(target, &with_output(need))?;
    same(target, &exact, whole, case)
        .map_err(|wrong| format!("with {need} bytes of output: {wrong}"))?;
    let Some(shorter) = need.checked_sub(1) else { return Ok(()) };
    let answer = kept(target, &with_output(shorter))?.answer;
    match answer.number {
        SHORT_OUTPUT => Ok(()),
        _ => Err(format!("with {shorter} bytes of output for {need}: {answer:?}")),
    }
}
