//! The table of a run: how often each verdict was said and each refusal was given.

/// The published numbers of refusals.
const NUMBERS: [u32; 15] = [1, 2, 3, 4, 5, 6, 7, 8, 9, 10, 11, 12, 13, 14, 16];
const VERDICTS: usize = 3;

#[derive(Default)]
pub struct Tally {
    verdicts: [u64; VERDICTS],
    refused: [u64; NUMBERS.len()],
}

impl Tally {
    /// One more answer: its verdict, and its number if it is refused.
    pub fn count(&mut self, verdict: u32, number: u32) {
        let times = match verdict {
            0 => &mut self.refused[column(number)],
            _ => &mut self.verdicts[verdict as usize - 1],
        };
        *times += 1;
    }

    pub fn header() -> String {
        let verdicts = (1..=VERDICTS).map(|verdict| format!("verdict {verdict}"));
        let refused = NUMBERS.iter().map(|number| format!("by {number}"));
        line("call", ["cases".to_string()].into_iter().chain(verdicts), refused)
    }

    pub fn line(&self, call: &str) -> String {
        let cases: u64 = self.verdicts.iter().chain(&self.refused).sum();
        let refused = self.refused.iter().map(u64::to_string);
        line(call, [cases].iter().chain(&self.verdicts).map(u64::to_string), refused)
    }
}

/// What was checked of verdicts beside their bytes.
#[derive(Default)]
pub struct Checked {
    /// Trails that were replayed as runs.
    pub replayed: u64,
    /// Trails whose runs are too long to be replayed.
    pub too_long: u64,
    /// Conforming graphs that were judged, and watched beside the known graph; or pairs of them.
    pub watched: u64,
    /// Those of them that are larger than a file may be.
    pub past_the_limits: u64,
    /// Those of them that have an entry for each provided method, both of a pair.
    pub loading: u64,
    /// Impossible verdicts on sides of which one lets no entry of some method stand.
    pub impossible: u64,
    /// Properties that were judged again with nine boxes in place of one over every label.
    pub written_out: u64,
    /// Deliveries that were appended to a file and left it accepted.
    pub appended: u64,
    /// Those of them that stand.
    pub standing: u64,
    /// Standing graphs that were judged as graph files.
    pub assembled: u64,
}

fn column(number: u32) -> usize {
    NUMBERS.iter().position(|&published| published == number).expect("a published number")
}

fn line(
    call: &str,
    said: impl Iterator<Item = String>,
    refused: impl Iterator<Item = String>,
) -> String {
    let said = said.map(|text| format!(" {text:>9}"));
    let columns: String = said.chain(refused.map(|text| format!(" {text:>6}"))).collect();
    format!("{call:16}{columns}")
}

#[cfg(test)]
mod tests {
    use super::{Tally, NUMBERS, VERDICTS};

    #[test]
    fn every_verdict_and_published_number_has_its_column() {
        let verdicts = (1..=VERDICTS).map(|verdict| (verdict as u32, 0));
        for (at, (verdict, number)) in verdicts.chain(NUMBERS.map(|by| (0, by))).enumerate() {
            let mut tally = Tally::default();
            tally.count(verdict, number);
            let line = tally.line("call");
            let columns: Vec<&str> = line.split_whitespace().collect();
            assert_eq!(columns.len(), 2 + VERDICTS + NUMBERS.len());
            assert_eq!((columns[1], columns[2 + at]), ("1", "1"), "{line}");
            assert_eq!(Tally::header().len(), line.len());
        }
        assert!(!Tally::header().contains("by 15"));
    }

    #[test]
    #[should_panic(expected = "a published number")]
    fn other_numbers_have_none() {
        Tally::default().count(0, 15);
    }
}
