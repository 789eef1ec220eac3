//! What a composed verdict says, checked by the second implementation on runs and on graphs that conform; and that nine boxes and one over every label get equal verdicts.

use crate::calls::Claim;
use crate::case::Input;
use crate::conforming::{missing_entry, Unwritten, ACCEPTED};
use crate::tally::Checked;
use generator::generate::{written_out, Random};
use second::files::{check_graph, check_interface, check_rules};
use second::graph::Graph;
use second::record::{Limits, Rule};
use second::replay::{replay, Replayed};
use second::unlimited::{is_bad, joined};
use second::Outcome;
use std::borrow::Cow;
use tintboulder::{Buffers, Judged, JUDGE};

pub const COMPOSED_VERDICT: Claim =
    Claim { check: composed_verdict, counts: |checked| counts(checked, "conforming graphs") };

pub const BOTH_VERDICT: Claim =
    Claim { check: both_verdict, counts: |checked| counts(checked, "conforming pairs") };

fn counts(checked: &Checked, watched_are: &str) -> String {
    let Checked { replayed, too_long, watched, past_the_limits, loading, impossible, .. } = checked;
    format!(
        "{replayed} trails replayed as runs, {too_long} too long; {watched} {watched_are} watched, \
         {loading} of them with all entries, {past_the_limits} past the limits; \
         {impossible} impossible for want of an entry"
    )
}

pub const NINE_BOXES: Claim = Claim {
    check: nine_boxes,
    counts: |checked| format!("{} properties judged with nine boxes for one", checked.written_out),
};

/// Conforming graphs, or pairs of them, for each clean verdict.
const GRAPHS: u64 = 100;

/// The verdict stays, also by the proved judge, when a box over every label is written out.
fn nine_boxes(
    input: &Input,
    verdict: u32,
    _sheet: &[u8],
    random: &mut Random,
    checked: &mut Checked,
) -> Result<(), String> {
    let [graph, property] = input.files();
    let Some(property) = written_out(random, property) else { return Ok(()) };
    let second = second::judge(&Limits::DESK, graph, &property, usize::MAX, 0, 0);
    if !matches!(second, Outcome::Said { verdict: said, .. } if said == verdict) {
        return Err(format!("the second judge says otherwise of nine boxes: {second:?}"));
    }
    let proved = Buffers::new().judge(graph, &property).map(|said| said.verdict);
    if !proved.is_ok_and(|judged| (judged == Judged::Holds) == (verdict == 1)) {
        return Err(format!("the proved judge says otherwise of nine boxes: {proved:?}"));
    }
    checked.written_out += 1;
    Ok(())
}

/// Bad: the trail is that of a run of the known graph joined with the model. Clean: random graphs that conform satisfy the property, also by the proved judge, and
/// are clean beside the known graph. Impossible, and neither of these: no entry of some provided method satisfies the property. The known graph has all its entries.
fn composed_verdict(
    input: &Input,
    verdict: u32,
    trail: &[u8],
    random: &mut Random,
    checked: &mut Checked,
) -> Result<(), String> {
    let [interface, known, other, property, rules] = input.files();
    let known = check_graph(known, &Limits::DESK).expect(ACCEPTED);
    if let Some(method) = missing_entry(check_interface(interface).expect(ACCEPTED), &known) {
        return Err(format!("not refused, and the known graph has no entry of method {method}"));
    }
    let sides = [Side::Known(known), Side::Unwritten(Unwritten::of(other, property))];
    Composition::new(sides, rules, input).check(verdict, trail, random, checked)
}

/// The same of two models, and of pairs of random graphs of which each conforms; it is impossible for want of an entry on either side.
fn both_verdict(
    input: &Input,
    verdict: u32,
    trail: &[u8],
    random: &mut Random,
    checked: &mut Checked,
) -> Result<(), String> {
    let [interface1, property1, interface2, property2, rules] = input.files();
    let sides = [(interface1, property1), (interface2, property2)]
        .map(|(interface, property)| Side::Unwritten(Unwritten::of(interface, property)));
    Composition::new(sides, rules, input).check(verdict, trail, random, checked)
}

enum Side<'a> {
    Known(Graph),
    Unwritten(Unwritten<'a>),
}

impl Side<'_> {
    /// The known graph, or the model that stands for all that conform.
    fn watched(&self) -> &Graph {
        match self {
            Side::Known(graph) => graph,
            Side::Unwritten(side) => &side.model,
        }
    }

    /// The known graph, or one of those that conform.
    fn graph(&self, at: u64, random: &mut Random) -> Cow<'_, Graph> {
        match self {
            Side::Known(graph) => Cow::Borrowed(graph),
            Side::Unwritten(side) => side.graph(at, random),
        }
    }

    /// Tells whether the graph can be a file.
    fn check(&self, graph: &Graph, work: &mut [u8]) -> Result<bool, &'static str> {
        match self {
            Side::Known(_) => Ok(true),
            Side::Unwritten(side) => side.check(graph, work),
        }
    }

    /// The known graph does, or it is refused.
    fn loads(&self, graph: &Graph) -> bool {
        match self {
            Side::Known(_) => true,
            Side::Unwritten(side) => side.loads(graph),
        }
    }

    fn unentered(&self) -> Option<usize> {
        match self {
            Side::Known(_) => None,
            Side::Unwritten(side) => side.unentered(),
        }
    }
}

/// A composition that is not refused.
struct Composition<'a> {
    sides: [Side<'a>; 2],
    rules: Vec<Rule>,
    start: u8,
}

impl<'a> Composition<'a> {
    fn new(sides: [Side<'a>; 2], rules: &[u8], input: &Input) -> Composition<'a> {
        Composition { sides, rules: check_rules(rules).expect(ACCEPTED), start: input.start() }
    }

    fn check(
        &self,
        verdict: u32,
        trail: &[u8],
        random: &mut Random,
        checked: &mut Checked,
    ) -> Result<(), String> {
        let unentered = self.sides.iter().find_map(Side::unentered);
        if self.load(self.watched()) != unentered.is_none() {
            return Err("the models tell otherwise of entries than lone entries do".into());
        }
        match (verdict, unentered) {
            (1, None) => self.check_clean(random, checked),
            (2, None) => self.check_trail(trail, checked),
            (3, Some(_)) => {
                checked.impossible += 1;
                Ok(())
            }
            (1 | 2, Some(method)) => Err(format!("possible, and no entry of method {method} is")),
            (3, None) => Err("impossible, and every provided method can have an entry".into()),
            (other, _) => Err(format!("no composed verdict is {other}")),
        }
    }

    fn watched(&self) -> [&Graph; 2] {
        self.sides.each_ref().map(Side::watched)
    }

    fn check_trail(&self, trail: &[u8], checked: &mut Checked) -> Result<(), String> {
        let [first, second] = self.watched();
        match replay(&joined(first, second), &self.rules, self.start, trail) {
            Replayed::Bad { .. } => checked.replayed += 1,
            Replayed::TooLong => checked.too_long += 1,
            refused => return Err(format!("no run has the trail: {refused:?}")),
        }
        Ok(())
    }

    fn check_clean(&self, random: &mut Random, checked: &mut Checked) -> Result<(), String> {
        let mut work = vec![0; JUDGE.work()];
        for at in 0..GRAPHS {
            let graphs = self.sides.each_ref().map(|side| side.graph(at, random));
            let [first, second] = graphs.each_ref().map(AsRef::as_ref);
            self.check_conforming([first, second], &mut work, checked).map_err(|wrong| {
                format!("{wrong} these conforming graphs:\n{first:?}\n{second:?}")
            })?;
        }
        Ok(())
    }

    /// Whether each provided method has an entry in the graph of its side.
    fn load(&self, graphs: [&Graph; 2]) -> bool {
        self.sides.iter().zip(graphs).all(|(side, graph)| side.loads(graph))
    }

    fn check_conforming(
        &self,
        graphs: [&Graph; 2],
        work: &mut [u8],
        checked: &mut Checked,
    ) -> Result<(), &'static str> {
        let mut are_files = true;
        for (side, graph) in self.sides.iter().zip(graphs) {
            are_files &= side.check(graph, work)?;
        }
        if is_bad(&joined(graphs[0], graphs[1]), &self.rules, self.start) {
            return Err("clean by the verdict, and bad are");
        }
        checked.watched += 1;
        checked.past_the_limits += u64::from(!are_files);
        checked.loading += u64::from(self.load(graphs));
        Ok(())
    }
}

#[cfg(test)]
mod tests {
    use super::{both_verdict, composed_verdict, nine_boxes, Checked, Input, Random, GRAPHS};
    use crate::calls::Check;

    const CLEAN: u32 = 1;
    const BAD: u32 = 2;
    const IMPOSSIBLE: u32 = 3;
    type Trail = &'static [[u8; 6]];

    /// The claim, what is known of method 1, and the trail if nothing is demanded of method 2.
    type Composed = (Check, &'static [u8], Trail);

    /// Method 1 calls method 2 again and again, or is not written either.
    const COMPOSED: [Composed; 2] = [
        (composed_verdict, &[1, 1, 0, 1, 0, 0, 2, 0, 2, 0, 0, 0], ONE_SIDED),
        (both_verdict, &[3, 1, 0, 0, 0, 0], TWO_SIDED),
    ];
    const ONE_SIDED: Trail = &[[0, 0, 0, 0, 0, 0], [0, 0, 2, 2, 2, 0], [2, 0, 2, 1, 0, 7]];
    const TWO_SIDED: Trail = &[[1, 0, 0, 0, 1, 0], [1, 0, 2, 2, 5, 0], [5, 0, 2, 1, 1, 7]];

    /// No call of method 1, now or after internal steps.
    const FORBIDDEN: &[u8] =
        &[3, 7, 1, 2, 0, 0, 3, 9, 1, 3, 0, 0, 3, 9, 0, 0, 0, 0, 3, 2, 0, 0, 0, 0];
    const ANYTHING: &[u8] = &[3, 1, 0, 0, 0, 0];
    const NEVER: &[u8] = &[3, 2, 0, 0, 0, 0];

    /// With this property of method 2; a call of 1 by 2 is bad.
    fn checked(
        (check, known, _): Composed,
        property: &[u8],
        verdict: u32,
        trail: &[u8],
    ) -> Result<Checked, String> {
        let [first, second, rules] = [[5, 1, 2, 0, 0, 0], [5, 2, 1, 0, 0, 0], [4, 0, 1, 2, 1, 7]];
        let files = [&first[..], known, &second, property, &rules].map(<[u8]>::to_vec);
        let input = Input { files: files.into(), number: 1 };
        let mut checked = Checked::default();
        check(&input, verdict, trail, &mut Random::new(1), &mut checked)?;
        Ok(checked)
    }

    #[test]
    fn right_verdicts_pass() {
        for composed in COMPOSED {
            let clean = checked(composed, FORBIDDEN, CLEAN, &[]).expect("it is clean");
            assert_eq!((clean.watched, clean.replayed, clean.impossible), (GRAPHS, 0, 0));
            assert!((1..=GRAPHS).contains(&clean.loading), "{}", clean.loading);
            let bad = checked(composed, ANYTHING, BAD, &composed.2.concat()).expect("it is bad");
            assert_eq!((bad.watched, bad.replayed, bad.too_long), (0, 1, 0));
            let impossible = checked(composed, NEVER, IMPOSSIBLE, &[]).expect("it is impossible");
            assert_eq!((impossible.watched, impossible.impossible), (0, 1));
        }
        // The first side's property counts as well.
        let (both, ..) = COMPOSED[1];
        assert!(checked((both, NEVER, &[]), ANYTHING, IMPOSSIBLE, &[]).is_ok());
    }

    #[test]
    fn wrong_verdicts_are_found_out() {
        for composed in COMPOSED {
            let wrong = checked(composed, ANYTHING, CLEAN, &[]).err().unwrap_or_default();
            assert!(wrong.starts_with("clean by the verdict"), "{wrong}");
            let right = composed.2.concat();
            assert!(checked(composed, FORBIDDEN, BAD, &right).is_err());
            for at in 0..right.len() {
                let mut trail = right.clone();
                trail[at] ^= 1;
                assert!(checked(composed, ANYTHING, BAD, &trail).is_err(), "{at}");
            }
        }
    }

    #[test]
    fn wrong_verdicts_on_entries_are_found_out() {
        for composed in COMPOSED {
            let wrong = |property, verdict, trail: &[u8]| {
                checked(composed, property, verdict, trail).err().unwrap_or_default()
            };
            for property in [ANYTHING, FORBIDDEN] {
                let said = wrong(property, IMPOSSIBLE, &[]);
                assert!(said.starts_with("impossible, and every"), "{said}");
            }
            for (verdict, trail) in [(CLEAN, vec![]), (BAD, composed.2.concat())] {
                assert_eq!(wrong(NEVER, verdict, &trail), "possible, and no entry of method 2 is");
            }
            assert_eq!(wrong(ANYTHING, 4, &[]), "no composed verdict is 4");
        }
        let (one_sided, ..) = COMPOSED[0];
        let without_entry = &[1, 1, 0, 0, 0, 0];
        for verdict in [CLEAN, BAD, IMPOSSIBLE] {
            let said = checked((one_sided, without_entry, &[]), NEVER, verdict, &[]);
            assert!(said.is_err_and(|wrong| wrong.starts_with("not refused")));
        }
    }

    #[test]
    fn nine_boxes_get_the_verdict_of_one() {
        let node = [1, 1, 0, 1, 0, 0];
        let property = [[3, 10, 1, 0, 0, 0], [3, 5, 0, 0, 0, 0]].concat();
        let graphs = [(node.to_vec(), 1), ([node, [2, 0, 8, 0, 0, 0]].concat(), 2)];
        for (graph, verdict) in graphs {
            let (input, random) = ([graph, property.clone()].into(), &mut Random::new(1));
            let mut checked = Checked::default();
            nine_boxes(&input, verdict, &[], random, &mut checked).expect("equal verdicts");
            assert_eq!(checked.written_out, 1);
            assert!(nine_boxes(&input, 3 - verdict, &[], random, &mut checked).is_err());
        }
    }
}
