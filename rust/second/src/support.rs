//! Minimal supports: the least sets of rows that can be true together at a method and return flag.

use crate::record::Row;
use crate::set::ByteSet;

/// A method and return flag with what the rows demand there.
pub(crate) struct Place {
    /// The rows that are in no supported set.
    impossible: ByteSet,
    /// For each other row, the rows in every supported set that contains it.
    closures: Vec<ByteSet>,
    /// For each row, the "and" and "or" rows that name it and are in some supported set.
    users: Vec<ByteSet>,
    /// The "or" rows that are not settled by their closure.
    choices: Vec<Choice>,
}

/// An "or" row both of whose operands are possible.
#[derive(Clone, Copy)]
struct Choice {
    row: usize,
    a: usize,
    b: usize,
}

impl Place {
    pub fn new(rows: &[Row], method: usize, returns: bool) -> Place {
        let impossible = impossible(rows, method, returns);
        let possible = |row: &usize| !impossible.contains(*row);
        let mut users = vec![ByteSet::EMPTY; rows.len()];
        let mut choices = Vec::new();
        for row in (0..rows.len()).filter(possible) {
            let (Row::And(a, b) | Row::Or(a, b)) = rows[row] else {
                continue;
            };
            users[a].insert(row);
            users[b].insert(row);
            let open = [a, b].iter().all(|&operand| possible(&operand) && operand != row) && a != b;
            if open && matches!(rows[row], Row::Or(..)) {
                choices.push(Choice { row, a, b });
            }
        }
        let closures = closures(rows, &impossible);
        Place { impossible, closures, users, choices }
    }

    /// The minimal supports of a set of rows.
    pub fn minimal_supports(&self, obligations: &ByteSet) -> Vec<ByteSet> {
        if !obligations.is_disjoint(&self.impossible) {
            return Vec::new();
        }
        let closures = obligations.iter().map(|row| &self.closures[row]);
        let set = closures.fold(ByteSet::EMPTY, |set, closure| set.union(closure));
        let mut search = Search { place: self, obligations, found: Vec::new() };
        search.settle(set, ByteSet::EMPTY);
        minimal(search.found)
    }
}

/// The rows that are in no supported set: the false ones and those that need them.
fn impossible(rows: &[Row], method: usize, returns: bool) -> ByteSet {
    let mut impossible = ByteSet::EMPTY;
    loop {
        let known = impossible;
        let fails = |row: &usize| match rows[*row] {
            Row::And(a, b) => known.contains(a) || known.contains(b),
            Row::Or(a, b) => known.contains(a) && known.contains(b),
            ref other => other.is_false_at(method, returns),
        };
        impossible = (0..rows.len()).filter(fails).collect();
        if impossible == known {
            return impossible;
        }
    }
}

/// What each row forces: itself, the operands of an "and", and the operand of an "or" when there is
/// only one that is possible; then all that these force.
fn closures(rows: &[Row], impossible: &ByteSet) -> Vec<ByteSet> {
    let forced = |row: usize| -> ByteSet {
        match rows[row] {
            Row::And(a, b) => [row, a, b].into_iter().collect(),
            Row::Or(a, b) if impossible.contains(a) || a == b => [row, b].into_iter().collect(),
            Row::Or(a, b) if impossible.contains(b) => [row, a].into_iter().collect(),
            _ => ByteSet::single(row),
        }
    };
    let mut closures: Vec<ByteSet> = (0..rows.len()).map(forced).collect();
    for through in 0..rows.len() {
        let further = closures[through];
        for closure in closures.iter_mut().filter(|closure| closure.contains(through)) {
            *closure = closure.union(&further);
        }
    }
    closures
}

/// Drops every set that has a proper subset among the others.
fn minimal(mut sets: Vec<ByteSet>) -> Vec<ByteSet> {
    sets.sort_by_key(ByteSet::len);
    let mut kept: Vec<ByteSet> = Vec::new();
    for set in sets {
        if !kept.iter().any(|smaller| smaller.is_subset(&set)) {
            kept.push(set);
        }
    }
    kept
}

/// Collects supported sets, among them every minimal support of the obligations.
struct Search<'a> {
    place: &'a Place,
    obligations: &'a ByteSet,
    found: Vec<ByteSet>,
}

/// What is left to do for a set of rows.
enum Next {
    Nothing,
    Branch(Choice),
    Fail,
}

impl Search<'_> {
    /// Settles the open "or" rows of a set that is to avoid the forbidden rows. No set is found
    /// twice: the branch that names `b` forbids `a`.
    fn settle(&mut self, mut set: ByteSet, forbidden: ByteSet) {
        if !set.is_disjoint(&forbidden) {
            return;
        }
        match self.extend(&mut set, &forbidden) {
            Next::Fail => {}
            Next::Nothing => self.found.push(set),
            Next::Branch(choice) => {
                let Choice { a, b, .. } = choice;
                let mut without_b = forbidden;
                if self.is_only_user(&choice, &forbidden) {
                    without_b.insert(b);
                }
                let mut without_a = forbidden;
                without_a.insert(a);
                self.settle(self.with(&set, a), without_b);
                self.settle(self.with(&set, b), without_a);
            }
        }
    }

    /// Names the operands that have no alternative, then gives an open row that has one.
    fn extend(&self, set: &mut ByteSet, forbidden: &ByteSet) -> Next {
        loop {
            let before = *set;
            let mut next = Next::Nothing;
            for choice in &self.place.choices {
                let Choice { row, a, b } = *choice;
                if !set.contains(row) || set.contains(a) || set.contains(b) {
                    continue;
                }
                match (self.avoids(a, forbidden), self.avoids(b, forbidden)) {
                    (true, true) => next = Next::Branch(*choice),
                    (true, false) => *set = self.with(set, a),
                    (false, true) => *set = self.with(set, b),
                    (false, false) => return Next::Fail,
                }
            }
            if *set == before {
                return next;
            }
        }
    }

    /// Whether a minimal support can have the choice's first operand only for this choice, so that
    /// its second operand must be left out.
    fn is_only_user(&self, choice: &Choice, forbidden: &ByteSet) -> bool {
        let users = self.place.users[choice.a].without(forbidden);
        users == ByteSet::single(choice.row) && !self.obligations.contains(choice.a)
    }

    fn avoids(&self, row: usize, forbidden: &ByteSet) -> bool {
        self.place.closures[row].is_disjoint(forbidden)
    }

    fn with(&self, set: &ByteSet, row: usize) -> ByteSet {
        set.union(&self.place.closures[row])
    }
}
