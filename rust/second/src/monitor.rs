//! Monitors over calls and returns, and sets of their states.

use crate::record::{Event, Rule, METHODS, STATES};

/// A set of monitor states; state s is the bit of weight 2^s.
pub(crate) type States = u8;

/// The states of a set, ascending.
pub(crate) fn members(states: States) -> impl Iterator<Item = usize> {
    (0..STATES).filter(move |state| states >> state & 1 == 1)
}

/// For each event and state, the next state by the two methods of the event.
pub(crate) struct Monitor {
    next: [[[[usize; METHODS]; METHODS]; STATES]; 2],
}

impl Monitor {
    pub fn new(rules: &[Rule]) -> Monitor {
        let stay = std::array::from_fn(|state| [[state; METHODS]; METHODS]);
        let mut next = [stay; 2];
        for rule in rules {
            next[rule.event as usize][rule.state][rule.from - 1][rule.to - 1] = rule.next;
        }
        Monitor { next }
    }

    /// The state after method `from` calls, or returns to, method `to`.
    pub fn after(&self, state: usize, event: Event, from: usize, to: usize) -> usize {
        self.next[event as usize][state][from - 1][to - 1]
    }

    /// The states that the event leads to from some state of a set.
    pub fn after_any(&self, states: States, event: Event, from: usize, to: usize) -> States {
        let after = members(states).map(|state| self.after(state, event, from, to));
        after.fold(0, |all, state| all | 1 << state)
    }
}
