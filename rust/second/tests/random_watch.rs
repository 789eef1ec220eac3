//! Watching against explicit runs with their stacks, where these can be
//! explored to the end, and against summaries and trails found naively.

mod oracle;

use generator::generate::{self, Random, Size};
use oracle::*;
use second::files::{check_graph, check_rules};
use second::graph::Graph;
use second::record::{Event, Rule};
use std::collections::{BTreeMap, BTreeSet, HashSet};

const BAD: usize = 7;

struct Watched {
    graph: Graph,
    rules: Vec<Rule>,
}

impl Watched {
    fn on(&self, state: usize, event: Event, from: usize, to: usize) -> usize {
        let rule = self
            .rules
            .iter()
            .find(|rule| (rule.state, rule.event, rule.from, rule.to) == (state, event, from, to));
        rule.map_or(state, |rule| rule.next)
    }

    fn method(&self, node: usize) -> usize {
        self.graph.nodes[node].method
    }

    fn entries(&self, method: usize) -> impl Iterator<Item = usize> + '_ {
        self.graph.entries().filter(move |&entry| self.method(entry) == method)
    }
}

/// Monitor state, and the nodes on the stack with the current one on top.
type Configuration = (usize, Vec<usize>);

/// Whether a run meets the bad state, if that can be told with stacks of
/// bounded depth.
fn explored(watched: &Watched, start: usize, depth: usize) -> Option<bool> {
    let mut open: Vec<Configuration> = watched.entries(start).map(|e| (0, vec![e])).collect();
    let mut seen: HashSet<Configuration> = open.iter().cloned().collect();
    let mut whole = true;
    while let Some(configuration) = open.pop() {
        if configuration.0 == BAD {
            return Some(true);
        }
        for next in next_configurations(watched, &configuration) {
            if next.1.len() > depth || seen.len() > 2_000 {
                whole = false;
            } else if seen.insert(next.clone()) {
                open.push(next);
            }
        }
    }
    whole.then_some(false)
}

fn next_configurations(watched: &Watched, (state, stack): &Configuration) -> Vec<Configuration> {
    let (&node, below) = stack.split_last().expect("a node");
    if watched.graph.nodes[node].returns {
        return below.last().map_or(vec![], |&target| {
            let (method, caller) = (watched.method(node), watched.method(target));
            vec![(watched.on(*state, Event::Return, method, caller), below.to_vec())]
        });
    }
    let mut next = Vec::new();
    for edge in watched.graph.outgoing(node) {
        let moved = [below, &[edge.to]].concat();
        if edge.label == 0 {
            next.push((*state, moved));
            continue;
        }
        let called = watched.on(*state, Event::Call, watched.method(node), edge.label);
        let entered = |entry| (called, [&moved[..], &[entry]].concat());
        next.extend(watched.entries(edge.label).map(entered));
    }
    next
}

/// Method, state at its entry, state at a return node.
type Summaries = BTreeSet<(usize, usize, usize)>;

/// Summaries from none, until no pass over all nodes adds one.
fn naive_summaries(watched: &Watched) -> Summaries {
    let mut summaries = Summaries::new();
    loop {
        let mut grown = summaries.clone();
        for (method, entered) in (1..=8).flat_map(|m| (0..=BAD).map(move |s| (m, s))) {
            for (node, state) in within(watched, &summaries, method, entered) {
                if watched.graph.nodes[node].returns {
                    grown.insert((method, entered, state));
                }
            }
        }
        if grown == summaries {
            return summaries;
        }
        summaries = grown;
    }
}

/// Nodes and states that one call of a method meets in its own nodes.
fn within(
    watched: &Watched,
    summaries: &Summaries,
    method: usize,
    entered: usize,
) -> BTreeSet<(usize, usize)> {
    let mut open: Vec<_> = watched.entries(method).map(|entry| (entry, entered)).collect();
    let mut met: BTreeSet<_> = open.iter().copied().collect();
    while let Some((node, state)) = open.pop() {
        for record in steps(watched, summaries, node, state) {
            let next = (record[4], record[5]);
            if record[2] != 2 && met.insert(next) {
                open.push(next);
            }
        }
    }
    met
}

fn steps(watched: &Watched, summaries: &Summaries, node: usize, state: usize) -> Vec<[usize; 6]> {
    let mut steps = Vec::new();
    if watched.graph.nodes[node].returns {
        return steps;
    }
    for edge in watched.graph.outgoing(node) {
        if edge.label == 0 {
            steps.push([node, state, 1, 0, edge.to, state]);
            continue;
        }
        let method = watched.method(node);
        let called = watched.on(state, Event::Call, method, edge.label);
        let entered = |entry| [node, state, 2, edge.label, entry, called];
        steps.extend(watched.entries(edge.label).map(entered));
        for &(_, _, returned) in
            summaries.range((edge.label, called, 0)..=(edge.label, called, BAD))
        {
            let after = watched.on(returned, Event::Return, edge.label, method);
            steps.push([node, state, 3, edge.label, edge.to, after]);
        }
    }
    steps
}

/// Forwards, the smallest of the trails of each length to each place.
fn naive_trail(watched: &Watched, start: usize) -> Option<Vec<u8>> {
    let summaries = naive_summaries(watched);
    let mut trails: BTreeMap<(usize, usize), Vec<u8>> = BTreeMap::new();
    for entry in watched.entries(start) {
        trails.insert((entry, 0), vec![entry as u8, 0, 0, 0, entry as u8, 0]);
    }
    for _ in 0..=watched.graph.nodes.len() * BAD {
        let bad = trails.iter().filter(|((_, state), _)| *state == BAD);
        if let Some(trail) = bad.map(|(_, trail)| trail).min() {
            return Some(trail.clone());
        }
        let mut longer: BTreeMap<(usize, usize), Vec<u8>> = BTreeMap::new();
        for (&(node, state), trail) in &trails {
            for record in steps(watched, &summaries, node, state) {
                let more = [&trail[..], &record.map(|field| field as u8)].concat();
                let best = longer.entry((record[4], record[5])).or_insert_with(|| more.clone());
                *best = more.min(best.clone());
            }
        }
        trails = longer;
    }
    None
}

#[test]
fn trails_agree_with_naive_ones_and_with_runs() {
    let mut random = Random::new(6);
    // Clean and bad, as told by runs.
    let mut told = [0; 2];
    for _ in 0..40_000 {
        let count = random.pick(&[1, 2, 2, 3, 8]);
        let methods = u8::MAX >> (8 - count);
        let graph_file = generate::graph_of(&mut random, Size::Small, methods, methods);
        let rules_file = generate::rules(&mut random, Size::Small);
        let start = 1 + random.byte() % count;
        let watched = Watched {
            graph: check_graph(&graph_file, LIMITS).expect("a valid graph"),
            rules: check_rules(&rules_file).expect("valid rules"),
        };
        let interface = [5, methods, methods, 0, 0, 0];
        let outcome = watch(&interface, &graph_file, &rules_file, start);
        let expected = naive_trail(&watched, usize::from(start))
            .map_or(said(1, &[], vec![]), |trail| said(2, &[trail.len() as u64 / 6], trail));
        assert_eq!(outcome, expected, "{graph_file:?} {rules_file:?} {start}");
        if let Some(bad) = explored(&watched, usize::from(start), 6) {
            assert_eq!(parts(outcome).0 == 2, bad, "{graph_file:?} {rules_file:?} {start}");
            told[usize::from(bad)] += 1;
        }
    }
    assert!(told[0] > 10_000 && told[1] > 1_000, "{told:?}");
}
