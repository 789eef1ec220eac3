//! Buffers for every call, allocated once and lent to one call after the other.

use crate::both::{compose_both, compose_both_store, compose_both_work, Unwritten};
use crate::checks::check_graph;
use crate::compare::{compare, Compared, COMPARE};
use crate::compose::{compose, compose_store, compose_work, Composed, Sides};
use crate::deliveries::{assemble, judge_deliveries};
use crate::deliveries::{judge_deliveries_store, judge_deliveries_work};
use crate::join::{join, Joined};
use crate::judge::{judge, Judged, JUDGE};
use crate::model::{model, Written, MODEL};
use crate::refusal::Refusal;
use crate::watch::{watch, watch_work, Watched};

/// A record of a file, a fault sheet or a trail.
pub type Record = [u8; 6];

/// Bytes of the relation for each node of the first graph.
const LINE: usize = 32;
/// Bytes of the longest result of any call, a fault sheet: it lists each pair of 256 nodes and 32 rows at most once.
const LONGEST: usize = 256 * 32 * size_of::<Record>();

/// An output that is long enough for every result, and work buffers of the published lengths: no call that is lent them is refused by 12 or 13.
///
/// Nothing is allocated after `new`; what a call writes is read before the next call.
pub struct Buffers {
    out: Vec<u8>,
    store: Vec<u8>,
    work: Vec<u8>,
}

/// What a call said, and the bytes that it wrote.
#[derive(Clone, Copy, Debug, PartialEq, Eq)]
pub struct Said<'a, Verdict> {
    pub verdict: Verdict,
    pub written: &'a [u8],
}

impl<'a, Verdict> Said<'a, Verdict> {
    /// The bytes written as records: of a fault sheet, a graph file or a trail.
    pub fn records(&self) -> &'a [Record] {
        self.written.as_chunks().0
    }
}

impl Said<'_, Compared> {
    /// Whether the largest relation has this node of the first graph related to that of the second.
    pub fn relates(&self, first: usize, second: usize) -> bool {
        let line = self.written.chunks(LINE).nth(first).unwrap_or_default();
        line.get(second / 8).is_some_and(|byte| byte >> (second % 8) & 1 == 1)
    }
}

impl Default for Buffers {
    fn default() -> Buffers {
        Buffers::new()
    }
}

impl Buffers {
    pub fn new() -> Buffers {
        let works = [
            JUDGE.work(),
            COMPARE.work(),
            MODEL.work(),
            watch_work(),
            compose_work(),
            judge_deliveries_work(),
            compose_both_work(),
        ];
        let stores = [compose_store(), judge_deliveries_store(), compose_both_store()];
        let [store, work] = [&stores[..], &works].map(longest);
        Buffers { out: vec![0; LONGEST], store, work }
    }

    /// Does the graph satisfy the property? The records are those of the fault sheet.
    ///
    /// ```
    /// use tintboulder::{Buffers, Judged};
    /// let graph = [[1, 1, 0, 1, 0, 0], [1, 1, 1, 0, 0, 0], [2, 0, 1, 1, 0, 0]].concat();
    /// // After every call of method 1: not return.
    /// let property = [[3, 9, 1, 1, 0, 0], [3, 6, 0, 0, 0, 0]].concat();
    /// let mut buffers = Buffers::new();
    /// let said = buffers.judge(&graph, &property)?;
    /// assert_eq!(said.verdict, Judged::Fails { records: 2 });
    /// assert_eq!(said.records(), [[0, 0, 1, 1, 0, 255], [1, 1, 0, 255, 0, 255]]);
    /// # Ok::<(), tintboulder::Refusal>(())
    /// ```
    pub fn judge(&mut self, graph: &[u8], property: &[u8]) -> Result<Said<'_, Judged>, Refusal> {
        let verdict = judge(graph, property, &mut self.out, &mut self.work[..JUDGE.work()])?;
        Ok(self.said_records(verdict, verdict.records()))
    }

    /// Does the second graph simulate the first? The bytes written are the largest relation, under either verdict.
    ///
    /// ```
    /// use tintboulder::{Buffers, Compared};
    /// let cycle = [[1, 1, 0, 1, 0, 0], [1, 1, 0, 1, 0, 0], [2, 0, 0, 1, 0, 0], [2, 1, 0, 0, 0, 0]];
    /// let edgeless = [1, 1, 0, 1, 0, 0];
    /// let mut buffers = Buffers::new();
    /// let said = buffers.compare(&edgeless, &cycle.concat())?;
    /// assert_eq!(said.verdict, Compared::Yes);
    /// assert!(said.relates(0, 0) && said.relates(0, 1) && !said.relates(0, 2));
    /// let said = buffers.compare(&cycle.concat(), &edgeless)?;
    /// assert_eq!(said.verdict, Compared::No { entry: 0 });
    /// # Ok::<(), tintboulder::Refusal>(())
    /// ```
    pub fn compare(&mut self, first: &[u8], second: &[u8]) -> Result<Said<'_, Compared>, Refusal> {
        let verdict = compare(first, second, &mut self.out, &mut self.work[..COMPARE.work()])?;
        let nodes = check_graph(first)?.nodes;
        Ok(self.said(verdict, nodes, LINE))
    }

    /// The most general module that the interface and the property allow. The records are those of its graph file.
    ///
    /// ```
    /// use tintboulder::{Buffers, Written};
    /// let (interface, not_return) = ([5, 1, 0, 0, 0, 0], [3, 6, 0, 0, 0, 0]);
    /// let mut buffers = Buffers::new();
    /// let said = buffers.model(&interface, &not_return)?;
    /// assert_eq!(said.verdict, Written { nodes: 3, edges: 6 });
    /// // Its only entry does not return.
    /// assert_eq!(said.records()[1], [1, 1, 0, 1, 0, 0]);
    /// # Ok::<(), tintboulder::Refusal>(())
    /// ```
    pub fn model(
        &mut self,
        interface: &[u8],
        property: &[u8],
    ) -> Result<Said<'_, Written>, Refusal> {
        let verdict = model(interface, property, &mut self.out, &mut self.work[..MODEL.work()])?;
        Ok(self.said_records(verdict, verdict.records()))
    }

    /// What two sides make together. The records are those of the joined graph's file.
    ///
    /// ```
    /// use tintboulder::{Buffers, Joined};
    /// let (interface1, graph1) = ([5, 1, 2, 0, 0, 0], [1, 1, 0, 1, 0, 0, 2, 0, 2, 0, 0, 0]);
    /// let (interface2, graph2) = ([5, 2, 1, 0, 0, 0], [1, 2, 1, 1, 0, 0, 2, 0, 1, 0, 0, 0]);
    /// let mut buffers = Buffers::new();
    /// let said = buffers.join(&interface1, &graph1, &interface2, &graph2)?;
    /// assert_eq!(said.verdict, Joined { nodes: 2, edges: 2, provided: 3, required: 3 });
    /// // The second graph's edge, moved by one node.
    /// assert_eq!(said.records()[3], [2, 1, 1, 1, 0, 0]);
    /// # Ok::<(), tintboulder::Refusal>(())
    /// ```
    pub fn join(
        &mut self,
        interface1: &[u8],
        graph1: &[u8],
        interface2: &[u8],
        graph2: &[u8],
    ) -> Result<Said<'_, Joined>, Refusal> {
        let verdict = join(interface1, graph1, interface2, graph2, &mut self.out)?;
        Ok(self.said_records(verdict, verdict.records()))
    }

    /// Does some run from the start method turn the monitor of the rules bad? The records are those of the trail.
    ///
    /// ```
    /// use tintboulder::{Buffers, Watched};
    /// let interface = [5, 1, 1, 0, 0, 0];
    /// // The entry calls its own method, which is bad.
    /// let graph = [[1, 1, 0, 1, 0, 0], [2, 0, 1, 0, 0, 0]].concat();
    /// let rules = [4, 0, 1, 1, 1, 7];
    /// let mut buffers = Buffers::new();
    /// let said = buffers.watch(&interface, &graph, &rules, 1)?;
    /// assert_eq!(said.verdict, Watched::Bad { records: 2 });
    /// assert_eq!(said.records(), [[0, 0, 0, 0, 0, 0], [0, 0, 2, 1, 0, 7]]);
    /// # Ok::<(), tintboulder::Refusal>(())
    /// ```
    pub fn watch(
        &mut self,
        interface: &[u8],
        graph: &[u8],
        rules: &[u8],
        start: u8,
    ) -> Result<Said<'_, Watched>, Refusal> {
        let work = &mut self.work[..watch_work()];
        let verdict = watch(interface, graph, rules, start, &mut self.out, work)?;
        Ok(self.said_records(verdict, verdict.records()))
    }

    /// Is the known side clean with every module of the other interface that satisfies the property and has an entry for each method that it provides? The records are
    /// those of the trail.
    ///
    /// ```
    /// use tintboulder::{Buffers, Composed, Sides};
    /// // Method 1 calls method 2, which is not written; nothing is demanded of it.
    /// let sides = Sides {
    ///     known_interface: &[5, 1, 2, 0, 0, 0],
    ///     known_graph: &[1, 1, 0, 1, 0, 0, 2, 0, 2, 0, 0, 0],
    ///     other_interface: &[5, 2, 1, 0, 0, 0],
    ///     property: &[3, 1, 0, 0, 0, 0],
    /// };
    /// // That method 2 calls method 1 is bad.
    /// let rules = [4, 0, 1, 2, 1, 7];
    /// let mut buffers = Buffers::new();
    /// let said = buffers.compose(&sides, &rules, 1)?;
    /// assert_eq!(said.verdict, Composed::Bad { records: 3 });
    /// assert_eq!(said.records()[2], [2, 0, 2, 1, 0, 7]);
    /// // Not so if it is not to take any step.
    /// let still = Sides { property: &[3, 10, 1, 0, 0, 0, 3, 2, 0, 0, 0, 0], ..sides };
    /// assert_eq!(buffers.compose(&still, &rules, 1)?.verdict, Composed::Clean);
    /// // And no entry of it can be written if nothing satisfies the property.
    /// let never = Sides { property: &[3, 2, 0, 0, 0, 0], ..sides };
    /// assert_eq!(buffers.compose(&never, &rules, 1)?.verdict, Composed::Impossible);
    /// # Ok::<(), tintboulder::Refusal>(())
    /// ```
    pub fn compose(
        &mut self,
        sides: &Sides,
        rules: &[u8],
        start: u8,
    ) -> Result<Said<'_, Composed>, Refusal> {
        let store = &mut self.store[..compose_store()];
        let work = &mut self.work[..compose_work()];
        let verdict = compose(sides, rules, start, &mut self.out, store, work)?;
        Ok(self.said_records(verdict, verdict.records()))
    }

    /// Is every pair of modules clean, of which each is of its side's interface, satisfies its property and has an entry for each method that it provides? The records
    /// are those of the trail.
    ///
    /// ```
    /// use tintboulder::{Buffers, Composed, Unwritten};
    /// // Methods 1 and 2 may call each other; nothing is demanded of either.
    /// let anything = &[3, 1, 0, 0, 0, 0];
    /// let first = Unwritten { interface: &[5, 1, 2, 0, 0, 0], property: anything };
    /// let second = Unwritten { interface: &[5, 2, 1, 0, 0, 0], property: anything };
    /// // That method 2 calls method 1 is bad.
    /// let rules = [4, 0, 1, 2, 1, 7];
    /// let mut buffers = Buffers::new();
    /// let said = buffers.compose_both(&[first, second], &rules, 2)?;
    /// assert_eq!(said.verdict, Composed::Bad { records: 2 });
    /// // The first side's model has four nodes.
    /// assert_eq!(said.records(), [[5, 0, 0, 0, 5, 0], [5, 0, 2, 1, 1, 7]]);
    /// // Not so if it is not to take any step.
    /// let still = Unwritten { property: &[3, 10, 1, 0, 0, 0, 3, 2, 0, 0, 0, 0], ..second };
    /// assert_eq!(buffers.compose_both(&[first, still], &rules, 2)?.verdict, Composed::Clean);
    /// // And no entry of either can be missing.
    /// let never = Unwritten { property: &[3, 2, 0, 0, 0, 0], ..first };
    /// let said = buffers.compose_both(&[never, second], &rules, 2)?;
    /// assert_eq!(said.verdict, Composed::Impossible);
    /// # Ok::<(), tintboulder::Refusal>(())
    /// ```
    pub fn compose_both(
        &mut self,
        sides: &[Unwritten; 2],
        rules: &[u8],
        start: u8,
    ) -> Result<Said<'_, Composed>, Refusal> {
        let store = &mut self.store[..compose_both_store()];
        let work = &mut self.work[..compose_both_work()];
        let verdict = compose_both(sides, rules, start, &mut self.out, store, work)?;
        Ok(self.said_records(verdict, verdict.records()))
    }

    /// What several deliveries make: of each method the highest revision stands. The records are those of the standing graph's file.
    ///
    /// ```
    /// use tintboulder::{Buffers, Written};
    /// // Method 2 in its third revision, then methods 1 and 2 in their first: the last does not stand.
    /// let third = [[6, 2, 3, 0, 0, 0], [1, 2, 0, 1, 0, 0], [2, 0, 0, 0, 0, 0]];
    /// let first = [[6, 1, 1, 0, 0, 0], [1, 1, 1, 1, 0, 0], [6, 2, 1, 0, 0, 0]];
    /// let mut buffers = Buffers::new();
    /// let said = buffers.assemble(&[third, first].concat().concat())?;
    /// assert_eq!(said.verdict, Written { nodes: 2, edges: 1 });
    /// // Methods ascend, and the edge is moved by one node.
    /// assert_eq!(said.records(), [[1, 1, 1, 1, 0, 0], [1, 2, 0, 1, 0, 0], [2, 1, 0, 1, 0, 0]]);
    /// # Ok::<(), tintboulder::Refusal>(())
    /// ```
    pub fn assemble(&mut self, deliveries: &[u8]) -> Result<Said<'_, Written>, Refusal> {
        let verdict = assemble(deliveries, &mut self.out)?;
        Ok(self.said_records(verdict, verdict.records()))
    }

    /// Does the graph of the deliveries that stand satisfy the property? The records are those of the fault sheet, in that graph's numbers.
    ///
    /// ```
    /// use tintboulder::{Buffers, Judged};
    /// let returning = [[6, 1, 1, 0, 0, 0], [1, 1, 1, 1, 0, 0]].concat();
    /// let not_return = [3, 6, 0, 0, 0, 0];
    /// let mut buffers = Buffers::new();
    /// let said = buffers.judge_deliveries(&returning, &not_return)?;
    /// assert_eq!(said.verdict, Judged::Fails { records: 1 });
    /// assert_eq!(said.records(), [[0, 0, 0, 255, 0, 255]]);
    /// // The supplier sends a second revision.
    /// let mended = [&returning[..], &[6, 1, 2, 0, 0, 0], &[1, 1, 0, 1, 0, 0]].concat();
    /// assert_eq!(buffers.judge_deliveries(&mended, &not_return)?.verdict, Judged::Holds);
    /// # Ok::<(), tintboulder::Refusal>(())
    /// ```
    pub fn judge_deliveries(
        &mut self,
        deliveries: &[u8],
        property: &[u8],
    ) -> Result<Said<'_, Judged>, Refusal> {
        let store = &mut self.store[..judge_deliveries_store()];
        let work = &mut self.work[..judge_deliveries_work()];
        let verdict = judge_deliveries(deliveries, property, &mut self.out, store, work)?;
        Ok(self.said_records(verdict, verdict.records()))
    }

    fn said_records<Verdict>(&self, verdict: Verdict, records: u64) -> Said<'_, Verdict> {
        self.said(verdict, records, size_of::<Record>())
    }

    /// With what stands at the start of the output: so many parts of so many bytes.
    fn said<Verdict>(&self, verdict: Verdict, parts: u64, bytes: usize) -> Said<'_, Verdict> {
        let parts = usize::try_from(parts).expect("parts of the output");
        Said { verdict, written: &self.out[..parts * bytes] }
    }
}

fn longest(lengths: &[usize]) -> Vec<u8> {
    vec![0; lengths.iter().copied().max().unwrap_or_default()]
}
