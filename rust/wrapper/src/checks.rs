//! The checks of one file, as the file of position 1.

use crate::boundary::{Answer, OnFile};
use crate::refusal::Refusal;

extern "C" {
    fn tintboulder_check_graph(file: *const u8, file_length: usize) -> Answer;
    fn tintboulder_check_property(file: *const u8, file_length: usize) -> Answer;
    fn tintboulder_check_rules(file: *const u8, file_length: usize) -> Answer;
    fn tintboulder_check_interface(file: *const u8, file_length: usize) -> Answer;
}

/// The check of a graph as a call, for the answer as six numbers; the same of the other kinds below.
// Safe: these are functions of the boundary.
pub const CHECK_GRAPH: OnFile = unsafe { OnFile::new(tintboulder_check_graph) };
pub const CHECK_PROPERTY: OnFile = unsafe { OnFile::new(tintboulder_check_property) };
pub const CHECK_RULES: OnFile = unsafe { OnFile::new(tintboulder_check_rules) };
pub const CHECK_INTERFACE: OnFile = unsafe { OnFile::new(tintboulder_check_interface) };

/// An accepted file: how many of its records are nodes, and how many records it has.
#[derive(Clone, Copy, Debug, PartialEq, Eq)]
pub struct Accepted {
    pub nodes: u64,
    pub records: u64,
}

/// Checks a graph file.
///
/// ```
/// let node_and_edge = [[1, 1, 0, 1, 0, 0], [2, 0, 0, 0, 0, 0]].concat();
/// let accepted = tintboulder::check_graph(&node_and_edge)?;
/// assert_eq!((accepted.nodes, accepted.records), (1, 2));
/// # Ok::<(), tintboulder::Refusal>(())
/// ```
pub fn check_graph(file: &[u8]) -> Result<Accepted, Refusal> {
    checked(CHECK_GRAPH, file)
}

/// Checks a property file, which has at least one row.
///
/// ```
/// use tintboulder::{check_property, Reason};
/// assert_eq!(check_property(&[3, 1, 0, 0, 0, 0]).map(|accepted| accepted.records), Ok(1));
/// assert_eq!(check_property(&[]).map_err(|refusal| refusal.reason), Err(Reason::Empty));
/// ```
pub fn check_property(file: &[u8]) -> Result<Accepted, Refusal> {
    checked(CHECK_PROPERTY, file)
}

/// Checks a rule file, which may be empty.
///
/// ```
/// use tintboulder::{check_rules, Reason};
/// let rule = [4, 0, 1, 2, 1, 7];
/// assert_eq!(check_rules(&rule).map(|accepted| accepted.records), Ok(1));
/// let refusal = check_rules(&[rule, rule].concat()).unwrap_err();
/// assert_eq!((refusal.reason, refusal.record), (Reason::Order, 1));
/// ```
pub fn check_rules(file: &[u8]) -> Result<Accepted, Refusal> {
    checked(CHECK_RULES, file)
}

/// Checks an interface file, which has exactly one record.
///
/// ```
/// use tintboulder::{check_interface, Reason};
/// assert!(check_interface(&[5, 1, 2, 0, 0, 0]).is_ok());
/// let refusal = check_interface(&[5, 1, 2, 0, 0]).unwrap_err();
/// assert_eq!(refusal.reason, Reason::Length);
/// ```
pub fn check_interface(file: &[u8]) -> Result<Accepted, Refusal> {
    checked(CHECK_INTERFACE, file)
}

fn checked(check: OnFile, file: &[u8]) -> Result<Accepted, Refusal> {
    let answer = check.answer(file).accepted()?;
    Ok(Accepted { nodes: answer.first, records: answer.second })
}
