//! The proved checker, called through its C boundary (include/tintboulder.h). Every call is total, so each function here is safe for every slice.
//!
//! [`Buffers`] has a method for each call that writes a result; `show` and the checks of one file need no buffers. The other functions are lent buffers by the caller,
//! and may be refused by 12 or 13 for their lengths.

mod both;
mod boundary;
mod buffers;
mod checks;
mod compare;
mod compose;
mod deliveries;
mod join;
mod judge;
mod model;
mod refusal;
mod show;
mod watch;

pub use both::{
    compose_both, compose_both_answer, compose_both_store, compose_both_work, Unwritten,
};
pub use boundary::{Answer, OnFile, OnTwoFiles};
pub use buffers::{Buffers, Record, Said};
pub use checks::{check_graph, check_interface, check_property, check_rules, Accepted};
pub use checks::{CHECK_GRAPH, CHECK_INTERFACE, CHECK_PROPERTY, CHECK_RULES};
pub use compare::{compare, Compared, COMPARE};
pub use compose::{compose, compose_answer, compose_store, compose_work, Composed, Sides};
pub use deliveries::{assemble, assemble_answer};
pub use deliveries::{judge_deliveries, judge_deliveries_answer};
pub use deliveries::{judge_deliveries_store, judge_deliveries_work};
pub use join::{join, join_answer, Joined};
pub use judge::{judge, Judged, JUDGE};
pub use model::{model, Written, MODEL};
pub use refusal::{Reason, Refusal};
pub use show::{show, show_answer};
pub use watch::{watch, watch_answer, watch_work, Watched};
