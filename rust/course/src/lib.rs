//! The examples of crates/course: one for each refusal 1 to 8 and each limit, the files of the case studies, and calls.

mod calls;
mod cases;
mod compared;
mod composed;
mod delivered;
mod entered;
mod examples;
mod joined;
mod judged;
pub mod listing;
mod modelled;
mod shown;
mod unwritten;
mod watched;

pub use composed::Study;
use second::files::{check_graph, check_interface, check_property, check_rules};
use second::record::{Limits, RECORD_LEN};
use std::io;
use std::path::{Path, PathBuf};

/// A file that the program reads. The start of the name tells what it is read as.
pub struct Example {
    pub name: String,
    pub bytes: Vec<u8>,
}

pub fn repository() -> PathBuf {
    Path::new(env!("CARGO_MANIFEST_DIR")).join("../..")
}

/// All examples, in the order in which the program reads them.
pub fn examples() -> io::Result<Vec<Example>> {
    let cases = cases::read(&repository().join("cases"))?;
    let mut all = examples::small();
    all.extend(examples::at_the_limits());
    all.extend(cases.iter().flat_map(cases::Case::examples));
    all.extend(judged::of_the_paper());
    all.extend(judged::of_any_label());
    all.extend(judged::of_lent_buffers());
    all.extend(judged::of_cases(&cases));
    all.extend(compared::of_the_paper());
    all.extend(compared::of_lent_buffers());
    all.extend(compared::of_cases(&cases));
    all.extend(modelled::of_the_paper());
    all.extend(modelled::of_the_highest_row());
    all.extend(modelled::of_any_label());
    all.extend(modelled::of_lent_buffers());
    all.extend(modelled::of_cases(&cases));
    all.extend(joined::of_the_paper());
    all.extend(joined::at_the_limits());
    all.extend(joined::of_lent_buffers());
    all.extend(joined::of_cases(&cases));
    all.extend(shown::of_the_paper());
    all.extend(watched::of_the_paper());
    all.extend(watched::of_lent_buffers());
    all.extend(watched::of_cases(&cases));
    all.extend(composed::of_the_paper());
    all.extend(composed::of_any_label());
    all.extend(composed::of_refusals());
    all.extend(composed::at_the_limits());
    all.extend(composed::of_lent_buffers());
    all.extend(composed::of_cases(&cases));
    all.extend(delivered::of_the_paper());
    all.extend(delivered::of_refusals());
    all.extend(delivered::at_the_limits());
    all.extend(delivered::of_lent_buffers());
    all.extend(delivered::of_judging());
    all.extend(unwritten::all(&cases));
    all.extend(entered::all());
    Ok(all)
}

/// The case studies of which one side is not written.
pub fn studies() -> io::Result<Vec<Study>> {
    Ok(composed::studies(&cases::read(&repository().join("cases"))?))
}

/// What the program `listing` is run on.
pub fn listings() -> io::Result<Vec<listing::Run>> {
    Ok(listing::runs(&cases::read(&repository().join("cases"))?))
}

/// What the program prints of an example, as the second implementation has it.
pub fn line(example: &Example) -> String {
    let Example { name, bytes } = example;
    match name.split('-').next() {
        Some("judge") => judged::lines(name, &calls::Call::of(bytes)),
        Some("compare") => compared::lines(name, &calls::Call::of(bytes)),
        Some("model") => modelled::lines(name, &calls::Call::of(bytes)),
        Some("join") => joined::lines(name, bytes),
        Some("show") => shown::lines(name, bytes),
        Some("watch") => watched::lines(name, bytes),
        Some("compose") => composed::lines(name, bytes),
        Some("both") => unwritten::lines(name, bytes),
        Some("assemble") => delivered::assembled_lines(name, bytes),
        Some("deliveries") => delivered::judged_lines(name, bytes),
        _ => checked_line(name, bytes),
    }
}

/// What it prints of one file of a kind.
fn checked_line(name: &str, bytes: &[u8]) -> String {
    let nodes = match name.as_bytes().first() {
        Some(b'g') => check_graph(bytes, &Limits::DESK).map(|graph| graph.nodes.len()),
        Some(b'p') => check_property(bytes, &Limits::DESK).map(|_| 0),
        Some(b'r') => check_rules(bytes).map(|_| 0),
        _ => check_interface(bytes).map(|_| 0),
    };
    match nodes {
        Ok(nodes) => format!("{name}: accepted {nodes} {}\n", bytes.len() / RECORD_LEN),
        Err((number, record)) => format!("{name}: refused {number} 1 {record}\n"),
    }
}
