//! Writes what crates/course reads and what it is held to: data/, args and stdout; and what the program `listing` is run on: tests/listing. Run it when an example
//! is added.

use std::fs;
use std::io;

fn main() -> io::Result<()> {
    let crate_files = course::repository().join("crates/course");
    let examples = course::examples()?;
    for example in &examples {
        fs::write(crate_files.join("data").join(&example.name), &example.bytes)?;
    }
    let names: String = examples.iter().map(|example| format!("{}\n", example.name)).collect();
    fs::write(crate_files.join("args"), names)?;
    let lines: String = examples.iter().map(course::line).collect();
    fs::write(crate_files.join("stdout"), lines)?;
    let listings = course::repository().join("tests/listing");
    for run in course::listings()? {
        fs::write(listings.join(format!("{}.in", run.name)), &run.input)?;
        fs::write(listings.join(format!("{}.out", run.name)), run.printed())?;
    }
    Ok(())
}
