//! What is committed below crates/course and tests/listing is what the examples give.

use std::fs;

#[test]
fn data_args_and_stdout_are_those_of_the_examples() {
    let crate_files = course::repository().join("crates/course");
    let examples = course::examples().expect("the case studies");
    for example in &examples {
        let committed = fs::read(crate_files.join("data").join(&example.name)).expect("data");
        assert_eq!(committed, example.bytes, "{}", example.name);
    }
    let read = |name: &str| fs::read_to_string(crate_files.join(name)).expect("a file of course");
    assert_eq!(read("args"), examples.iter().map(|e| format!("{}\n", e.name)).collect::<String>());
    assert_eq!(read("stdout"), examples.iter().map(course::line).collect::<String>());
    let files = fs::read_dir(crate_files.join("data")).expect("data").count();
    assert_eq!(files, examples.len(), "every file of data/ is an example");
}

#[test]
fn inputs_and_outputs_of_listing_are_those_of_its_runs() {
    let listings = course::repository().join("tests/listing");
    let runs = course::listings().expect("the case studies");
    for run in &runs {
        let read = |ending: &str| fs::read(listings.join(format!("{}.{ending}", run.name)));
        assert_eq!(read("in").expect("an input"), run.input, "{}", run.name);
        assert_eq!(read("out").expect("an output"), run.printed().into_bytes(), "{}", run.name);
    }
    let files = fs::read_dir(&listings).expect("tests/listing").count();
    assert_eq!(files, 2 * runs.len(), "every file is of a run");
}
