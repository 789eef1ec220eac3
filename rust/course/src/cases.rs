//! The case studies of cases/: decimals, one record a line, as bytes.

use crate::Example;
use std::fs;
use std::io;
use std::path::{Path, PathBuf};

/// The files of a case that the program can read, by name.
pub struct Case {
    pub name: String,
    files: Vec<(String, Vec<u8>)>,
}

impl Case {
    /// The files of one kind: their names tell it.
    pub fn files<'a>(&'a self, kind: &'a str) -> impl Iterator<Item = (&'a str, &'a [u8])> {
        let of_kind = self.files.iter().filter(move |(name, _)| name.starts_with(kind));
        of_kind.map(|(name, bytes)| (name.as_str(), bytes.as_slice()))
    }

    /// Those of the side that is known, where there is another.
    pub fn known<'a>(&'a self, kind: &'a str) -> impl Iterator<Item = (&'a str, &'a [u8])> {
        self.files(kind).filter(|(name, _)| !name[kind.len()..].starts_with('2'))
    }

    /// Every file, named for what it is and then for its case.
    pub fn examples(&self) -> Vec<Example> {
        let files = self.files.iter();
        files.map(|(name, bytes)| self.example(name, bytes.clone())).collect()
    }

    fn example(&self, name: &str, bytes: Vec<u8>) -> Example {
        Example { name: format!("{name}-of-{}.bin", self.name), bytes }
    }
}

/// Every case, by name.
pub fn read(cases: &Path) -> io::Result<Vec<Case>> {
    sorted(cases)?.iter().map(|path| one(path)).collect()
}

fn one(path: &Path) -> io::Result<Case> {
    let name = path.file_name().unwrap_or_default().to_string_lossy().into_owned();
    let mut files = Vec::new();
    for file in sorted(path)? {
        if let Some(name) = kind_and_name(&file) {
            files.push((name, bytes(&fs::read_to_string(&file)?)));
        }
    }
    Ok(Case { name, files })
}

fn sorted(directory: &Path) -> io::Result<Vec<PathBuf>> {
    let mut paths =
        fs::read_dir(directory)?.map(|entry| Ok(entry?.path())).collect::<io::Result<Vec<_>>>()?;
    paths.sort();
    Ok(paths)
}

/// The name of a graph, property, rule or interface file.
fn kind_and_name(file: &Path) -> Option<String> {
    let text = file.file_name()?.to_str()?.strip_suffix(".txt")?;
    let known = ["graph", "property", "rules", "interface"];
    known.iter().any(|kind| text.starts_with(kind)).then(|| text.to_owned())
}

fn bytes(text: &str) -> Vec<u8> {
    let lines = text.lines().filter(|line| !line.starts_with('#'));
    lines.flat_map(str::split_whitespace).filter_map(|field| field.parse().ok()).collect()
}
