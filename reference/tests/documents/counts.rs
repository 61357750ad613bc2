//! The counts that a document gives: in a row of its table "how many" is what
//! is counted in the tree at the path under "where".

use reference::run::records;

use crate::text::{codes, Line};
use crate::tree;

fn edits(name: &str) -> usize {
    tree::files(&format!("crates/{name}/must-fail")).len()
}

/// A file that is stored with a program.
fn stored(name: &str, file: &str) -> Option<Vec<u8>> {
    std::fs::read(tree::root().join(format!("crates/{name}/{file}"))).ok()
}

fn stored_runs(name: &str) -> usize {
    usize::from(stored(name, "stdout").is_some())
}

fn stored_records(name: &str) -> usize {
    stored(name, "stdin").map_or(0, |input| records(&input).len())
}

/// What is counted in a crate, by its path.
type Counter = (&'static str, fn(&str) -> usize);

const COUNTERS: [Counter; 3] = [
    ("crates/*/must-fail", edits),
    ("crates/*/stdout", stored_runs),
    ("crates/*/stdin", stored_records),
];

pub fn rows(line: &Line) -> Vec<String> {
    let (Some(said), Some(place)) = (line.cell("how many"), line.cell("where")) else {
        return Vec::new();
    };
    let places = codes(&place);
    let counter = COUNTERS.iter().find(|(path, _)| places.contains(path));
    let count = counter.map(|(_, count)| tree::crates().iter().map(|name| count(name)).sum());
    let wrong = count.filter(|count: &usize| said.replace(',', "") != count.to_string());
    let wrong = wrong.map(|count| format!("{} has {count}, not {said}", places.join(" ")));
    wrong.into_iter().collect()
}
