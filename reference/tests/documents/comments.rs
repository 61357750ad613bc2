//! Comments of the crates: none is longer than a reader takes in at once.

use std::path::{Path, PathBuf};

use crate::tree;

const LONGEST: usize = 200;

/// The sources below a folder, but for the copies that `rt` keeps.
fn sources(folder: &Path) -> Vec<PathBuf> {
    let Ok(entries) = std::fs::read_dir(folder) else {
        return Vec::new();
    };
    let paths = entries.map(|entry| entry.expect("an entry").path());
    let paths = paths.filter(|path| !tree::is_built(&tree::shown(path)));
    let is_source = |path: &PathBuf| path.extension().is_some_and(|e| e == "rt" || e == "antt");
    let (folders, files): (Vec<PathBuf>, Vec<PathBuf>) = paths.partition(|path| path.is_dir());
    let inner = folders.iter().flat_map(|folder| sources(folder));
    files.into_iter().filter(is_source).chain(inner).collect()
}

fn is_comment(line: &str) -> bool {
    let line = line.trim_start();
    line.starts_with("//") || line.starts_with("--")
}

/// The lines of long comments.
pub fn long() -> Vec<String> {
    let mut long = Vec::new();
    for path in sources(&tree::root().join("crates")) {
        let text = tree::read(&path);
        let lines = text.lines().enumerate();
        let found = lines.filter(|(_, line)| is_comment(line) && line.chars().count() > LONGEST);
        long.extend(found.map(|(i, _)| format!("{}:{}", tree::shown(&path), i + 1)));
    }
    long
}
