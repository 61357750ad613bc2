//! Paths, and the names that a document cites with their file.

use std::path::PathBuf;

use crate::text::{codes, joins, parts, Line, Part};
use crate::tree::{self, declares, find, is_crate, is_path};

/// What a word crate/NAME stands for: a file of theorems, or an edit.
fn short_path(word: &str) -> Option<PathBuf> {
    let (name, what) = word
        .trim_matches(|c| "(),;:.".contains(c))
        .split_once('/')?;
    let is_file = what.starts_with(char::is_uppercase);
    let theorems = tree::root().join(format!("crates/{name}/proofs/{what}.antt"));
    let path = if is_file {
        theorems
    } else {
        tree::edit(name, what)
    };
    Some(path).filter(|_| is_crate(name))
}

/// The files that a path between backticks names.
fn files_of(line: &Line, path: &str) -> Vec<PathBuf> {
    let short = short_path(path).filter(|path| path.exists());
    let found = find(path, &line.near()).into_iter();
    found.chain(short).collect()
}

/// The files that a name in the column of files has: it stands in the folder
/// that was named last.
fn listed_files(line: &Line, name: &str) -> Vec<PathBuf> {
    find(&format!("{}/{name}", line.folder), &[])
}

/// The names in the column of files that are no paths.
fn listed(line: &Line) -> Vec<String> {
    let mut columns = line.columns().into_iter();
    let files = columns.find(|(title, _)| title == "file" || title.starts_with("file of "));
    let (_, cell) = files.unwrap_or_default();
    let names = codes(&cell).into_iter().filter(|name| !is_path(name));
    names.map(String::from).collect()
}

pub fn paths(line: &Line) -> Vec<String> {
    let mut missing = listed(line);
    missing.retain(|name| listed_files(line, name).is_empty());
    for part in parts(&line.text) {
        if part.code && is_path(part.text) && files_of(line, part.text).is_empty() {
            missing.push(part.text.to_string());
        } else if !part.code {
            let short = part.text.split_whitespace().filter_map(short_path);
            missing.extend(
                short
                    .filter(|path| !path.exists())
                    .map(|path| tree::shown(&path)),
            );
        }
    }
    missing
        .into_iter()
        .map(|path| format!("there is no {path}"))
        .collect()
}

/// The names from part i on, each joined to the last.
fn names_from<'a>(parts: &[Part<'a>], i: usize) -> Vec<&'a str> {
    let names = (i..parts.len()).step_by(2);
    let joined =
        names.take_while(|&k| (k == i || joins(parts[k - 1].text)) && !is_path(parts[k].text));
    joined.map(|k| parts[k].text).collect()
}

/// The names up to part i, each joined to the next.
fn names_to<'a>(parts: &[Part<'a>], i: usize) -> Vec<&'a str> {
    let names = (1..=i).rev().step_by(2);
    let joined =
        names.take_while(|&k| (k == i || joins(parts[k + 1].text)) && !is_path(parts[k].text));
    joined.map(|k| parts[k].text).collect()
}

/// Some names, and the files of which one declares each.
type Cited<'a> = (Vec<&'a str>, Vec<PathBuf>);

/// model/Steps: `long_line`, with its backticks there or around it all.
fn with_theorems<'a>(parts: &[Part<'a>]) -> Vec<Cited<'a>> {
    let mut cited = Vec::new();
    for (i, part) in parts.iter().enumerate() {
        if let Some((file, theorem)) = part.text.split_once(": ").filter(|_| part.code) {
            cited.extend(short_path(file).map(|file| (vec![theorem], vec![file])));
        } else if part.text.ends_with(": ") {
            let file = part.text.split_whitespace().last().and_then(short_path);
            cited.extend(file.map(|file| (names_from(parts, i + 1), vec![file])));
        }
    }
    cited
}

/// `file`: `name`; `name` (`file`, `file`); (`name`, `file`); (`file`, `name`).
fn with_files<'a>(line: &Line, parts: &[Part<'a>]) -> Vec<Cited<'a>> {
    let text = |i: usize| parts.get(i).map_or("", |part| part.text);
    let is_file = |i: usize| is_path(text(i)) && text(i).contains('.');
    let mut cited = Vec::new();
    for i in (1..parts.len()).step_by(2).filter(|&i| is_file(i)) {
        let files = files_of(line, text(i));
        let (before, after) = (text(i - 1), text(i + 1));
        if after == ": " {
            cited.push((names_from(parts, i + 2), files));
        } else if before == " (" && i > 2 {
            let other = files_of(line, text(i + 2)).into_iter();
            let other = other.filter(|_| after == ", ");
            cited.push((
                names_to(parts, i - 2),
                files.into_iter().chain(other).collect(),
            ));
        } else if before == ", " && after.starts_with(')') && !is_file(i - 2) {
            cited.push((vec![text(i - 2)], files));
        } else if before.ends_with('(') && after == ", " && text(i + 3).starts_with(')') {
            cited.push((names_from(parts, i + 2), files));
        }
    }
    cited
}

/// Every name is declared in a file that it stands with. Of a file that is
/// missing, its path says so.
pub fn names(line: &Line) -> Vec<String> {
    let parts = parts(&line.text);
    let theorems = line.cell("theorem").unwrap_or_default();
    let listed = listed(line);
    let files = listed.iter().flat_map(|name| listed_files(line, name));
    let mut cited = vec![(codes(&theorems), files.collect())];
    cited.extend(with_theorems(&parts));
    cited.extend(with_files(line, &parts));
    let mut wrong = Vec::new();
    for (names, mut files) in cited {
        files.retain(|file| file.is_file());
        let shown: Vec<String> = files.iter().map(|file| tree::shown(file)).collect();
        let missing = names
            .into_iter()
            .filter(|name| !files.iter().any(|file| declares(file, name)));
        let missing = missing.filter(|_| !files.is_empty());
        wrong.extend(
            missing.map(|name| format!("{name} is not declared in {}", shown.join(" or "))),
        );
    }
    wrong
}

/// "A test is a function of `reference/tests`."
pub fn tests(line: &Line) -> Vec<String> {
    let files = tree::files("reference/tests");
    let mut wrong = Vec::new();
    for (title, cell) in line.columns() {
        let named = codes(&cell)
            .into_iter()
            .filter(|code| title.starts_with("test") && !is_path(code));
        let missing = named.filter(|name| !files.iter().any(|file| declares(file, name)));
        wrong.extend(missing.map(|name| format!("reference/tests has no test {name}")));
    }
    wrong
}
