//! Links: each leads to a file or a folder of the tree and, after '#', to a
//! heading or an explicit id of that file. No outside address is asked for.

use std::path::{Path, PathBuf};

use crate::tree;

/// The documents whose links are followed.
fn documents() -> Vec<PathBuf> {
    let folders = ["", "docs", "docs/requests", "examples"];
    let files = folders.into_iter().flat_map(tree::files);
    files
        .filter(|path| path.extension().is_some_and(|ending| ending == "md"))
        .collect()
}

/// The lines outside fenced blocks, each with its number.
fn prose(text: &str) -> Vec<(usize, &str)> {
    let mut is_fenced = false;
    let mut lines = Vec::new();
    for (i, line) in text.lines().enumerate() {
        if line.trim_start().starts_with("```") {
            is_fenced = !is_fenced;
        } else if !is_fenced {
            lines.push((i + 1, line));
        }
    }
    lines
}

/// Where a line's links lead: [text](target), but not between backticks, and
/// [name]: target.
fn targets(line: &str) -> Vec<&str> {
    let is_code = |at: usize| line[..at].matches('`').count() % 2 == 1;
    let inline = line.match_indices("](").filter(|(at, _)| !is_code(*at));
    let inline = inline.map(|(at, mark)| &line[at + mark.len()..]);
    let named = line
        .strip_prefix('[')
        .and_then(|name| name.split_once("]: "));
    let rests = inline.chain(named.map(|(_, rest)| rest));
    rests
        .map(|rest| rest.split([')', ' ']).next().unwrap_or(rest))
        .collect()
}

/// The anchor that GitHub gives a heading.
fn slug(heading: &str) -> String {
    let is_kept = |c: &char| c.is_alphanumeric() || " -_".contains(*c);
    let kept = heading.trim().chars().filter(is_kept);
    let small = kept.flat_map(char::to_lowercase);
    small.map(|c| if c == ' ' { '-' } else { c }).collect()
}

/// The text of a heading.
fn heading(line: &str) -> Option<&str> {
    let text = line.trim_start_matches('#').strip_prefix(' ');
    text.filter(|_| line.starts_with('#'))
}

/// The explicit ids of a line: <a id="no-11"></a>.
fn ids(line: &str) -> Vec<String> {
    let after = line.split(" id=\"").skip(1);
    after
        .map(|rest| rest.split('"').next().unwrap_or(rest).to_string())
        .collect()
}

/// The anchors of a text: its headings, of which the second of a name ends in
/// -1, and its explicit ids.
fn anchors(text: &str) -> Vec<String> {
    let lines = prose(text);
    let slugs: Vec<String> = lines
        .iter()
        .filter_map(|(_, line)| heading(line).map(slug))
        .collect();
    let mut anchors: Vec<String> = lines.iter().flat_map(|(_, line)| ids(line)).collect();
    for (i, slug) in slugs.iter().enumerate() {
        let before = slugs[..i].iter().filter(|other| *other == slug).count();
        let numbered = format!("{slug}-{before}");
        anchors.push(if before == 0 { slug.clone() } else { numbered });
    }
    anchors
}

fn is_outside(target: &str) -> bool {
    target.contains("://") || target.starts_with("mailto:")
}

/// What is wrong with a link of a document.
fn fault(document: &Path, target: &str) -> Option<String> {
    if is_outside(target) {
        return None;
    }
    let (path, anchor) = target.split_once('#').unwrap_or((target, ""));
    let mut file = document.to_path_buf();
    if !path.is_empty() {
        file = document.parent()?.join(path);
    }
    if path.starts_with('/') || !file.exists() {
        return Some(format!("there is no {path}"));
    }
    let is_there = anchor.is_empty() || anchors(&tree::read(&file)).iter().any(|a| a == anchor);
    Some(format!("{target} is no heading or id")).filter(|_| !is_there)
}

/// What is wrong with the links of all documents.
pub fn faults() -> Vec<String> {
    let mut faults = Vec::new();
    for document in documents() {
        for (number, line) in prose(&tree::read(&document)) {
            let found = targets(line).into_iter();
            let found = found.filter_map(|target| fault(&document, target));
            let shown = tree::shown(&document);
            faults.extend(found.map(|fault| format!("{shown}:{number}: {fault}")));
        }
    }
    faults
}

#[test]
fn anchors_are_githubs_names_of_headings_and_explicit_ids() {
    let text =
        "# The book\n## `NO 11`: paid, incurred\n## The book\n```\n# no\n```\n<a id=\"x_1\"></a>";
    let found = ["x_1", "the-book", "no-11-paid-incurred", "the-book-1"];
    assert_eq!(anchors(text), found);
}

#[test]
fn links_are_found_outside_code() {
    let line = "[a](b.md#c), [`d`](e \"f\"), `[g](h)` and ![i](j.svg)";
    assert_eq!(targets(line), ["b.md#c", "e", "j.svg"]);
    assert_eq!(targets("[k]: l.md"), ["l.md"]);
}
