//! CHECKLIST's last part: a table of each crate's public functions.

use crate::text::{codes, Line};
use crate::tree;

/// A function as it is called, and whether it has a `requires`.
type Function = (String, bool);

/// What follows the parameters of "impl<'a, R: Into<u8>> Reader<'a, R> {".
fn past_parameters(text: &str) -> &str {
    let mut depth = 0;
    let end = text.find(|c| {
        depth += i32::from(c == '<') - i32::from(c == '>');
        depth == 0
    });
    match end {
        Some(end) if text.starts_with('<') => &text[end + 1..],
        _ => text,
    }
}

/// The type of "impl Rate {", "impl<'a> Reader<'a> {" or "impl Model for Rate {".
fn owner_of(line: &str) -> Option<String> {
    let head = past_parameters(line.strip_prefix("impl")?);
    let named = head.split_once(" for ").map_or(head, |(_, named)| named);
    let name = named.trim_start().split([' ', '{', '<']).next()?;
    Some(format!("{name}::"))
}

/// The public functions of a module's text, each after its type.
fn functions_in(text: &str) -> Vec<Function> {
    let (mut owner, mut is_public) = (String::new(), false);
    let mut functions: Vec<Function> = Vec::new();
    for line in text.lines() {
        let inner = line.trim_start();
        if line.starts_with("impl") || line.starts_with('}') {
            owner = owner_of(line).unwrap_or_default();
        } else if let Some(after) = inner.strip_prefix("pub fn ") {
            let name = after.split(['(', '<']).next().unwrap_or(after);
            functions.push((format!("{owner}{name}"), false));
            is_public = true;
        } else if inner.starts_with("fn ") {
            is_public = false;
        } else if let Some(last) = functions.last_mut().filter(|_| is_public) {
            last.1 |= inner.starts_with("requires");
        }
    }
    functions
}

/// A public function is a `pub fn` of a public module.
fn public_functions(name: &str) -> Vec<Function> {
    let source = |module: &str| {
        let path = tree::root().join(format!("crates/{name}/src/{module}.rt"));
        Some(path)
            .filter(|path| path.is_file())
            .map(|path| tree::read(&path))
    };
    let lib = source("lib").unwrap_or_default();
    let mut functions = functions_in(&lib);
    for line in lib.lines() {
        let line = line.trim_end_matches(['}', ';']);
        if let Some(module) = line.strip_prefix("pub mod ") {
            let inner = functions_in(&source(module).unwrap_or_default()).into_iter();
            functions.extend(inner.map(|(name, requires)| (format!("{module}::{name}"), requires)));
        } else if let Some((module, used)) = line
            .strip_prefix("pub use ")
            .and_then(|used| used.split_once("::"))
        {
            let used: Vec<&str> = used.trim_start_matches('{').split(", ").collect();
            let inner = functions_in(&source(module).unwrap_or_default()).into_iter();
            functions.extend(inner.filter(|(name, _)| used.contains(&name.as_str())));
        }
    }
    functions
}

/// The crate and the function of a row.
fn listed(line: &Line) -> Option<(String, String)> {
    let cell = line
        .cell("function")
        .filter(|_| tree::is_crate(&line.section))?;
    Some((line.section.clone(), codes(&cell).first()?.to_string()))
}

/// The labels of a row are edits, two at least.
fn wrong_labels(line: &Line) -> Vec<String> {
    let cell = line.cell("wrong answers").unwrap_or_default();
    let labels = codes(&cell);
    let few = Some("fewer than two edits".to_string()).filter(|_| labels.len() < 2);
    let missing = labels
        .iter()
        .filter(|label| !tree::edit(&line.section, label).is_file());
    let missing = missing.map(|label| format!("there is no edit {}/{label}", line.section));
    missing.chain(few).collect()
}

pub fn rows(line: &Line) -> Vec<String> {
    let Some((name, function)) = listed(line) else {
        return Vec::new();
    };
    let mut wrong = wrong_labels(line);
    let said = line.cell("requires") != Some("none".to_string());
    match public_functions(&name)
        .iter()
        .find(|known| known.0 == function)
    {
        None => wrong.push(format!("{name} has no public function {function}")),
        Some((_, requires)) if *requires != said => {
            wrong.push(format!("what {function} requires is not what is said"));
        }
        Some(_) => {}
    }
    wrong
}

/// The public functions that no row lists.
pub fn missing(lines: &[Line]) -> Vec<String> {
    let listed: Vec<(String, String)> = lines.iter().filter_map(listed).collect();
    let mut missing = Vec::new();
    for name in tree::crates() {
        let functions = public_functions(name).into_iter();
        let all = functions.map(|(function, _)| (name.clone(), function));
        let unlisted = all.filter(|function| !listed.contains(function));
        missing.extend(unlisted.map(|(name, function)| format!("{name}: {function}")));
    }
    missing
}

#[test]
fn an_impl_belongs_to_its_type() {
    let owned = [
        ("impl Rate {", "Rate::"),
        ("impl<'a> Reader<'a> {", "Reader::"),
        ("impl<R: Into<u8>> Reader<R> {", "Reader::"),
        ("impl Model for Rate {", "Rate::"),
    ];
    for (line, owner) in owned {
        assert_eq!(owner_of(line).as_deref(), Some(owner), "{line}");
    }
}
