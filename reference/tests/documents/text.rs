//! A document's lines, each with its section and its table.

use crate::tree;

pub struct Line {
    pub number: usize,
    pub text: String,
    /// The last heading.
    pub section: String,
    /// The cells of the table's first row, if the line is another row of it.
    pub header: Vec<String>,
    /// The last folder of a crate that was named before the table.
    pub folder: String,
}

/// A piece of a line: what stands between backticks is code.
#[derive(Clone, Copy)]
pub struct Part<'a> {
    pub code: bool,
    pub text: &'a str,
}

/// A line, or a cell, cut at its backticks.
pub fn parts(text: &str) -> Vec<Part<'_>> {
    let pieces = text.split('`').enumerate();
    pieces
        .map(|(i, text)| Part {
            code: i % 2 == 1,
            text,
        })
        .collect()
}

/// What stands between backticks.
pub fn codes(text: &str) -> Vec<&str> {
    let codes = parts(text).into_iter().filter(|part| part.code);
    codes.map(|part| part.text).collect()
}

/// Does nothing but a comma or a small word part two names of a list?
pub fn joins(text: &str) -> bool {
    [", ", " and ", " to "].contains(&text)
}

fn cells(text: &str) -> Vec<String> {
    let inner = text.trim().trim_matches('|').split('|');
    inner.map(|cell| cell.trim().to_string()).collect()
}

impl Line {
    /// The cells of a row with the titles of their columns.
    pub fn columns(&self) -> Vec<(String, String)> {
        let titles = self.header.iter().cloned();
        titles.zip(cells(&self.text)).collect()
    }

    /// The cell under a title.
    pub fn cell(&self, title: &str) -> Option<String> {
        let mut columns = self.columns().into_iter();
        columns.find(|(t, _)| t == title).map(|(_, cell)| cell)
    }

    /// The crates whose row it is, or whose section.
    pub fn near(&self) -> Vec<String> {
        let first = self.columns().into_iter().next();
        let row = first.map(|(_, cell)| cell).unwrap_or_default();
        let named = codes(&row).into_iter().chain([self.section.as_str()]);
        named
            .filter(|c| tree::is_crate(c))
            .map(String::from)
            .collect()
    }
}

pub fn lines(document: &str) -> Vec<Line> {
    let whole = tree::read(&tree::root().join(document));
    let (mut section, mut folder) = (String::new(), String::new());
    let mut header: Vec<String> = Vec::new();
    let mut lines = Vec::new();
    for (i, text) in whole.lines().enumerate() {
        if text.starts_with('#') {
            section = text.trim_start_matches('#').trim().to_string();
        }
        let is_first = text.starts_with('|') && header.is_empty();
        if !text.starts_with('|') {
            header.clear();
        }
        if header.is_empty() {
            let mut named = codes(text).into_iter().rev();
            let named = named.find(|code| tree::is_folder(code));
            folder = named.map_or(folder, String::from);
        }
        lines.push(Line {
            number: i + 1,
            text: text.to_string(),
            section: section.clone(),
            header: header.clone(),
            folder: folder.clone(),
        });
        if is_first {
            header = cells(text);
        }
    }
    lines
}
