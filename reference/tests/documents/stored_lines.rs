//! Lines of stored runs: "`test_edges`, lines 2199 (RATE), 2236 (PATT): NO 6;
//! also 2242". In a bracket stands the record's word or how the answer begins,
//! and after a colon the answer of all.

use crate::text::{parts, Line};
use crate::tree;

/// The words that an answer begins with.
const ANSWERS: [&str; 7] = ["LINE", "RATE", "FACT", "TAX", "SUM", "MIDT", "NO"];

/// A line's number, and what stands in the bracket after it.
type Cited<'a> = (usize, &'a str);

/// The lines that a text cites, brackets with them.
fn cited(text: &str) -> Vec<Cited<'_>> {
    let mut found = Vec::new();
    let mut rest = text;
    while let Some(at) = rest.find(|c: char| c.is_ascii_digit()) {
        let digits = &rest[at..];
        let end = digits
            .find(|c: char| !c.is_ascii_digit())
            .unwrap_or(digits.len());
        let number = digits[..end].parse().expect("a line's number");
        rest = &digits[end..];
        let mut note = "";
        if let Some((inside, after)) = rest
            .strip_prefix(" (")
            .and_then(|inner| inner.split_once(')'))
        {
            (note, rest) = (inside, after);
        }
        found.push((number, note));
    }
    found
}

/// Where the first of some marks stands outside brackets.
fn find_outside(text: &str, marks: &str) -> usize {
    let mut depth = 0;
    for (at, c) in text.char_indices() {
        match c {
            '(' => depth += 1,
            ')' => depth -= 1,
            _ if depth == 0 && marks.contains(c) => return at,
            _ => {}
        }
    }
    text.len()
}

/// "1248, 1252, .. 1272"
fn series(text: &str) -> Vec<usize> {
    let numbers: Vec<usize> = cited(text).into_iter().map(|(number, _)| number).collect();
    match numbers[..] {
        [first, second, last] if text.contains("..") => {
            (first..=last).step_by(second - first).collect()
        }
        _ => numbers,
    }
}

/// A stored run's line, with spaces for tabs.
fn stored(run: &str, file: &str, number: usize) -> Option<String> {
    let text = tree::read(&tree::root().join(format!("crates/{run}/{file}")));
    let line = text
        .split('\n')
        .nth(number.checked_sub(1)?)?
        .replace('\t', " ");
    Some(line).filter(|line| !line.is_empty())
}

/// Does the bracket say what is there? It may go on with other numbers of the line.
fn fits(run: &str, (number, note): Cited, output: &str) -> bool {
    let words: Vec<&str> = note
        .split([' ', ','])
        .filter(|word| !word.is_empty())
        .collect();
    match words[..] {
        [word] if ["LINE", "RATE", "PATT", "YEAR", "SUM", "MIDT"].contains(&word) => {
            stored(run, "stdin", number).is_some_and(|record| record.starts_with(word))
        }
        [word, _, ..] if ANSWERS.contains(&word) => {
            let begins = note.split(',').next().unwrap_or(note);
            let fields: Vec<&str> = output.split(' ').collect();
            let mut numbers = words.iter().filter(|word| word.parse::<u64>().is_ok());
            output.starts_with(begins) && numbers.all(|number| fields.contains(number))
        }
        _ => true,
    }
}

/// What is wrong in the text after a run's name.
fn wrong_in(run: &str, text: &str) -> Vec<String> {
    let (head, tail) = text.split_at(find_outside(text, ":;|"));
    let mut all = cited(head);
    let mut answer = None;
    if let Some(tail) = tail.strip_prefix(": ") {
        let said = tail[..find_outside(tail, ",;|.")].trim();
        answer = Some(said).filter(|said| ANSWERS.iter().any(|word| said.starts_with(word)));
        let also = tail.split_once("; also ").map_or("", |(_, also)| also);
        let also = &also[..find_outside(also, ";|")];
        all.extend(series(also).into_iter().map(|number| (number, "")));
    }
    let mut wrong = Vec::new();
    for line in all {
        let output = stored(run, "stdout", line.0).unwrap_or_default();
        if output.is_empty() {
            wrong.push(format!("{run} has no line {}", line.0));
        } else if !fits(run, line, &output) || answer.is_some_and(|answer| answer != output) {
            wrong.push(format!("line {} of {run} is {output}", line.0));
        }
    }
    wrong
}

pub fn quotes(line: &Line) -> Vec<String> {
    let parts = parts(&line.text);
    let mut wrong = Vec::new();
    for pair in parts.windows(2).filter(|pair| pair[0].code) {
        let run = pair[0].text.trim_end_matches("/stdout");
        let after = pair[1].text.strip_prefix(", line");
        if let Some(text) = after.filter(|_| tree::is_crate(run)) {
            wrong.extend(wrong_in(run, text));
        }
    }
    wrong
}
