//! What `explain` says of whole runs (`runs`), of accepted records (`figures`),
//! of refused ones (`refused_form`, `refused_book`), of SUM (`sums`) and of MIDT
//! and the short RATE (`register`), and its `page` and `program`.

#[path = "../common/mod.rs"]
mod common;
mod figures;
mod page;
mod program;
mod refused_book;
mod refused_form;
mod register;
mod runs;
mod sums;

use common::line;
use reference::explain::explain;
use reference::explain::text::text;
use reference::input_text::ended_lines;

const CLASS: &str = concat!(env!("CARGO_MANIFEST_DIR"), "/../examples/class.txt");

/// The part of the text that is about the last of some lines. Lines that were
/// cut are joined again.
fn last_part(lines: &[Vec<u8>]) -> String {
    let text = text(&explain("records", &ended_lines(lines)));
    let heading = format!("\nLine {}: ", lines.len());
    let part = text.split(&heading).nth(1).expect("its heading");
    let part = part.split("\nThe end\n").next().unwrap_or(part);
    let mut joined = String::new();
    for line in part.lines() {
        let parting = if line.starts_with("  ") { " " } else { "\n" };
        joined += parting;
        joined += line.trim_start();
    }
    joined + "\n"
}

/// What is said of a line after some records, which are written with spaces for
/// tabs: it is refused with that number, and all of this is said.
fn check(before: &[&str], refused: &[u8], number: u8, said: &[&str]) {
    let mut lines: Vec<Vec<u8>> = before.iter().map(|record| line(record)).collect();
    lines.push(refused.to_vec());
    let part = last_part(&lines);
    let answer = format!("\nanswer: NO {number}\n");
    let manual = format!("\nHow to mend it: docs/MANUAL.md, NO {number}.\n");
    for words in said.iter().copied().chain([answer.as_str(), &manual]) {
        assert!(part.contains(words), "{words:?} is not said:\n{part}");
    }
}

/// The same of a record that is written with spaces for tabs.
fn check_record(before: &[&str], refused: &str, number: u8, said: &[&str]) {
    check(before, &line(refused), number, said);
}
