//! Whole runs: the answers are the stored ones, whatever the bytes.

use reference::comparison::special_inputs;
use reference::explain::explain;
use reference::explain::page::page;
use reference::explain::report::{Block, Report};
use reference::explain::text::{text, WIDTH};
use reference::random::Random;
use reference::stored_input::NAMES;

use crate::common::stored;

/// The explanation of each stored input, with its name.
fn reports() -> Vec<(&'static str, Report)> {
    let report = |name| (name, explain(name, &stored(name, "stdin")));
    NAMES.map(report).into_iter().collect()
}

/// The stored answers, with blanks for tabs.
fn stored_answers(program: &str) -> Vec<String> {
    let output = String::from_utf8(stored(program, "stdout")).expect("plain text");
    output.lines().map(|line| line.replace('\t', " ")).collect()
}

/// The answers in a text: a long one goes on in an indented line.
fn answers_in_text(text: &str) -> Vec<String> {
    let mut answers: Vec<String> = Vec::new();
    let mut before = "";
    for line in text.lines() {
        if let Some(answer) = line.strip_prefix("answer: ") {
            answers.push(answer.to_string());
        } else if before.starts_with("answer: ") && line.starts_with("        ") {
            let last = answers.last_mut().expect("an answer");
            *last += &line[7..];
        }
        before = line;
    }
    answers
}

fn answers_in_page(page: &str) -> Vec<String> {
    let parts = page.split("<span>answer:</span> <code>").skip(1);
    let answer = |part: &str| part.split("</code>").next().map(str::to_string);
    parts.filter_map(answer).collect()
}

#[test]
fn every_stored_answer_is_explained() {
    for (name, report) in reports() {
        let stored = stored_answers(name);
        assert!(answers_in_text(&text(&report)) == stored, "{name}");
        assert!(answers_in_page(&page(&report)) == stored, "{name}");
    }
}

#[test]
fn the_first_line_says_which_answers_count() {
    for (_, report) in reports() {
        let text = text(&report);
        let first = text.lines().next().unwrap_or_default();
        assert!(first.starts_with("An explanation, not proved: "), "{first}");
        assert!(
            first.contains("proved book (crates/book/out/book)"),
            "{first}"
        );
        let page = page(&report);
        let body = page.split("<body>\n").nth(1).expect("a body");
        assert!(body.starts_with(&format!("<p class=\"notice\">{first}</p>\n")));
    }
}

fn longest_line(text: &str) -> usize {
    let lengths = text.lines().map(|line| line.chars().count());
    lengths.max().unwrap_or(0)
}

#[test]
fn no_line_is_over_100_columns() {
    assert_eq!(WIDTH, 100);
    for (name, report) in reports() {
        assert!(longest_line(&text(&report)) <= WIDTH, "{name}");
    }
}

/// Every plot has a point for each age and one for the composite.
#[test]
fn every_pattern_has_a_plot() {
    let report = explain("test_years", &stored("test_years", "stdin"));
    let plots = report.blocks.iter().filter_map(|block| match block {
        Block::Plot(plot) => Some(plot.points.len()),
        _ => None,
    });
    let answers = stored_answers("test_years");
    let patterns = answers.iter().filter(|answer| answer.starts_with("FACT "));
    let points = |answer: &String| if answer.starts_with("FACT D") { 17 } else { 5 };
    assert!(plots.eq(patterns.map(points)));
}

/// An input with some bytes changed.
fn spoiled(random: &mut Random, input: &[u8]) -> Vec<u8> {
    let mut input = input.to_vec();
    for _ in 0..random.between(1, 40) {
        let place = random.place(input.len());
        input[place] = random.choice(b"\t\n\r -,\"0179LRPYJHx\0\xff");
    }
    input
}

/// Special inputs, stored ones with bytes changed, and random bytes.
fn inputs_of_any_bytes() -> Vec<Vec<u8>> {
    let mut random = Random::new(16);
    let special = special_inputs().into_iter().map(|(_, input)| input);
    let mut inputs: Vec<Vec<u8>> = special.collect();
    for name in ["book", "test_exhibits", "test_years"] {
        let input = stored(name, "stdin");
        inputs.extend((0..20).map(|_| spoiled(&mut random, &input)));
    }
    inputs.push((0..20_000).map(|_| random.below(256) as u8).collect());
    inputs
}

#[test]
fn any_bytes_are_explained_in_plain_characters() {
    for input in inputs_of_any_bytes() {
        let report = explain("any bytes", &input);
        let text = text(&report);
        assert!(longest_line(&text) <= WIDTH);
        let plain = |character: char| character == '\n' || !character.is_control();
        assert!(text.chars().all(plain));
        assert!(page(&report).chars().all(plain));
    }
}
