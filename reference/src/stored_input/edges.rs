//! Records at the edges of what the book takes, each with the answer that
//! documents 01 and 02 ask for, worked out by hand, or by another calculation.

mod bytes;
mod halves;
mod lines;
mod longest;
mod months;
mod numbers;
mod patterns;
mod questions;
mod rates;
mod register;
mod tails;
mod totals;
mod years;

use crate::input_text::{ended_lines, line};

/// A record and its answer, which is written with spaces for tabs.
pub struct Edge {
    pub line: Vec<u8>,
    pub answer: String,
}

/// All of them, for one book from its beginning.
pub fn edges() -> Vec<Edge> {
    let mut edges = Vec::new();
    edges.extend(bytes::edges());
    edges.extend(lines::edges());
    edges.extend(numbers::edges());
    edges.extend(rates::edges());
    edges.extend(patterns::edges());
    edges.extend(years::edges());
    edges.extend(questions::edges());
    edges.extend(halves::edges());
    edges.extend(tails::edges());
    edges.extend(totals::edges());
    edges.extend(longest::edges());
    edges.extend(months::edges());
    edges.extend(register::edges());
    edges
}

/// The last line ends without byte 10.
pub fn input() -> Vec<u8> {
    let mut input = ended_lines(edges().iter().map(|edge| &edge.line));
    input.pop();
    input
}

/// A record written with spaces for tabs.
fn edge(record: &str, answer: &str) -> Edge {
    edge_of_bytes(line(record), answer)
}

fn edge_of_bytes(line: Vec<u8>, answer: &str) -> Edge {
    Edge {
        line,
        answer: answer.to_string(),
    }
}

fn table(records_and_answers: &[(&str, &str)]) -> Vec<Edge> {
    let pairs = records_and_answers.iter();
    pairs.map(|(record, answer)| edge(record, answer)).collect()
}
