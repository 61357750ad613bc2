//! A run of the book's program.

use crate::answer::done;
use crate::book::Book;

/// The whole output for the whole input: "one line for each record", and the
/// DONE line.
pub fn run(input: &[u8]) -> Vec<u8> {
    let mut book = Book::default();
    let mut output = Vec::new();
    for line in records(input) {
        output.extend(book.answer(line).bytes());
    }
    output.extend(done(book.accepted, book.refused));
    output
}

/// "Lines end with byte 10, which is not counted in the line, or at the end of
/// input; nothing after the last byte 10 is no record."
pub fn records(input: &[u8]) -> Vec<&[u8]> {
    let mut lines: Vec<&[u8]> = input.split(|byte| *byte == b'\n').collect();
    if lines.last().is_some_and(|line| line.is_empty()) {
        lines.pop();
    }
    lines
}
