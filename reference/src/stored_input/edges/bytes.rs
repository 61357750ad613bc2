//! Every byte as a line, as a letter and inside a number; lines as long as a
//! record may be, and longer. The book stays empty.

use super::{edge_of_bytes, Edge};
use crate::input_text::line;

const COVERED: &[u8; 15] = b"ABCDEFGHIJKLRST";

pub fn edges() -> Vec<Edge> {
    let mut edges = Vec::new();
    for byte in 0..=255_u8 {
        edges.extend(of_byte(byte));
    }
    for (start, filler, number) in [
        ("LINE A ", b'1', "NO 6"),
        ("LINE A 0", b'1', "NO 5"),
        ("LINE A ", b'\t', "NO 4"),
        ("RATE 2015 ", b'\t', "NO 4"),
        ("LINE M", b' ', "NO 3"),
        ("", b'x', "NO 2"),
        ("", b'\t', "NO 2"),
        ("", b'\r', "NO 2"),
    ] {
        edges.extend(about_the_longest(start, filler, number));
    }
    edges
}

/// Byte 10 is an empty line by itself and cuts the other two lines.
fn of_byte(byte: u8) -> Vec<Edge> {
    if byte == b'\n' {
        return vec![
            edge_of_bytes(Vec::new(), "NO 2"),
            edge_of_bytes(line("LINE "), "NO 3"),
            edge_of_bytes(line("LINE A"), "NO 4"),
        ];
    }
    let mut edges = vec![edge_of_bytes(vec![byte], "NO 2")];
    if !COVERED.contains(&byte) {
        let with_letter = [b"LINE\t", [byte].as_slice(), b"\t1"].concat();
        edges.push(edge_of_bytes(with_letter, "NO 3"));
    }
    if !byte.is_ascii_digit() {
        let number = if byte == b'\t' { "NO 4" } else { "NO 5" };
        for opening in [[b'1', byte], [byte, b'1']] {
            let with_opening = [b"LINE\tA\t", opening.as_slice()].concat();
            edges.push(edge_of_bytes(with_opening, number));
        }
    }
    if byte != b'E' {
        let with_word = [b"LIN", [byte].as_slice(), b"\tA\t1"].concat();
        edges.push(edge_of_bytes(with_word, "NO 2"));
    }
    edges
}

/// A line filled to 418 bytes gets its number, and a longer one a 1, whether it
/// is past the limit of document 01 or not.
pub fn about_the_longest(start: &str, filler: u8, number: &str) -> Vec<Edge> {
    let lengths = [
        (418, number),
        (419, "NO 1"),
        (1_024, "NO 1"),
        (1_025, "NO 1"),
    ];
    let filled = lengths.map(|(length, answer)| {
        let mut line = line(start);
        line.resize(length, filler);
        edge_of_bytes(line, answer)
    });
    filled.into()
}
