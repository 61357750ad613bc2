//! The inputs that are stored with the proved programs, by the program's name.

pub mod edges;
pub mod exhibits;
pub mod years;

use crate::input_text::{ended_lines, ended_records, line, rate};
use crate::stream::random_stream;

/// The programs whose inputs are made here.
pub const NAMES: [&str; 7] = [
    "book",
    "test_exhibits",
    "test_years",
    "test_edges",
    "test_random",
    "test_empty",
    "test_long_line",
];

/// Seed and length of the random records of `test_random`.
const RANDOM_SEED: u64 = 1;
pub const RANDOM_RECORDS: usize = 6_000;

/// The long lines of `test_long_line` have this many bytes.
pub const MEBIBYTE: usize = 1 << 20;

/// The input of a program, if there is one of that name.
pub fn stored_input(name: &str) -> Option<Vec<u8>> {
    match name {
        "book" => Some(sample_run()),
        "test_exhibits" => Some(exhibits::input()),
        "test_years" => Some(years::input()),
        "test_edges" => Some(edges::input()),
        "test_random" => Some(random_stream(RANDOM_SEED, RANDOM_RECORDS)),
        "test_empty" => Some(Vec::new()),
        "test_long_line" => Some(long_lines()),
        _ => None,
    }
}

/// "A run of the book's program" of document 01.
fn sample_run() -> Vec<u8> {
    ended_records([
        "LINE J 0",
        &rate(2015, 2100),
        "PATT J 2015 50 100 90 100",
        "YEAR J 2015 50 50 0 0 0 0 0 0 0",
        "YEAR J 2015 50 50 0 0 0 0 0 0 0",
        &rate(2016, 2100),
        "PATT J 2016 50 100 90 100",
        "YEAR J 2016 0 0 0 40 10 0 0 0 0",
    ])
}

/// Records before, between and after lines of a mebibyte. The first long line
/// is full of good records, the last begins like one and lacks its byte 10.
fn long_lines() -> Vec<u8> {
    let mut input = ended_records(["LINE A 1", "LINE A 2"]);
    input.extend(ended_lines([b"LINE\tB\t7".repeat(MEBIBYTE / 8)]));
    input.extend(ended_records(["LINE C 3"]));
    let mut last = line("LINE D ");
    last.resize(MEBIBYTE, b'4');
    input.extend(last);
    input
}
