//! A program's answers beside those of this implementation.

use std::io::Result;
use std::path::Path;

use crate::full_register;
use crate::input_text::{ended_lines, ended_records, line};
use crate::largest_totals;
use crate::program::answers;
use crate::random::Random;
use crate::run::run;

const MEBIBYTE: usize = 1 << 20;

/// How an input is cut into the pieces that are written to a program.
#[derive(Clone, Copy, Debug)]
pub enum Pieces {
    Whole,
    SingleBytes,
    /// Of random sizes from this seed.
    Random(u64),
}

impl Pieces {
    pub fn of(self, input: &[u8]) -> Vec<&[u8]> {
        match self {
            Pieces::Whole => vec![input],
            Pieces::SingleBytes => input.chunks(1).collect(),
            Pieces::Random(seed) => random_pieces(seed, input),
        }
    }
}

fn random_pieces(seed: u64, input: &[u8]) -> Vec<&[u8]> {
    let mut random = Random::new(seed);
    let mut pieces = Vec::new();
    let mut rest = input;
    while !rest.is_empty() {
        let longest = random.choice(&[1, 7, 300, 5_000, 100_000]);
        let length = random.between(1, longest) as usize;
        let (piece, after) = rest.split_at(length.min(rest.len()));
        pieces.push(piece);
        rest = after;
    }
    pieces
}

/// The first line in which two outputs differ.
#[derive(Debug, PartialEq, Eq)]
pub struct Difference {
    pub line: usize,
    pub ours: String,
    pub theirs: String,
}

/// Where a program's output first differs from ours, if it does.
pub fn difference(program: &Path, input: &[u8], pieces: Pieces) -> Result<Option<Difference>> {
    let theirs = answers(program, pieces.of(input))?;
    Ok(first_difference(&run(input), &theirs))
}

pub fn first_difference(ours: &[u8], theirs: &[u8]) -> Option<Difference> {
    if ours == theirs {
        return None;
    }
    let mut our_lines = ours.split_inclusive(|byte| *byte == b'\n');
    let mut their_lines = theirs.split_inclusive(|byte| *byte == b'\n');
    let mut number = 1;
    loop {
        let (our_line, their_line) = (our_lines.next(), their_lines.next());
        if our_line != their_line {
            return Some(Difference {
                line: number,
                ours: shown(our_line),
                theirs: shown(their_line),
            });
        }
        number += 1;
    }
}

fn shown(line: Option<&[u8]>) -> String {
    match line {
        Some(line) => format!("{:?}", String::from_utf8_lossy(line)),
        None => "nothing".to_string(),
    }
}

/// Inputs that no random stream has, each with its name.
pub fn special_inputs() -> Vec<(&'static str, Vec<u8>)> {
    let record = line("LINE A 1");
    let ended = ended_records(["LINE B 2"]);
    let long = vec![b'7'; MEBIBYTE];
    let ended_long = ended_lines([&long]);
    vec![
        ("no input", Vec::new()),
        ("byte 10 alone", b"\n".to_vec()),
        ("no last byte 10", [ended.clone(), record.clone()].concat()),
        ("a mebibyte without byte 10", long.clone()),
        (
            "a mebibyte without byte 10 after a record",
            [ended, long].concat(),
        ),
        (
            "a mebibyte, byte 10 and a record",
            [ended_long, record].concat(),
        ),
        ("bytes 0 to 255", (0..=255).collect()),
        ("the largest totals", largest_totals::input()),
        ("a full register", full_register::input()),
    ]
}
