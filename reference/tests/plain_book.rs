//! The program written for speed answers as the library does, byte for byte.

use std::path::Path;

use reference::program::answers;
use reference::random::Random;
use reference::run::run;
use reference::stored_input::{stored_input, NAMES};
use reference::stream::random_stream;
use reference::whole_book::{whole_book, whole_book_of_patterns, whole_book_of_register, SEED};

fn check(input: &[u8], what: &str) {
    let program = Path::new(env!("CARGO_BIN_EXE_plain_book"));
    let answers = answers(program, [input]).expect("the program runs");
    assert!(answers == run(input), "{what}");
}

#[test]
fn stored_inputs() {
    for name in NAMES {
        check(&stored_input(name).expect("a program's name"), name);
    }
    check(include_bytes!("../../crates/test_records/stdin"), "records");
}

#[test]
fn random_streams() {
    for seed in 100..112 {
        check(&random_stream(seed, 1_500), &format!("seed {seed}"));
    }
}

#[test]
fn a_whole_book_twice() {
    check(&whole_book(SEED).repeat(2), "twice");
    check(&whole_book_of_register(SEED).repeat(2), "register, twice");
    check(&whole_book_of_patterns(SEED).repeat(2), "patterns, twice");
}

#[test]
fn bytes_0_to_255_and_empty_input() {
    let bytes: Vec<u8> = (0..=255).collect();
    check(&bytes, "bytes 0 to 255");
    check(b"", "nothing");
    check(b"\n", "byte 10");
    check(b"\n\n", "byte 10 twice");
    for word in [
        "L",
        "LINE",
        "LINE\t",
        "LINE\tA",
        "LINE\tA\t",
        "RATE",
        "RATE\t",
        "SU",
        "SUM",
        "SUM\t",
        "SUM\tA",
        "SUM\tA\t",
        "RATE\t2015",
        "RATE\t2015\t",
        "MID",
        "MIDT",
        "MIDT\t",
        "MIDT\t1980",
        "MIDT\t1980\t1",
        "MIDT\t1980\t1\t",
        "MIDT\t1980\t1\t5",
        "MIDT\t1980\t1\t5\t",
    ] {
        check(word.as_bytes(), word);
        check(format!("{word}\n").as_bytes(), word);
    }
}

/// Bytes of which records are made, in any order.
#[test]
fn random_bytes() {
    let mut random = Random::new(4);
    let pieces: [&[u8]; 19] = [
        b"\n",
        b"\n",
        b"\t",
        b"\t",
        b"LINE\t",
        b"RATE\t",
        b"PATT\tJ\t",
        b"YEAR\tA\t",
        b"0",
        b"-1",
        b"2015\t",
        b"SUM\t",
        b"SUM\tJ",
        b"\nSUM\tA\n",
        b"MIDT\t",
        b"\nMIDT\t1980\t1\t5\n",
        b"\nRATE\t2015\n",
        b"1990\t12",
        b"\xff",
    ];
    for _ in 0..20 {
        let input: Vec<&[u8]> = (0..2_000).map(|_| random.choice(&pieces)).collect();
        check(&input.concat(), "random bytes");
    }
}
