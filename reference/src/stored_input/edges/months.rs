//! The form of MIDT and of the short RATE (document 02, F-4): words, fields,
//! bytes, numbers and limits. Of the months only some of 1980 and 2099 are given
//! here, which no RATE takes, and no rate of a year.

use super::bytes::about_the_longest;
use super::longest::after_one_byte_more;
use super::numbers::edges_at;
use super::{edge, edge_of_bytes, table, Edge};
use crate::input_text::{rate, repeated};

pub fn edges() -> Vec<Edge> {
    let mut edges = words();
    edges.extend(counts_of_fields());
    edges.extend(fields());
    edges.extend((0..=255_u8).flat_map(of_byte));
    edges.extend(longest_lines());
    edges.extend((1..=3).flat_map(|place| edges_at("MIDT 1990 5 5", place, false)));
    edges.extend(edges_at("RATE 1995", 1, false));
    edges.extend(limits());
    edges.extend(years_of_short_rate());
    edges.extend(after_one_byte_more(
        "MIDT 2099 12 2500",
        ["NO 4", "NO 5", "NO 6"],
        "MIDT 2099 12 2500",
    ));
    edges.push(edge("MIDT 2099 12 2500", "NO 7"));
    edges
}

fn words() -> Vec<Edge> {
    let mut edges = table(&[
        ("midt 1990 1 500", "NO 2"),
        ("Midt 1990 1 500", "NO 2"),
        ("MID 1990 1 500", "NO 2"),
        ("MIDTS 1990 1 500", "NO 2"),
        ("MIDTERM 1990 1 500", "NO 2"),
        (" MIDT 1990 1 500", "NO 2"),
        ("MIDT1990 1 500", "NO 2"),
        ("MID", "NO 2"),
        ("MIDT\r", "NO 2"),
        ("MIDT\r 1990 1 500", "NO 2"),
        ("rate 1995", "NO 2"),
        ("RATES 1995", "NO 2"),
        ("RATE1995", "NO 2"),
        ("RATE\r 1995", "NO 2"),
    ]);
    for with_blank in ["MIDT 1990\t1\t500", " MIDT\t1990\t1\t500", "RATE 1995"] {
        edges.push(edge_of_bytes(with_blank.into(), "NO 2"));
    }
    edges
}

/// A MIDT has 4 fields, and a RATE 62 or 2. Question 3 is not asked of either.
fn counts_of_fields() -> Vec<Edge> {
    let mut edges = table(&[
        ("MIDT", "NO 4"),
        ("MIDT ", "NO 4"),
        ("MIDT 1990", "NO 4"),
        ("MIDT 1990 1", "NO 4"),
        ("MIDT 1990 1 500 ", "NO 4"),
        ("MIDT 1990 1 500 500", "NO 4"),
        ("MIDT  1990 1 500", "NO 4"),
        ("MIDT 1990  1 500", "NO 4"),
        ("MIDT A 1990 1 500", "NO 4"),
        ("MIDT    ", "NO 4"),
        ("MIDT 1979 13", "NO 4"),
        ("MIDT 1979 013 2501 x", "NO 4"),
        ("RATE", "NO 4"),
        ("RATE 1995 ", "NO 4"),
        ("RATE  1995", "NO 4"),
        ("RATE 1995 5", "NO 4"),
        ("RATE 1995 1 500", "NO 4"),
        ("RATE 1986 ", "NO 4"),
        ("RATE 01995 ", "NO 4"),
        ("RATE 2015 ", "NO 4"),
    ]);
    edges.push(edge(&format!("MIDT 1990 {}", repeated("5", 60)), "NO 4"));
    for rates in [59, 61] {
        let record = format!("RATE 2050 {}", repeated("5", rates));
        edges.push(edge(&record, "NO 4"));
    }
    edges.push(edge(&rate(2050, 5), "RATE 2050 5"));
    edges
}

/// Empty fields and signs; question 5 comes before 6.
fn fields() -> Vec<Edge> {
    let mut edges = table(&[
        ("MIDT   ", "NO 5"),
        ("MIDT  1 500", "NO 5"),
        ("MIDT 1990  500", "NO 5"),
        ("MIDT 1990 1 ", "NO 5"),
        ("MIDT A 1 500", "NO 5"),
        ("MIDT 1990 Jan 500", "NO 5"),
        ("MIDT 1990 01 500", "NO 5"),
        ("MIDT 1990 00 500", "NO 5"),
        ("MIDT 1990 012 500", "NO 5"),
        ("MIDT 1990 1 -500", "NO 5"),
        ("MIDT 1990 -1 500", "NO 5"),
        ("MIDT -1990 1 500", "NO 5"),
        ("MIDT 1990 1 500\r", "NO 5"),
        ("MIDT 1990 1\r 500", "NO 5"),
        ("MIDT 1979 13 02501", "NO 5"),
        ("MIDT 1979 01 2501", "NO 5"),
        ("MIDT 01979 13 2501", "NO 5"),
        ("RATE ", "NO 5"),
        ("RATE A", "NO 5"),
        ("RATE -1995", "NO 5"),
        ("RATE +1995", "NO 5"),
        ("RATE 01995", "NO 5"),
        ("RATE 1995\r", "NO 5"),
        ("RATE 1,995", "NO 5"),
    ]);
    for with_blank in ["MIDT\t1990\t 1\t500", "MIDT\t1990\t1 \t500", "RATE\t1995 "] {
        edges.push(edge_of_bytes(with_blank.into(), "NO 5"));
    }
    edges
}

/// A byte in the word, in the month and in the rate of a MIDT, and in the year of
/// a short RATE. Byte 10 cuts a line: two fields are left, or a year of 199.
fn of_byte(byte: u8) -> Vec<Edge> {
    if byte == b'\n' {
        return table(&[
            ("MID", "NO 2"),
            ("MIDT 1990 1", "NO 4"),
            ("MIDT 1990 1 ", "NO 5"),
            ("RATE 199", "NO 6"),
        ]);
    }
    let with = |start: &[u8], end: &[u8]| [start, &[byte], end].concat();
    let mut edges = Vec::new();
    if byte != b'T' {
        edges.push(edge_of_bytes(with(b"MID", b"\t1990\t1\t500"), "NO 2"));
    }
    let in_month = match byte {
        b'0' => "MIDT 1980 10 500",
        b'1' => "MIDT 1980 11 500",
        b'2' => "MIDT 1980 12 500",
        b'3'..=b'9' => "NO 6",
        b'\t' => "NO 4",
        _ => "NO 5",
    };
    edges.push(edge_of_bytes(with(b"MIDT\t1980\t1", b"\t500"), in_month));
    if !byte.is_ascii_digit() {
        let number = if byte == b'\t' { "NO 4" } else { "NO 5" };
        edges.push(edge_of_bytes(with(b"MIDT\t1990\t1\t", b"5"), number));
    }
    edges.push(edge_of_bytes(with(b"RATE\t199", b""), short_rate_of(byte)));
    edges
}

/// 1990 to 1994 have a rate, and no month of the years before the others is given.
fn short_rate_of(last_byte: u8) -> &'static str {
    match last_byte {
        b'0'..=b'4' => "NO 7",
        b'5'..=b'9' => "NO 14",
        b'\t' => "NO 4",
        _ => "NO 5",
    }
}

fn longest_lines() -> Vec<Edge> {
    let mut edges = Vec::new();
    for (start, filler, number) in [
        ("MIDT", b'T', "NO 2"),
        ("MIDT ", b'1', "NO 4"),
        ("MIDT 1990 1 ", b'1', "NO 6"),
        ("MIDT 1990 1 0", b'1', "NO 5"),
        ("MIDT 1990 1 500", b'\t', "NO 4"),
        ("RATE ", b'1', "NO 6"),
        ("RATE 0", b'1', "NO 5"),
        ("RATE 1995", b'\t', "NO 4"),
    ] {
        edges.extend(about_the_longest(start, filler, number));
    }
    edges
}

/// "year (1980 to 2099), month (1 to 12) and rate"
fn limits() -> Vec<Edge> {
    table(&[
        ("MIDT 1979 1 500", "NO 6"),
        ("MIDT 1979 12 500", "NO 6"),
        ("MIDT 2100 1 500", "NO 6"),
        ("MIDT 0 1 500", "NO 6"),
        ("MIDT 80 1 500", "NO 6"),
        ("MIDT 198001 1 500", "NO 6"),
        ("MIDT 1980 0 500", "NO 6"),
        ("MIDT 1980 13 500", "NO 6"),
        ("MIDT 1980 1 2501", "NO 6"),
        ("MIDT 1 1980 500", "NO 6"),
        ("MIDT 1980 1 0", "MIDT 1980 1 0"),
        ("MIDT 1980 1 0", "NO 7"),
        ("MIDT 1980 1 1", "NO 7"),
        ("MIDT 1980 2 2500", "MIDT 1980 2 2500"),
        ("MIDT 1980 12 0", "NO 7"),
        ("MIDT 1981 1 1", "MIDT 1981 1 1"),
        ("MIDT 1981 12 1400", "MIDT 1981 12 1400"),
        ("MIDT 1980 12 2501", "NO 6"),
        ("MIDT 2099 1 0", "MIDT 2099 1 0"),
        ("MIDT 2099 13 0", "NO 6"),
        ("MIDT 2099 0 0", "NO 6"),
        ("MIDT 2099 1 2501", "NO 6"),
        ("MIDT 2099 1 0", "NO 7"),
    ])
}

/// 1987, 2015 and 2099 have a rate and lack months: question 7 comes before 14.
fn years_of_short_rate() -> Vec<Edge> {
    table(&[
        ("RATE 0", "NO 6"),
        ("RATE 95", "NO 6"),
        ("RATE 1980", "NO 6"),
        ("RATE 1986", "NO 6"),
        ("RATE 2100", "NO 6"),
        ("RATE 1987", "NO 7"),
        ("RATE 2015", "NO 7"),
        ("RATE 2099", "NO 7"),
        ("RATE 2050", "NO 7"),
        ("RATE 1988", "NO 14"),
        ("RATE 1995", "NO 14"),
        ("RATE 2049", "NO 14"),
        ("RATE 2051", "NO 14"),
        ("RATE 2097", "NO 14"),
    ])
}
