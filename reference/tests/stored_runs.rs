//! The inputs and outputs that are stored with the proved programs: each input
//! is what `stored_input` makes, each output is this implementation's, and
//! they hold what they are there for.

mod common;

use std::collections::BTreeMap;

use common::{output, stored};
use reference::run::{records, run};
use reference::stored_input::edges::edges;
use reference::stored_input::{stored_input, MEBIBYTE, NAMES, RANDOM_RECORDS};

fn made(program: &str) -> Vec<u8> {
    stored_input(program).expect("a program's name")
}

/// How often each answer occurs; a NO is counted with its number.
fn counts(lines: &[String]) -> BTreeMap<String, usize> {
    let mut counts = BTreeMap::new();
    for line in lines {
        let word = line.split(' ').next().unwrap_or_default();
        let answer = if word == "NO" { line.as_str() } else { word };
        *counts.entry(answer.to_string()).or_insert(0) += 1;
    }
    counts
}

#[test]
fn every_stored_input_is_what_its_name_makes() {
    for name in NAMES {
        assert!(stored(name, "stdin") == made(name), "{name}");
    }
}

#[test]
fn every_stored_output_is_ours() {
    for name in NAMES {
        assert!(
            stored(name, "stdout") == run(&stored(name, "stdin")),
            "{name}"
        );
    }
}

#[test]
fn the_book_has_the_run_that_document_01_prints() {
    let expected = "LINE\tJ\t0\nRATE\t2015\t2100\nFACT\tJ\t2015\t864496\t830203\t909091\n\
        TAX\tJ\t2015\t50\t0\t43\t93\nNO\t10\nRATE\t2016\t2100\n\
        FACT\tJ\t2016\t864496\t830203\t909091\nTAX\tJ\t2016\t40\t43\t8\t5\nDONE\t7\t1\n";
    assert_eq!(stored("book", "stdout"), expected.as_bytes());
}

/// The factors of examples/exhibits.md; the reserves are multiplied by hand.
#[test]
fn exhibits_9_10_and_11_have_their_factors() {
    let ten = "803944 816659 830660 841740 854281 871281 890399 912271 941800 966736";
    let eleven = "778022 787612 794829 803645 808187 803312 781827 774726 774449 800000";
    let expected = [
        "LINE J 0".to_string(),
        "RATE 2015 168".to_string(),
        "FACT J 2015 991071 983512 991704".to_string(),
        "TAX J 2015 902657 0 1982775 2885432".to_string(),
        "LINE B 0".to_string(),
        "RATE 2011 700".to_string(),
        format!("FACT B 2011 {ten} 966736"),
        "TAX B 2011 200000 0 1265401 1465401".to_string(),
        "LINE H 1000000".to_string(),
        format!("FACT H 2011 {eleven} 875668"),
        "TAX H 2011 10000 1000000 940021 -49979".to_string(),
        "DONE 11 0".to_string(),
    ];
    assert_eq!(output(&made("test_exhibits")), expected);
}

/// Every answer of `test_edges` is the one that was worked out by hand.
#[test]
fn every_edge_has_its_answer() {
    let edges = edges();
    let lines = output(&made("test_edges"));
    assert_eq!(lines.len(), edges.len() + 1);
    for (edge, line) in edges.iter().zip(&lines) {
        let record = String::from_utf8_lossy(&edge.line);
        assert_eq!(*line, edge.answer, "{record}");
    }
    let refused = edges.iter().filter(|edge| edge.answer.starts_with("NO "));
    let refused = refused.count();
    let done = format!("DONE {} {refused}", edges.len() - refused);
    assert_eq!(lines[edges.len()], done);
}

#[test]
fn the_edges_have_every_answer_every_refusal_and_no_last_byte_10() {
    let input = made("test_edges");
    assert_eq!(counts(&output(&input)).len(), 6 + 14 + 1);
    assert!(!input.ends_with(b"\n"));
    for byte in 0..=255_u8 {
        assert!(input.contains(&byte));
        let line = [byte];
        let alone: &[u8] = if byte == b'\n' { b"" } else { &line };
        assert!(records(&input).contains(&alone), "{byte}");
    }
    for edge in edges() {
        assert_eq!(edge.answer == "NO 1", edge.line.len() > 418);
    }
}

/// The longest line of `test_edges` that is answered so, of ten-year line B and
/// of two-year line S where the kind of line matters.
#[test]
fn the_edges_have_the_widest_record_of_each_kind() {
    let edges = edges();
    let longest_with = |answer: &str| {
        let answered = edges.iter().filter(|edge| edge.answer.starts_with(answer));
        answered.map(|edge| edge.line.len()).max()
    };
    for (answer, longest) in [
        ("LINE ", 19),
        ("RATE ", 309),
        ("FACT B ", 251),
        ("FACT S ", 59),
        ("TAX B ", 418),
        ("TAX S ", 122),
        ("SUM ", 5),
        ("MIDT ", 17),
    ] {
        assert_eq!(longest_with(answer), Some(longest), "{answer}");
    }
    let one_more = edges.iter().filter(|edge| edge.line.len() == 419);
    assert!(one_more.count() > 3);
}

/// A book has fifteen lines at most, and fourteen in a random stream.
#[test]
fn the_random_records_have_every_answer_and_every_refusal_often() {
    let lines = output(&made("test_random"));
    assert_eq!(lines.len(), RANDOM_RECORDS + 1);
    let mut counts = counts(&lines);
    assert!(counts.remove("LINE") >= Some(12));
    assert_eq!(counts.remove("DONE"), Some(1));
    assert_eq!(counts.len(), 5 + 14);
    for (answer, count) in counts {
        assert!(count >= 20, "{answer}: {count}");
    }
}

#[test]
fn an_empty_input_is_answered_with_done_alone() {
    assert_eq!(stored("test_empty", "stdin"), b"");
    assert_eq!(stored("test_empty", "stdout"), b"DONE\t0\t0\n");
}

#[test]
fn a_line_of_a_mebibyte_is_one_record_at_the_end_too() {
    let input = made("test_long_line");
    let lengths: Vec<usize> = records(&input).iter().map(|line| line.len()).collect();
    assert_eq!(lengths, [8, 8, MEBIBYTE, 8, MEBIBYTE]);
    assert!(!input.ends_with(b"\n"));
    let expected = ["LINE A 1", "NO 7", "NO 1", "LINE C 3", "NO 1", "DONE 2 3"];
    assert_eq!(output(&input), expected);
}
