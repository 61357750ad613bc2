//! SUM (document 02, F-2): its form, the lines as the edges before left them,
//! and lines whose totals go to both ends.

use super::bytes::about_the_longest;
use super::{edge, edge_of_bytes, table, Edge};
use crate::input_text::{flat_pattern, rate, repeated};

pub fn edges() -> Vec<Edge> {
    let mut edges = words();
    edges.extend(letters_and_fields());
    for (start, filler, number) in [
        ("SUM", b'A', "NO 2"),
        ("SUM ", b'A', "NO 3"),
        ("SUM A ", b'1', "NO 4"),
        ("SUM T", b'\t', "NO 4"),
    ] {
        edges.extend(about_the_longest(start, filler, number));
    }
    edges.extend(every_letter());
    edges.extend(one_line());
    edges.extend(up_and_down());
    edges.extend(many_years());
    edges.extend(other_lines());
    edges
}

fn words() -> Vec<Edge> {
    let mut edges = table(&[
        ("sum A", "NO 2"),
        ("Sum A", "NO 2"),
        ("SU", "NO 2"),
        ("SU A", "NO 2"),
        ("SUMA", "NO 2"),
        ("SUMS A", "NO 2"),
        ("TOTAL A", "NO 2"),
        (" SUM A", "NO 2"),
        ("SUM\r", "NO 2"),
        ("SUM\r A", "NO 2"),
    ]);
    for with_blank in [" SUM\tA", "SUM \tA", "SUM A"] {
        edges.push(edge_of_bytes(with_blank.into(), "NO 2"));
    }
    edges
}

/// Question 3 comes before 4, and 4 before 8: T is not declared.
fn letters_and_fields() -> Vec<Edge> {
    let mut edges = table(&[
        ("SUM", "NO 3"),
        ("SUM ", "NO 3"),
        ("SUM  ", "NO 3"),
        ("SUM  A", "NO 3"),
        ("SUM M", "NO 3"),
        ("SUM a", "NO 3"),
        ("SUM AA", "NO 3"),
        ("SUM 1", "NO 3"),
        ("SUM 2012", "NO 3"),
        ("SUM A\r", "NO 3"),
        ("SUM M ", "NO 3"),
        ("SUM M 1", "NO 3"),
        ("SUM A ", "NO 4"),
        ("SUM A 1", "NO 4"),
        ("SUM A 2012", "NO 4"),
        ("SUM A  ", "NO 4"),
        ("SUM A 3 110000000000 120000000000", "NO 4"),
        ("SUM T ", "NO 4"),
        ("SUM T 1", "NO 4"),
        ("SUM T", "NO 8"),
    ]);
    for with_blank in ["SUM\t A", "SUM\tA "] {
        edges.push(edge_of_bytes(with_blank.into(), "NO 3"));
    }
    edges
}

/// The TAX of A (2010, 2011, 2012), B (2039), J (2015, 2016, 2017), K, L, R and S
/// summed. No other line has closed a year, and T is not declared.
fn every_letter() -> Vec<Edge> {
    let sum = |letter: char| match letter {
        'A' => edge("SUM A", "SUM A 3 110000000000 120000000000"),
        'B' => edge("SUM B", "SUM B 1 0 5498843"),
        'J' => edge("SUM J", "SUM J 3 89 49"),
        'K' => edge("SUM K", "SUM K 1 0 1537415"),
        'L' => edge("SUM L", "SUM L 1 0 9999999000"),
        'R' => edge("SUM R", "SUM R 1 63 893492"),
        'S' => edge("SUM S", "SUM S 1 0 46862"),
        'C'..='I' => edge(&format!("SUM {letter}"), &format!("SUM {letter} 0 0 0")),
        'T' => edge("SUM T", "NO 8"),
        _ => edge(&format!("SUM {letter}"), "NO 3"),
    };
    ('A'..='Z').map(sum).collect()
}

/// Line I, opening 1,000, from before its first pattern to totals of 0 again.
/// Losses less paid: 134 - 1,000, 15 - 1,000 and 1,000 - 1,000.
fn one_line() -> Vec<Edge> {
    table(&[
        (
            "PATT I 2015 50 100 90 100",
            "FACT I 2015 864496 830203 909091",
        ),
        ("SUM I", "SUM I 0 0 0"),
        ("YEAR I 2015 5 0 0 0 1 0 0 0 0", "NO 13"),
        ("YEAR I 2016 5 0 0 0 0 0 0 0 0", "NO 10"),
        ("SUM I", "SUM I 0 0 0"),
        (
            "YEAR I 2015 50 50 0 0 0 0 -7 100 0",
            "TAX I 2015 43 1000 134 -823",
        ),
        ("SUM I", "SUM I 1 43 -823"),
        ("YEAR I 2015 50 50 0 0 0 0 -7 100 0", "NO 10"),
        ("SUM I", "SUM I 1 43 -823"),
        ("LINE I 5", "NO 7"),
        ("PATT I 2016 50 100 101 100", "NO 11"),
        ("SUM I", "SUM I 1 43 -823"),
        (
            "PATT I 2016 50 100 90 100",
            "FACT I 2016 1000000 1000000 1000000",
        ),
        ("SUM I", "SUM I 1 43 -823"),
        (
            "YEAR I 2016 -40 7 0 -30 10 0 0 0 0",
            "TAX I 2016 -70 134 15 -189",
        ),
        ("SUM I", "SUM I 2 -27 -1012"),
        ("SUM I", "SUM I 2 -27 -1012"),
        (
            "PATT I 2017 50 100 90 100",
            "FACT I 2017 1000000 1000000 1000000",
        ),
        (
            "YEAR I 2017 27 0 0 0 0 0 0 1000 0",
            "TAX I 2017 27 15 1000 1012",
        ),
        ("SUM I", "SUM I 3 0 0"),
    ])
}

/// A PATT of a ten-year line that has paid everything by age 1: each factor is
/// the half-year factor of its year's rate.
fn all_paid(letter: char, year: u64) -> Edge {
    let half_year = match year {
        2015 | 2030.. => "909091",
        2021 | 2022 => "978232",
        _ => "1000000",
    };
    edge(
        &flat_pattern(letter, year, "1 1"),
        &format!("FACT {letter} {year} {}", repeated(half_year, 11)),
    )
}

/// Line E, opening 1,000: the highest closing and paid, then no closing and the
/// lowest paid, twice.
fn up_and_down() -> Vec<Edge> {
    let highest = repeated("10000000000 10000000000 0", 11);
    let lowest = repeated("-10000000000 0 10000000000", 11);
    let mut edges: Vec<Edge> = (2001..=2010).map(|year| all_paid('E', year)).collect();
    edges.push(edge(
        &format!("YEAR E 2010 {highest}"),
        "TAX E 2010 110000000000 1000 110000000000 219999999000",
    ));
    edges.push(edge("SUM E", "SUM E 1 110000000000 219999999000"));
    edges.push(all_paid('E', 2011));
    edges.push(edge(
        &format!("YEAR E 2011 {lowest}"),
        "TAX E 2011 -110000000000 110000000000 0 -220000000000",
    ));
    edges.push(edge("SUM E", "SUM E 2 0 -1000"));
    edges.push(all_paid('E', 2012));
    edges.push(edge(
        &format!("YEAR E 2012 {lowest}"),
        "TAX E 2012 -110000000000 0 0 -110000000000",
    ));
    edges.push(edge("SUM E", "SUM E 3 -110000000000 -110000001000"));
    edges
}

/// What a ten-year line pays at most in a year.
const HIGHEST_PAID: i64 = 110_000_000_000;

/// The last of the years in which lines C and D are closed, from 2001 on.
const LAST_CLOSED_YEAR: u64 = 2039;

/// Lines C and D, opening 1,000, each closed in 39 years: C always pays the most
/// and D the least.
fn many_years() -> Vec<Edge> {
    let years_without_rate = [2013].into_iter().chain(2018..=2020).chain(2023..=2029);
    let rate_of = |year| edge(&rate(year, 0), &format!("RATE {year} 0"));
    let mut edges: Vec<Edge> = years_without_rate.map(rate_of).collect();
    for (count, year) in (1..).zip(2001..=LAST_CLOSED_YEAR) {
        edges.extend(one_of_many_years('C', year, count));
        edges.extend(one_of_many_years('D', year, count));
    }
    edges
}

/// Only C has a closing, and only in the last year: the highest one.
fn one_of_many_years(letter: char, year: u64, count: i64) -> Vec<Edge> {
    let (row, paid, closing) = match (letter, year) {
        ('C', LAST_CLOSED_YEAR) => (
            "10000000000 10000000000 10000000000",
            HIGHEST_PAID,
            110_000_000_000,
        ),
        ('C', _) => ("10000000000 0 0", HIGHEST_PAID, 0),
        _ => ("-10000000000 0 0", -HIGHEST_PAID, 0),
    };
    let opening = if count == 1 { 1_000 } else { 0 };
    let loss = paid + closing - opening;
    let (all_paid_so_far, losses) = (count * paid, count * paid + closing - 1_000);
    vec![
        all_paid(letter, year),
        edge(
            &format!("YEAR {letter} {year} {}", repeated(row, 11)),
            &format!("TAX {letter} {year} {paid} {opening} {closing} {loss}"),
        ),
        edge(
            &format!("SUM {letter}"),
            &format!("SUM {letter} {count} {all_paid_so_far} {losses}"),
        ),
    ]
}

/// What the other lines have done since moves none of these.
fn other_lines() -> Vec<Edge> {
    table(&[
        ("SUM A", "SUM A 3 110000000000 120000000000"),
        ("SUM B", "SUM B 1 0 5498843"),
        ("SUM F", "SUM F 0 0 0"),
        ("SUM I", "SUM I 3 0 0"),
        ("SUM J", "SUM J 3 89 49"),
        ("SUM T", "NO 8"),
    ])
}
