//! How numbers are written, at every place of every kind of record. All are
//! refused.

use super::{edge, Edge};
use crate::input_text::repeated;
use crate::record::LONGEST_LINE;

/// Not well written, wherever they stand.
const BADLY_WRITTEN: [&str; 16] = [
    "", "-", "-0", "00", "01", "007", "-01", "+0", "+5", "--5", "5-", "1.0", "1e3", "1,000", "0x1",
    "5\r",
];

/// Past every limit, though some would be within if they were cut to 64 or 128
/// bits.
const TOO_LARGE: [&str; 9] = [
    "100000000001",
    "1000000000000",
    "9223372036854775808",
    "18446744073709551615",
    "18446744073709551616",
    "18446744073709553603",
    "340282366920938463463374607431768211456",
    "340282366920938463463374607431768213443",
    "115792089237316195423570985008687907853269984665640564039457584007913129639936",
];

pub fn edges() -> Vec<Edge> {
    let places = places().into_iter();
    let edges = places.flat_map(|(record, place, minus)| edges_at(&record, place, minus));
    edges.collect()
}

/// Numbers at a place of a record, and whether a minus sign may stand there.
pub fn edges_at(record: &str, place: usize, minus_allowed: bool) -> Vec<Edge> {
    let edge_with = |number: &str, answer: &str| edge(&with(record, place, number), answer);
    let badly_written = BADLY_WRITTEN.map(|number| edge_with(number, "NO 5"));
    let too_large = TOO_LARGE.map(|number| edge_with(number, "NO 6"));
    let mut edges: Vec<Edge> = badly_written.into_iter().chain(too_large).collect();
    let digits = room(record, place);
    for number in ["9".repeat(digits), format!("1{}", "0".repeat(digits - 1))] {
        let leading_zero = format!("0{}", &number[1..]);
        edges.push(edge_with(&number, "NO 6"));
        edges.push(edge_with(&leading_zero, "NO 5"));
    }
    edges.extend(with_minus(record, place, minus_allowed));
    edges
}

/// A record, the place of a number in it, and whether a minus sign may stand
/// there.
type Place = (String, usize, bool);

fn places() -> Vec<Place> {
    let rates = format!("RATE 2015 {}", repeated("5", 60));
    let mut places: Vec<Place> = vec![("LINE T 5".to_string(), 2, false)];
    for place in [1, 2, 61] {
        places.push((rates.clone(), place, false));
    }
    for place in 2..7 {
        places.push(("PATT J 2015 50 100 90 100".to_string(), place, false));
    }
    for place in 2..12 {
        let record = format!("YEAR J 2015 {}", repeated("5", 9));
        places.push((record, place, place % 3 == 0));
    }
    for place in [3, 22] {
        let record = format!("PATT A 2015 {}", repeated("5 5", 10));
        places.push((record, place, false));
    }
    for place in [3, 4, 33, 35] {
        let record = format!("YEAR A 2015 {}", repeated("5", 33));
        places.push((record, place, place % 3 == 0));
    }
    places
}

/// "a minus sign is allowed only before a nonzero paid in YEAR"
fn with_minus(record: &str, place: usize, allowed: bool) -> Vec<Edge> {
    let past_limits = if allowed { "NO 6" } else { "NO 5" };
    let within_limits = if allowed { "NO 10" } else { "NO 5" };
    let nines = format!("-{}", "9".repeat(room(record, place) - 1));
    vec![
        edge(&with(record, place, "-1"), within_limits),
        edge(&with(record, place, "-10000000000"), within_limits),
        edge(&with(record, place, "-10000000001"), past_limits),
        edge(&with(record, place, "-18446744073709551616"), past_limits),
        edge(&with(record, place, &nines), past_limits),
    ]
}

/// The bytes of the longest field that may stand at a place: the line is then as
/// long as question 1 lets through.
fn room(record: &str, place: usize) -> usize {
    LONGEST_LINE - with(record, place, "").len()
}

/// The record with another field at a place.
fn with(record: &str, place: usize, field: &str) -> String {
    let mut fields: Vec<&str> = record.split(' ').collect();
    fields[place] = field;
    fields.join(" ")
}
