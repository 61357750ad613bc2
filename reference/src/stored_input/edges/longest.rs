//! The widest record of each kind, which is accepted, and before it the same
//! with one byte more (document 02, F-3). Line T is declared last.

use super::{edge, Edge};
use crate::input_text::{rate, repeated};

/// "No accepted record can have more than 418 bytes, and one can have as many."
pub fn edges() -> Vec<Edge> {
    let mut edges = wide_rate();
    edges.extend(ten_year_line());
    edges.extend(two_year_line());
    edges.extend(sums());
    edges.extend(wide_line());
    edges
}

/// A tab at the end, a leading zero in the last number and a digit more there,
/// each with its answer, and then the record itself.
pub fn after_one_byte_more(record: &str, refused: [&str; 3], answer: &str) -> Vec<Edge> {
    let (start, last) = record.rsplit_once(' ').expect("a number");
    vec![
        edge(&format!("{record} "), refused[0]),
        edge(&format!("{start} 0{last}"), refused[1]),
        edge(&format!("{record}0"), refused[2]),
        edge(record, answer),
    ]
}

/// A RATE of 309 bytes.
fn wide_rate() -> Vec<Edge> {
    let record = rate(2040, 2500);
    after_one_byte_more(&record, ["NO 4", "NO 5", "NO 6"], "RATE 2040 2500")
}

/// A PATT of 251 bytes and a YEAR of 418. In 2040 line B keeps ten patterns; those
/// of ages 2 to 10 are of `tails`. Of a gross of 20,000,000,000 four rows are less
/// than their unpaid: ages 6 (0.489936), 8 (0.406288), 9 (0.491608) and 10
/// (0.472670), together 37,210,040,000. The other seven are 10,000,000,000 each.
fn ten_year_line() -> Vec<Edge> {
    let pattern = format!("PATT B 2040 {}", repeated("10000000000", 20));
    let factors = format!("FACT B 2040 {}", repeated("894427", 11));
    let year = format!("YEAR B 2040 {}", widest_rows(11));
    let tax = "TAX B 2040 -110000000000 5498843 107210040000 -2795458843";
    let mut edges = after_one_byte_more(&pattern, ["NO 4", "NO 5", "NO 6"], &factors);
    edges.extend(after_one_byte_more(&year, ["NO 1", "NO 1", "NO 1"], tax));
    edges.push(edge(&year, "NO 10"));
    edges
}

/// A PATT of 59 bytes and a YEAR of 122, at rate 0: three rows as unpaid.
fn two_year_line() -> Vec<Edge> {
    let pattern = format!("PATT S 2023 {}", repeated("10000000000", 4));
    let factors = "FACT S 2023 1000000 1000000 1000000";
    let year = format!("YEAR S 2023 {}", widest_rows(3));
    let tax = "TAX S 2023 -30000000000 47862 30000000000 -47862";
    let mut edges = after_one_byte_more(&pattern, ["NO 4", "NO 5", "NO 6"], factors);
    edges.extend(after_one_byte_more(&year, ["NO 4", "NO 5", "NO 6"], tax));
    edges
}

fn widest_rows(rows: usize) -> String {
    repeated("-10000000000 10000000000 10000000000", rows)
}

/// A SUM of 5 bytes, which has no number: the year of B and that of S are added
/// to what `totals` has of them.
fn sums() -> Vec<Edge> {
    vec![
        edge("SUM B ", "NO 4"),
        edge("SUM BB", "NO 3"),
        edge("SUM B", "SUM B 2 -110000000000 -2789960000"),
        edge("SUM S", "SUM S 2 -30000000000 -1000"),
    ]
}

/// A LINE of 19 bytes.
fn wide_line() -> Vec<Edge> {
    let record = "LINE T 100000000000";
    after_one_byte_more(record, ["NO 4", "NO 5", "NO 6"], record)
}
