//! Year ends at both ends of the range of paid, closing and loss.

use super::{edge, Edge};
use crate::input_text::{flat_pattern, repeated};

/// The rate 0 discounts nothing.
pub fn edges() -> Vec<Edge> {
    let mut edges = Vec::new();
    for year in 2001..=2010 {
        edges.push(pattern(year));
    }
    edges.extend(past_the_limits());
    let highest = repeated("10000000000 10000000000 0", 11);
    let lowest = repeated("-10000000000 0 10000000000", 11);
    edges.push(edge(
        &format!("YEAR A 2010 {highest}"),
        "TAX A 2010 110000000000 100000000000 110000000000 120000000000",
    ));
    edges.push(edge(&format!("YEAR A 2010 {highest}"), "NO 10"));
    edges.push(pattern(2011));
    edges.push(edge(
        &format!("YEAR A 2011 {lowest}"),
        "TAX A 2011 -110000000000 110000000000 0 -220000000000",
    ));
    edges.push(pattern(2012));
    edges.push(edge(
        &format!("YEAR A 2012 {highest}"),
        "TAX A 2012 110000000000 0 110000000000 220000000000",
    ));
    edges
}

fn pattern(year: u64) -> Edge {
    let factors = repeated("1000000", 11);
    edge(
        &flat_pattern('A', year, "1 2"),
        &format!("FACT A {year} {factors}"),
    )
}

/// Every number of a year end one past its limit, in turn.
fn past_the_limits() -> Vec<Edge> {
    let mut edges = Vec::new();
    for place in 0..33 {
        let mut numbers = ["0"; 33];
        numbers[place] = "10000000001";
        let record = format!("YEAR A 2010 {}", numbers.join(" "));
        edges.push(edge(&record, "NO 6"));
        numbers[place] = "-10000000001";
        let record = format!("YEAR A 2010 {}", numbers.join(" "));
        let is_paid = place % 3 == 0;
        edges.push(edge(&record, if is_paid { "NO 6" } else { "NO 5" }));
    }
    edges
}
