//! Patterns at their limits, in the first and in the last year.

use super::{edge, table, Edge};
use crate::input_text::{flat_pattern, repeated};

/// At rate 2500 the half-year factor is 8,944,271,909 (P3). With nothing paid
/// by age 2 the factor of age 2 is the mean of it and of 8/10 of it,
/// 8,049,844,718, and that of age 1 is 8/10 of this.
pub fn edges() -> Vec<Edge> {
    let mut edges = table(&[
        ("PATT K 1986 0 1 0 1", "NO 6"),
        ("PATT K 2100 0 1 0 1", "NO 6"),
        ("PATT K 1988 0 1 0 1", "NO 9"),
        ("PATT K 1987 0 1 0 1 0 1", "NO 4"),
        ("PATT K 1987 0 1 0", "NO 4"),
        ("PATT K 1987 0 1 0 1", "FACT K 1987 643988 804984 894427"),
        ("YEAR K 1986 0 0 0 0 0 0 0 0 0", "NO 6"),
        (
            "YEAR K 1987 0 1000000 0 0 0 0 0 1000000 0",
            "TAX K 1987 0 1000 1538415 1537415",
        ),
        ("YEAR K 1987 0 1000000 0 0 0 0 0 1000000 0", "NO 10"),
    ]);
    edges.extend(past_the_highest_amount());
    edges.push(edge(
        "PATT L 2099 10000000000 10000000000 10000000000 10000000000",
        "FACT L 2099 1000000 1000000 1000000",
    ));
    edges.push(edge("PATT L 2100 1 2 1 2", "NO 6"));
    edges.push(edge(
        "YEAR L 2099 10000000000 10000000000 0 -10000000000 0 0 0 0 10000000000",
        "TAX L 2099 0 1000 10000000000 9999999000",
    ));
    edges.extend(all_paid_at_the_highest_rate());
    edges
}

fn past_the_highest_amount() -> Vec<Edge> {
    let past = |place: usize| {
        let mut numbers = ["10000000000"; 4];
        numbers[place] = "10000000001";
        edge(&format!("PATT L 2099 {}", numbers.join(" ")), "NO 6")
    };
    (0..4).map(past).collect()
}

/// With nothing unpaid every factor and the composite are the half-year factor.
fn all_paid_at_the_highest_rate() -> Vec<Edge> {
    let factors = repeated("894427", 11);
    vec![
        edge(
            &flat_pattern('R', 1987, "1 1"),
            &format!("FACT R 1987 {factors}"),
        ),
        edge(
            &format!("YEAR R 1987 0 1 0 {} 0 1000000 1", repeated("7 0 0", 9)),
            "TAX R 1987 63 1000 894429 893492",
        ),
    ]
}
