//! Questions 7 to 13, each from a book in which only that one is answered no,
//! and the order of the questions. Line J has an opening of 70 and document
//! 01's pattern at rate 2100.

use super::{edge, table, Edge};
use crate::input_text::{rate, repeated};

pub fn edges() -> Vec<Edge> {
    let mut edges = before_a_pattern();
    edges.extend(with_a_pattern());
    edges.extend(order());
    edges.extend(with_a_closed_year());
    edges
}

/// 2018 has no rate; T is not declared.
fn before_a_pattern() -> Vec<Edge> {
    table(&[
        ("LINE J 70", "NO 7"),
        ("PATT T 2015 50 100 90 100", "NO 8"),
        ("YEAR T 2015 0 0 0 0 0 0 0 0 0", "NO 8"),
        ("YEAR J 2015 0 0 0 0 0 0 0 0 0", "NO 10"),
        ("PATT J 2018 50 100 90 100", "NO 9"),
        ("PATT J 2015 50 100 101 100", "NO 11"),
        ("PATT J 2015 0 0 90 100", "NO 11"),
        ("PATT J 2015 50 100 0 0", "NO 11"),
        ("PATT J 2015 2 3 66666666 100000000", "NO 12"),
        ("PATT J 2015 90 100 50 100", "NO 12"),
        (
            "PATT J 2015 50 100 90 100",
            "FACT J 2015 864496 830203 909091",
        ),
    ])
}

/// A row of age 2 would take the pattern of 2014.
fn with_a_pattern() -> Vec<Edge> {
    table(&[
        ("PATT J 2014 50 100 90 100", "NO 10"),
        ("PATT J 2015 50 100 90 100", "NO 10"),
        ("PATT J 2017 50 100 90 100", "NO 10"),
        ("YEAR J 2014 0 0 0 0 0 0 0 0 0", "NO 10"),
        ("YEAR J 2016 0 0 0 0 0 0 0 0 0", "NO 10"),
        ("YEAR J 2015 0 0 0 0 1 0 0 0 0", "NO 13"),
        ("YEAR J 2015 0 0 0 0 0 1 0 0 0", "NO 13"),
    ])
}

/// A record that fails two questions gets the number of the first.
fn order() -> Vec<Edge> {
    let sixty = repeated("2501", 60);
    let mut edges = table(&[
        ("lines M 01", "NO 2"),
        ("LINE M 01 01", "NO 3"),
        ("PATT M", "NO 3"),
        ("LINE J 01 01", "NO 4"),
        ("PATT J 1986 1 2 x", "NO 4"),
        ("PATT J 1986 1 2 1 02", "NO 5"),
        ("YEAR J 2015 99999999999 0 0 0 0 0 0 0 -1", "NO 5"),
        ("YEAR J 1986 0 0 0 0 0 0 0 0 -1", "NO 5"),
        ("LINE J 100000000001", "NO 6"),
        ("PATT T 2100 1 2 1 2", "NO 6"),
        ("PATT T 2018 2 1 1 2", "NO 8"),
        ("YEAR T 2099 0 1 0 0 1 0 0 1 0", "NO 8"),
        ("PATT J 2018 2 1 1 2", "NO 9"),
        ("PATT J 2015 2 1 1 2", "NO 10"),
        ("PATT J 2017 90 100 50 100", "NO 10"),
        ("YEAR J 2016 0 1 0 0 1 0 0 1 0", "NO 10"),
        ("PATT J 2016 2 2 2 0", "NO 11"),
        ("PATT J 2016 3 2 1 2", "NO 11"),
    ]);
    edges.push(edge(&format!("RATE 2015 {sixty}"), "NO 6"));
    edges.push(edge(&format!("RATE 2015 {sixty} 0"), "NO 4"));
    edges.push(edge(&format!("RATE 2015 {} 01", &sixty[5..]), "NO 5"));
    edges.push(edge(&rate(2015, 0), "NO 7"));
    edges
}

/// Of 10 unpaid at age 2 in 2016, 8 are left at the rate of 2015 (0.830203)
/// and 10 would be at that of 2016, which is 0. P11: 30 and not 40 or 27.
fn with_a_closed_year() -> Vec<Edge> {
    table(&[
        ("YEAR J 2015 50 50 0 0 0 0 0 0 0", "TAX J 2015 50 70 43 23"),
        ("YEAR J 2015 50 50 0 0 0 0 0 0 0", "NO 10"),
        (
            "PATT J 2016 2 3 66666667 100000000",
            "FACT J 2016 1000000 1000000 1000000",
        ),
        ("PATT J 2017 50 100 90 100", "NO 10"),
        ("YEAR J 2016 0 0 0 40 10 0 0 0 0", "TAX J 2016 40 43 8 5"),
        (
            "PATT J 2017 50 100 90 100",
            "FACT J 2017 1000000 1000000 1000000",
        ),
        ("YEAR J 2017 -1 30 10 0 0 0 0 0 0", "TAX J 2017 -1 8 30 21"),
    ])
}
