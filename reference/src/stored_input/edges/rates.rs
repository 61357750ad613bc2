//! Rates and their years. Afterwards the years that later edges need have
//! theirs.

use super::{edge, Edge};
use crate::input_text::{rate, repeated};

pub fn edges() -> Vec<Edge> {
    let mut edges = limits();
    edges.extend(means());
    for year in 2001..=2012 {
        edges.push(edge(&rate(year, 0), &format!("RATE {year} 0")));
    }
    for (year, year_rate) in [(2014, 0), (2015, 2100), (2016, 0), (2017, 0)] {
        let answer = format!("RATE {year} {year_rate}");
        edges.push(edge(&rate(year, year_rate), &answer));
        edges.push(edge(&rate(year, year_rate), "NO 7"));
    }
    edges
}

fn limits() -> Vec<Edge> {
    let fifty_nine = repeated("0", 59);
    vec![
        edge(&rate(1986, 5), "NO 6"),
        edge(&rate(2100, 5), "NO 6"),
        edge(&rate(0, 5), "NO 6"),
        edge(&rate(1987, 2501), "NO 6"),
        edge(&format!("RATE 1987 2501 {fifty_nine}"), "NO 6"),
        edge(&format!("RATE 1987 {fifty_nine} 2501"), "NO 6"),
        edge(&format!("RATE 1987 {fifty_nine}"), "NO 4"),
        edge(&format!("RATE 1987 {fifty_nine} 0 0"), "NO 4"),
        edge(&rate(1987, 2500), "RATE 1987 2500"),
        edge(&rate(2099, 0), "RATE 2099 0"),
        edge(&rate(2099, 1), "NO 7"),
        edge(&rate(2098, 1), "RATE 2098 1"),
    ]
}

/// Sums and thirty, divided by sixty: 2,500, 8,850, 8,849 (P4 and P5), 29, 30.
fn means() -> Vec<Edge> {
    let fifty_nine = repeated("0", 59);
    let fifty_eight = repeated("150", 58);
    vec![
        edge(&format!("RATE 1990 {fifty_nine} 2500"), "RATE 1990 42"),
        edge(&format!("RATE 1991 {fifty_eight} 150 0"), "RATE 1991 148"),
        edge(&format!("RATE 1992 {fifty_eight} 149 0"), "RATE 1992 147"),
        edge(&format!("RATE 1993 29 {fifty_nine}"), "RATE 1993 0"),
        edge(&format!("RATE 1994 30 {fifty_nine}"), "RATE 1994 1"),
    ]
}
