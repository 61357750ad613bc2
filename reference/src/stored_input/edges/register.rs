//! Short RATEs and their sixty months (document 02, F-4): sixty that began a month
//! or a year early or late would give another rate, or lack a month. The factors
//! were worked out by a calculation that shares nothing with this package.

use super::longest::after_one_byte_more;
use super::{edge, table, Edge};
use crate::input_text::{rate, repeated};

pub fn edges() -> Vec<Edge> {
    let mut edges = first_month_lacking();
    edges.extend(given_twice());
    edges.extend(accepted_once_complete());
    edges.extend(last_month_lacking());
    edges.extend(middle_month_lacking());
    edges.extend(long_rate_first());
    edges.extend(early_and_late());
    edges.extend(patterns());
    edges
}

/// The rate of a month from December 1989 to January 1998.
///
/// From January 1990 on they are 118 to 177, which sum to 8,850: 148 (P4). The
/// month before them has one less than the last of them and the month after one
/// less than the first, so that a month early or late there are 8,849: 147 (P5).
/// The same holds of 1996 (9,450: 158), 1997 (10,170: 170) and 1998 (11,970: 200).
fn rate_of(year: u64, month: u64) -> u64 {
    match (year, month) {
        (1989, _) => 176,
        (1990..=1994, _) => 118 + 12 * (year - 1990) + month - 1,
        (1995, 1) => 117,
        (1995, 12) => 130,
        (1995, _) => 177 + month,
        (1996, 1) => 129,
        (1996, 12) => 142,
        (1996, _) => 201 + month,
        (1997, 1) => 141,
        (1997, 12) => 154,
        (1997, _) => 321 + month,
        _ => 153,
    }
}

fn month(year: u64, month: u64) -> Edge {
    month_at(year, month, rate_of(year, month))
}

/// An accepted MIDT, whose answer is the record itself.
fn month_at(year: u64, month: u64, rate: u64) -> Edge {
    let record = format!("MIDT {year} {month} {rate}");
    edge(&record, &record)
}

/// All months but the first, latest year first and months in another order. The
/// months before and after them do not stand for it.
fn first_month_lacking() -> Vec<Edge> {
    let mut edges = vec![month(1989, 12), month(1995, 1), edge("RATE 1995", "NO 14")];
    for year in (1990..=1994).rev() {
        let months = [4, 12, 7, 2, 9, 5, 11, 3, 8, 6, 10, 1];
        let given = months.iter().filter(|number| (year, **number) != (1990, 1));
        edges.extend(given.map(|number| month(year, *number)));
    }
    edges.push(edge("RATE 1995", "NO 14"));
    edges
}

/// "Question 7 also covers a month given twice.": the first rate stays, as the
/// answer to RATE 1995 shows.
fn given_twice() -> Vec<Edge> {
    table(&[
        ("MIDT 1990 2 119", "NO 7"),
        ("MIDT 1990 2 2500", "NO 7"),
        ("MIDT 1990 2 0", "NO 7"),
        ("MIDT 1994 12 2500", "NO 7"),
        ("MIDT 1994 12 2501", "NO 6"),
        ("RATE 1995", "NO 14"),
    ])
}

/// A refused RATE has left everything as it was, also the rate of 1995.
fn accepted_once_complete() -> Vec<Edge> {
    let sixty: Vec<String> = (118..=177).map(|rate| rate.to_string()).collect();
    let long = format!("RATE 1995 {}", sixty.join(" "));
    vec![
        edge("PATT T 1995 50 100 90 100", "NO 9"),
        month(1990, 1),
        edge("RATE 1995", "RATE 1995 148"),
        edge("RATE 1995", "NO 7"),
        edge(&long, "NO 7"),
        edge(&rate(1995, 0), "NO 7"),
        edge("MIDT 1990 1 118", "NO 7"),
        edge("RATE 1996", "NO 14"),
    ]
}

/// The month after the sixty does not stand for the last of them.
fn last_month_lacking() -> Vec<Edge> {
    let mut edges: Vec<Edge> = (2..=11).map(|number| month(1995, number)).collect();
    edges.extend([
        month(1996, 1),
        edge("RATE 1996", "NO 14"),
        month(1995, 12),
        edge("RATE 1996", "RATE 1996 158"),
        edge("RATE 1996", "NO 7"),
    ]);
    edges
}

/// July 1996 is the fourth year of 1998's five and the last of 1997's.
fn middle_month_lacking() -> Vec<Edge> {
    let months = |year: u64| (2..=12).map(move |number| month(year, number));
    let july = months(1996).nth(5).expect("July");
    let mut edges: Vec<Edge> = months(1996).take(5).chain(months(1996).skip(6)).collect();
    edges.push(month(1997, 1));
    edges.extend(months(1997));
    edges.extend([
        month(1998, 1),
        edge("RATE 1997", "NO 14"),
        edge("RATE 1998", "NO 14"),
        july,
        edge("RATE 1998", "RATE 1998 200"),
        edge("RATE 1997", "RATE 1997 170"),
    ]);
    edges
}

/// A long RATE is not compared with the register and does not fill it.
fn long_rate_first() -> Vec<Edge> {
    let mut edges = vec![edge("RATE 1999", "NO 14")];
    edges.extend((2..=12).map(|number| month_at(1998, number, 153)));
    edges.extend([
        edge(&rate(1999, 7), "RATE 1999 7"),
        edge("RATE 1999", "NO 7"),
        edge(&rate(1999, 7), "NO 7"),
        edge(&rate(2000, 9), "RATE 2000 9"),
        edge("RATE 2000", "NO 7"),
        month_at(1999, 12, 2500),
        edge("MIDT 1999 12 9", "NO 7"),
        edge("RATE 2049", "NO 14"),
        month_at(2049, 12, 6),
        edge("MIDT 2049 12 5", "NO 7"),
        edge("RATE 2051", "NO 14"),
    ]);
    edges
}

/// The sixty months before 1988 at 2100, and those before 2097 at 2500; the
/// months about them are at 0. The RATE of 2097 is as wide as a short one can be.
fn early_and_late() -> Vec<Edge> {
    let mut edges = vec![
        month_at(1982, 12, 0),
        month_at(1988, 1, 0),
        month_at(2091, 12, 0),
        month_at(2097, 1, 0),
    ];
    for (years, rate) in [(1983..=1987, 2100), (2092..=2096, 2500)] {
        let months = years.flat_map(|year| (1..=12).map(move |number| (year, number)));
        edges.extend(months.map(|(year, number)| month_at(year, number, rate)));
    }
    edges.push(edge("RATE 1987", "NO 7"));
    edges.push(edge("RATE 1988", "RATE 1988 2100"));
    edges.push(edge("RATE 1989", "NO 14"));
    edges.push(edge("RATE 2096", "NO 14"));
    let refused = ["NO 4", "NO 5", "NO 6"];
    edges.extend(after_one_byte_more("RATE 2097", refused, "RATE 2097 2500"));
    edges.push(edge("RATE 2098", "NO 7"));
    edges
}

/// The rate of 1991 was given by sixty rates and is 148, as that of 1995. Line K
/// has document 01's pattern and rate in 1988.
fn patterns() -> Vec<Edge> {
    let rows = "10 100 25 100 40 100 52 100 62 100 70 100 76 100 81 100 85 100 88 100";
    let factors = "940417 943728 945276 947239 949123 951382 954985 959052 964146 971175 983065";
    let year = format!("1000 1000000 0 {}", repeated("0 0 0", 10));
    let tax = "1000 1000 940417 940417";
    let mut edges = Vec::new();
    for line in ["F 1991", "G 1995"] {
        edges.push(edge(
            &format!("PATT {line} {rows}"),
            &format!("FACT {line} {factors}"),
        ));
        edges.push(edge(
            &format!("YEAR {line} {year}"),
            &format!("TAX {line} {tax}"),
        ));
    }
    edges.extend(two_year_patterns());
    edges.push(edge("PATT K 1989 50 100 90 100", "NO 9"));
    edges.push(edge("SUM G", "SUM G 1 1000 940417"));
    edges
}

fn two_year_patterns() -> Vec<Edge> {
    let pattern = |line: &str, factors: &str| {
        edge(
            &format!("PATT {line} 50 100 90 100"),
            &format!("FACT {line} {factors}"),
        )
    };
    vec![
        pattern("T 1995", "988359 985442 992681"),
        pattern("T 1996", "987587 984476 992192"),
        pattern("T 1997", "986662 983319 991607"),
        pattern("T 1998", "984361 980440 990148"),
        pattern("K 1988", "864496 830203 909091"),
    ]
}
