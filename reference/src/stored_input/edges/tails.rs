//! Ten-year patterns whose tenth year paid nothing (document 02, F-1), at rate
//! 2100, and a year end that rests on them. Their answers were worked out by a
//! calculation that shares nothing with this package.

use super::{edge, Edge};
use crate::input_text::{rate, repeated};

/// The accident year of the first pattern.
const FIRST_YEAR: u64 = 2030;

/// Line B gets one pattern a year, and closes the last year.
pub fn edges() -> Vec<Edge> {
    let mut edges = Vec::new();
    for (year, (rows, factors)) in (FIRST_YEAR..).zip(patterns()) {
        edges.push(edge(&rate(year, 2100), &format!("RATE {year} 2100")));
        edges.push(edge(
            &format!("PATT B {year} {rows}"),
            &format!("FACT B {year} {factors}"),
        ));
    }
    // 510,366 + 516,442 + 604,452 + 529,325 + 511,050 + 470,972 + 565,101
    // + 406,288 + 390,636 + 350,494 and, at the composite of 2039, 643,717
    edges.push(edge(
        &format!("YEAR B 2039 {}", repeated("0 1000000 0", 11)),
        "TAX B 2039 0 0 5498843 5498843",
    ));
    edges
}

/// The rows of each pattern with its published factors, composite last. Above
/// each its payments at ages 8, 9 and 10 and its tail, in half units.
fn patterns() -> Vec<(String, &'static str)> {
    let percent = |paid| rows(paid, "100");
    let nearly_all = |first: &str, last: &str| {
        let paid = format!("{} {last}", repeated(first, 7));
        rows(&paid, "100000000")
    };
    vec![
        // 2, 0, 0: a mean of 0. Tail 0 0 0 0 0 12
        (
            nearly_all("99999993", "99999994 99999994 99999994"),
            "95414 115451 139696 169032 204529 247480 299451 239392 289664 350494 643717",
        ),
        // 4, 0, 0: a mean of 1. Tail 1 1 1 1 1 7
        (
            nearly_all("99999992", "99999994 99999994 99999994"),
            "136176 164774 199376 241245 291906 353207 427380 322840 390636 472670 670564",
        ),
        // 6, 0, 0: a mean of 2. Tail 2 2 2 2 2 2
        (
            nearly_all("99999991", "99999994 99999994 99999994"),
            "167880 203135 245794 297410 359866 435438 526880 406288 491608 594846 724259",
        ),
        // 8, 0, 0: a mean of 2, and not of 3. Tail 2 2 2 2 2 2
        (
            nearly_all("99999990", "99999994 99999994 99999994"),
            "180059 217871 263624 318985 385972 467026 565101 406288 491608 594846 724259",
        ),
        // 6, 12, 0: a mean of 6, more than a fifth of what is unpaid. Tail 6 6 6 6 0 0
        (
            nearly_all("99999979", "99999982 99999988 99999988"),
            "181580 219712 265852 321680 389233 470972 569876 621142 577373 698621 808471",
        ),
        // 8,000,000, 6,000,000, 0: five times the mean of 4,666,666, and 10,666,670
        (
            percent("10 25 40 52 62 70 76 80 83 83"),
            "517203 530979 528105 523759 511050 489936 466029 456674 455971 551725 700097",
        ),
        // 14,000,000, 0 and a payment that rounding hides: the same tail
        (
            rows(
                "1000000000 2500000000 4000000000 5200000000 6200000000 \
                 7000000000 7600000000 8300000000 8300000000 8300000049",
                "10000000000",
            ),
            "518879 533412 531785 529325 519558 502976 485751 376836 455971 551725 700097",
        ),
        // 20,000,000, 20,000,000, 0 and nothing unpaid. Tail 0 0 0 0 0 0
        (
            percent("10 25 40 52 62 70 80 90 100 100"),
            "551967 581456 604452 639233 687544 760442 830203 909091 909091 909091 909091",
        ),
        // 0, 0, 0: as before F-1. Tail 0 0 0 0 0 40,000,000
        (
            percent("10 25 40 52 62 70 80 80 80 80"),
            "507191 516442 506119 490504 460223 412036 197845 239392 289664 350494 643717",
        ),
        // 8,000,000, 6,000,000, 2: the tenth year paid, so 2 five times, and 33,999,988
        (
            rows(
                "10000000 25000000 40000000 52000000 62000000 \
                 70000000 76000000 80000000 83000000 83000001",
                "100000000",
            ),
            "510366 521052 513091 501050 476342 436740 385570 339847 289664 350494 643717",
        ),
    ]
}

/// Paid by age, each with the same incurred.
fn rows(paid: &str, incurred: &str) -> String {
    let fields: Vec<String> = paid
        .split_whitespace()
        .map(|paid| format!("{paid} {incurred}"))
        .collect();
    fields.join(" ")
}
