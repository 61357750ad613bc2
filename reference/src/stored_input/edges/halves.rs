//! Factors and a row that lie on a half, where one unit decides the rounding.

use super::{edge, table, Edge};
use crate::input_text::rate;

/// At rate 450 the half-year factor is 9,782,319,760 and the factor of age 2 is
/// 9,571,695,650, which is 9,159,517,368 a year earlier. Age 1 of 2021 has
/// (37 × 9,782,319,760 + 27 × 9,159,517,368) / 64 = 9,519,575,000, just up to
/// the half; that of 2022 has (57 and 29 of 86) 9,572,304,999, just not.
/// 50,000 × 0.957230 is 47,861.5, which is rounded up.
pub fn edges() -> Vec<Edge> {
    let mut edges = vec![
        edge(&rate(2021, 450), "RATE 2021 450"),
        edge(&rate(2022, 450), "RATE 2022 450"),
    ];
    edges.extend(table(&[
        (
            "PATT S 2021 36 100 73 100",
            "FACT S 2021 951958 957170 978232",
        ),
        (
            "PATT S 2022 14 100 71 100",
            "FACT S 2022 957230 957170 978232",
        ),
        (
            "YEAR S 2022 0 50000 0 0 0 0 0 0 0",
            "TAX S 2022 0 1000 47862 46862",
        ),
    ]));
    edges
}
