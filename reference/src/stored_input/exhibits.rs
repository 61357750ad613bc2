//! Exhibits 9, 10 and 11 of source document 000, each as the PATT of a line,
//! with a year end after it.

use crate::input_text::{ended_records, rate, repeated};

/// Columns 2 and 3, youngest age first. Exhibit 9 gives percentages only; they
/// are run as paid of 1,000,000.
pub const EXHIBIT_9: &str = "902657 1000000 997478 1000000";
pub const EXHIBIT_10: &str = "200000 571500 330000 687500 360000 610000 380000 550500 \
    370000 480500 350000 421500 340000 386500 320000 348000 300000 316000 270000 275500";
pub const EXHIBIT_11: &str = "15000 180000 35000 140000 50000 125000 60000 115000 \
    65000 103000 70000 96000 65000 80000 60000 70000 55000 62000 50000 55500";

/// Only the accident year itself and the prior row have a reserve: no older
/// pattern is given. What a line of 1,000,000 discounts to is its factor.
pub fn input() -> Vec<u8> {
    let older_ages = repeated("0 0 0", 9);
    ended_records([
        "LINE J 0".to_string(),
        rate(2015, 168),
        format!("PATT J 2015 {EXHIBIT_9}"),
        "YEAR J 2015 902657 1000000 0 0 0 0 0 1000000 0".to_string(),
        "LINE B 0".to_string(),
        rate(2011, 700),
        format!("PATT B 2011 {EXHIBIT_10}"),
        format!("YEAR B 2011 200000 371500 0 {older_ages} 0 1000000 0"),
        "LINE H 1000000".to_string(),
        format!("PATT H 2011 {EXHIBIT_11}"),
        format!("YEAR H 2011 15000 1000000 0 {older_ages} -5000 165000 20000"),
    ])
}
