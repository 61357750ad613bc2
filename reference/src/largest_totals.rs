//! Two ten-year lines closed in every year, with the highest and the lowest
//! totals that a line can have. A SUM follows each closing.

use crate::input_text::{ended_records, flat_pattern, rate, repeated};
use crate::kinds::{FIRST_YEAR, LAST_YEAR};

/// Line A opens with nothing, always pays the most and ends with the highest
/// closing; line R has the highest opening, always pays the least and closes
/// with nothing.
pub fn input() -> Vec<u8> {
    let mut records = vec!["LINE A 0".to_string(), "LINE R 100000000000".to_string()];
    let lowest = repeated("-10000000000 0 0", 11);
    for year in FIRST_YEAR..=LAST_YEAR {
        let unpaid = if year == LAST_YEAR {
            "10000000000"
        } else {
            "0"
        };
        let highest = repeated(&format!("10000000000 {unpaid} 0"), 11);
        records.push(rate(year, 0));
        for (letter, rows) in [('A', &highest), ('R', &lowest)] {
            records.push(flat_pattern(letter, year, "1 2"));
            records.push(format!("YEAR {letter} {year} {rows}"));
            records.push(format!("SUM {letter}"));
        }
    }
    ended_records(records)
}
