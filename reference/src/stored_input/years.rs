//! A ten-year line and a two-year line closed over many years whose rates
//! differ widely.

use crate::input_text::{ended_records, rate, repeated};

/// The first accident year.
pub const FIRST_YEAR: u64 = 1995;

/// The rates of the years from the first on.
pub const RATES: [u64; 25] = [
    0, 2500, 700, 1, 1900, 35, 2499, 480, 1200, 10, 2100, 60, 900, 2300, 5, 1500, 250, 2000, 0,
    2400, 120, 1700, 600, 2500, 3,
];

/// The ten-year line has ten patterns before its first closing.
pub const FIRST_CLOSED_OF_TEN_YEAR_LINE: u64 = FIRST_YEAR + 9;

/// The two-year line has two.
pub const FIRST_CLOSED_OF_TWO_YEAR_LINE: u64 = FIRST_YEAR + 1;

pub fn input() -> Vec<u8> {
    let mut records = vec!["LINE D 123456789".to_string(), "LINE S 500".to_string()];
    for (year, year_rate) in (FIRST_YEAR..).zip(RATES) {
        records.push(rate(year, year_rate));
        records.push(pattern('D', year, 10));
        records.push(pattern('S', year, 2));
        if year >= FIRST_CLOSED_OF_TEN_YEAR_LINE {
            records.push(year_end('D', year, 10));
        }
        if year >= FIRST_CLOSED_OF_TWO_YEAR_LINE {
            records.push(year_end('S', year, 2));
        }
    }
    records.push(format!("YEAR S 2019 {}", repeated("0", 9)));
    records.extend(["SUM D", "SUM S"].map(String::from));
    ended_records(records)
}

/// Each year has payments of its own: what is paid by each age is so many
/// thousandths, more in some years than in others.
fn pattern(letter: char, year: u64, ages: u64) -> String {
    let mut record = format!("PATT {letter} {year}");
    let faster = 13 * (year % 7);
    for age in 1..=ages {
        let incurred = 1_000_000 + 37 * year * age;
        let thousandths = (900 * age + faster * age) / (ages + 1);
        record += &format!(" {} {incurred}", incurred * thousandths / 1_000);
    }
    record
}

/// A row at every age and the prior row, all with a reserve. Every third has a
/// tabular discount, every fourth one that makes the stated reserve the
/// smaller side, every fifth a negative paid.
fn year_end(letter: char, year: u64, ages: u64) -> String {
    let mut record = format!("YEAR {letter} {year}");
    for row in 1..=ages + 1 {
        let number = row + year % 5;
        let sign = if number.is_multiple_of(5) { "-" } else { "" };
        let paid = 1_000 * row + year;
        let unpaid = 1_000_003 * (ages + 2 - row) + 7 * year;
        let tabular = match (number % 3, number % 4) {
            (_, 0) => unpaid,
            (0, _) => unpaid / 40,
            _ => 0,
        };
        record += &format!(" {sign}{paid} {unpaid} {tabular}");
    }
    record
}
