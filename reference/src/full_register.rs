//! Every month of the register, and every accident year's rate from it.

use crate::accepted_record::line_of;
use crate::input_text::ended_lines;
use crate::kinds::{FIRST_YEAR, HIGHEST_RATE, LAST_YEAR};
use crate::random::Random;
use crate::register_record::{all_months, monthly_rate_record, short_rate_record};

const SEED: u64 = 1_440;

/// The months in random order, each twice and at a rate of its own, with a short
/// RATE of a random year after each; then those of all years, twice.
pub fn input() -> Vec<u8> {
    let mut random = Random::new(SEED);
    let months = all_months();
    let mut lines = Vec::new();
    for month in random.shuffled(&[&months[..], &months].concat()) {
        let rate = random.between(0, HIGHEST_RATE);
        let year = random.between(FIRST_YEAR, LAST_YEAR);
        lines.push(line_of(monthly_rate_record(month, rate)));
        lines.push(line_of(short_rate_record(year)));
    }
    let years = (FIRST_YEAR..=LAST_YEAR).chain(FIRST_YEAR..=LAST_YEAR);
    lines.extend(years.map(|year| line_of(short_rate_record(year))));
    ended_lines(lines)
}
