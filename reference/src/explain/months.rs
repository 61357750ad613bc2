//! Months in words; successive ones are joined.

use crate::kinds::MONTHS_OF_A_YEAR;
use crate::register::Month;

const NAMES: [&str; MONTHS_OF_A_YEAR as usize] = [
    "January",
    "February",
    "March",
    "April",
    "May",
    "June",
    "July",
    "August",
    "September",
    "October",
    "November",
    "December",
];

fn name(month: Month) -> &'static str {
    NAMES[(month.number - 1) as usize]
}

/// "March 1983"
pub fn month_words(month: Month) -> String {
    format!("{} {}", name(month), month.year)
}

/// "March 1983", "July to December 1984", "November 1983 to February 1984"
pub fn span_words(first: Month, last: Month) -> String {
    if first == last {
        return month_words(last);
    }
    let start = if first.year == last.year {
        name(first).to_string()
    } else {
        month_words(first)
    };
    format!("{start} to {}", month_words(last))
}

/// At most so many runs of months are named.
const MOST_RUNS: usize = 12;

/// Months, oldest first: "March 1983, and July to December 1984".
pub fn joined_months(months: &[Month]) -> String {
    let follows = |before: &Month, month: &Month| place(*before) + 1 == place(*month);
    let runs: Vec<&[Month]> = months.chunk_by(follows).collect();
    let named = &runs[..runs.len().min(MOST_RUNS)];
    let words = named
        .iter()
        .map(|run| span_words(run[0], run[run.len() - 1]));
    let mut parts: Vec<String> = words.collect();
    let left_out = months.len() - named.iter().map(|run| run.len()).sum::<usize>();
    if left_out > 0 {
        let plural = if left_out == 1 { "" } else { "s" };
        parts.push(format!("{left_out} more month{plural}"));
    }
    match parts.split_last() {
        Some((last, before)) if !before.is_empty() => {
            format!("{}, and {last}", before.join(", "))
        }
        _ => parts.concat(),
    }
}

/// Months are counted through.
fn place(month: Month) -> u64 {
    month.year * MONTHS_OF_A_YEAR + month.number
}
