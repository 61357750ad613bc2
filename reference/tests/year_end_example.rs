//! The year end of `examples/`: its records go together from year to year, the
//! tables of what they come from are theirs, the first try is wrong as told,
//! and what the reader is told to try is answered as told.

mod common;

use common::{commas, output, output_of};
use reference::pattern::CumulativeRow;
use reference::rate::accident_year_rate;
use reference::record::{read, Request};
use reference::run::records;

const FIRST_TRY: &str = include_str!("../../examples/year_end_first_try.txt");
const RECORDS: &str = include_str!("../../examples/year_end.txt");
const TEXT: &str = include_str!("../../examples/year_end.md");

fn requests() -> impl Iterator<Item = Request> {
    let lines = records(RECORDS.as_bytes()).into_iter();
    lines.map(|line| read(line).expect("a record"))
}

/// The year and the monthly rates of each RATE.
fn monthly_rates() -> Vec<(u64, Vec<u64>)> {
    let rates = requests().filter_map(|request| match request {
        Request::Rate {
            year,
            monthly_rates,
        } => Some((year, monthly_rates)),
        _ => None,
    });
    rates.collect()
}

/// The pairs of a PATT.
fn pairs(accident_year: u64) -> Vec<CumulativeRow> {
    let pairs = requests().find_map(|request| match request {
        Request::Pattern { year, rows, .. } if year == accident_year => Some(rows),
        _ => None,
    });
    pairs.expect("a PATT of that year")
}

/// What the rows of a YEAR have paid.
fn paid(of: u64) -> Vec<i64> {
    let rows = requests().find_map(|request| match request {
        Request::Year { year, rows, .. } if year == of => Some(rows),
        _ => None,
    });
    let rows = rows.expect("a YEAR of that year");
    rows.iter().map(|row| row.paid).collect()
}

/// The lines stand in the text one after the other.
fn assert_table(lines: &[String]) {
    assert!(TEXT.contains(&lines.join("\n")), "{lines:#?}");
}

/// Neighbouring accident years share the rates of four calendar years.
#[test]
fn the_monthly_rates_go_on_from_year_to_year() {
    let rates = monthly_rates();
    assert_eq!(rates.len(), 11);
    for pair in rates.windows(2) {
        assert_eq!(pair[1].0, pair[0].0 + 1);
        assert_eq!(pair[1].1[..48], pair[0].1[12..], "{}", pair[1].0);
    }
}

#[test]
fn the_table_of_rates_is_theirs() {
    let sum = |rates: &[u64]| commas(rates.iter().sum::<u64>());
    let rates = monthly_rates();
    let first_years = (1998..2002).zip(rates[0].1.chunks(12));
    let first_lines = first_years.map(|(year, rates)| format!("| {year} | {} | | | |", sum(rates)));
    let lines = rates.iter().map(|(year, rates)| {
        let (last_year, all) = (sum(&rates[48..]), sum(rates));
        let rate = accident_year_rate(rates);
        format!("| {} | {last_year} | {all} | {year} | {rate} |", year - 1)
    });
    assert_table(&first_lines.chain(lines).collect::<Vec<_>>());
}

/// Schedule P has the oldest accident year on top.
#[test]
fn the_schedule_p_of_2010_is_the_pattern_of_2012() {
    let lines = (1..).zip(pairs(2012)).map(|(age, pair)| {
        let (paid, incurred) = (commas(pair.paid), commas(pair.incurred));
        format!("| {} | {paid} | {incurred} | age {age} |", 2011 - age)
    });
    let mut lines: Vec<String> = lines.collect();
    lines.reverse();
    assert_table(&lines);
}

/// What was paid by the end of 2011 stands in the pattern of 2013.
#[test]
fn the_paid_of_2012_is_the_difference_of_two_statements() {
    let mut before: Vec<u64> = pairs(2013).iter().map(|pair| pair.paid).collect();
    before.insert(0, 0);
    let ages = paid(2012).into_iter().zip(before).take(10);
    let lines = (0..).zip(ages).map(|(place, (paid, before))| {
        let year = 2012 - place;
        let by_now = commas(before as i64 + paid);
        let (before, paid) = (commas(before), commas(paid));
        format!("| {year} | {by_now} | {before} | {paid} |")
    });
    assert_table(&lines.collect::<Vec<_>>());
}

/// Only the pairs of one record are exchanged, in the line that is named.
#[test]
fn the_first_try_is_wrong_in_line_13_alone() {
    for (number, (first, mended)) in (1..).zip(FIRST_TRY.lines().zip(RECORDS.lines())) {
        let mut fields: Vec<&str> = first.split('\t').collect();
        if number == 13 {
            fields[3..].chunks_mut(2).for_each(<[&str]>::reverse);
        }
        assert_eq!(fields.join("\t"), mended, "line {number}");
    }
    let answers = output(FIRST_TRY.as_bytes());
    let first_no = answers.iter().position(|line| line.starts_with("NO"));
    assert_eq!(first_no, Some(13 - 1));
}

#[test]
fn without_the_pattern_of_2003_the_opening_of_2013_is_wrong() {
    let records: Vec<&str> = RECORDS.lines().collect();
    let output = output_of(&[&records[..1], &records[3..]].concat());
    assert_eq!(output[19], "NO 13");
    assert_eq!(output[22], "TAX D 2013 15751 46932 53757 22576");
    assert_eq!(output[23], "DONE 22 1");
    assert!(TEXT.contains(&output[22]));
}

#[test]
fn age_rows_in_the_wrong_order_are_not_caught() {
    let records: Vec<&str> = RECORDS.lines().collect();
    let fields: Vec<&str> = records[21].split('\t').collect();
    let mut age_rows: Vec<&[&str]> = fields[3..33].chunks(3).collect();
    age_rows.reverse();
    let year = [&fields[..3], &age_rows.concat(), &fields[33..]].concat();
    let output = output_of(&[&records[..21], &[year.join("\t").as_str()]].concat());
    assert_eq!(output[21], "TAX D 2012 15532 46932 48683 17283");
    assert!(TEXT.contains(&output[21]));
}
