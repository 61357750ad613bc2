//! The register of `examples/`: the tables of months and rates are those of its
//! records, and what the reader is told to try is answered as told.

mod common;

use std::collections::BTreeMap;

use common::{commas, output_of};
use reference::rate::accident_year_rate;

const RECORDS: &str = include_str!("../../examples/register.txt");
const ANSWERS: &str = include_str!("../../examples/register.out");
const TEXT: &str = include_str!("../../examples/register.md");

fn records() -> Vec<&'static str> {
    RECORDS.lines().collect()
}

/// The rates of each calendar year, by month: a MIDT prints its own fields back.
fn months() -> BTreeMap<u64, Vec<u64>> {
    let mut years: BTreeMap<u64, BTreeMap<u64, u64>> = BTreeMap::new();
    for answer in ANSWERS.lines() {
        let fields: Vec<&str> = answer.split('\t').collect();
        if let ["MIDT", year, month, rate] = fields[..] {
            let [year, month, rate] = [year, month, rate].map(|n| n.parse().expect("a number"));
            years.entry(year).or_default().insert(month, rate);
        }
    }
    let by_month = |months: BTreeMap<u64, u64>| months.into_values().collect();
    years.into_iter().map(|(y, m)| (y, by_month(m))).collect()
}

/// The lines stand in the text one after the other.
fn assert_table(lines: &[String]) {
    assert!(TEXT.contains(&lines.join("\n")), "{lines:#?}");
}

#[test]
fn the_table_of_months_has_every_month() {
    let lines = months().into_iter().map(|(year, rates)| {
        assert_eq!(rates.len(), 12);
        let rates: Vec<String> = rates.iter().map(u64::to_string).collect();
        format!("| {year} | {} |", rates.join(" | "))
    });
    let lines: Vec<String> = lines.collect();
    assert_eq!(lines.len(), 7);
    assert_table(&lines);
}

#[test]
fn the_table_of_rates_is_theirs() {
    let months = months();
    let lines = months.iter().map(|(year, rates)| {
        let sum = commas(rates.iter().sum::<u64>());
        let five: Vec<u64> = (year - 4..=*year)
            .filter_map(|year| months.get(&year))
            .flatten()
            .copied()
            .collect();
        if five.len() < 60 {
            return format!("| {year} | {sum} | | | |");
        }
        let (all, rate) = (commas(five.iter().sum::<u64>()), accident_year_rate(&five));
        format!("| {year} | {sum} | {all} | {} | {rate} |", year + 1)
    });
    assert_table(&lines.collect::<Vec<_>>());
}

/// The long RATEs of the same months get the same answers.
#[test]
fn long_rates_give_the_same_figures() {
    let months = months();
    let mut with_long_rates = Vec::new();
    for record in RECORDS.lines().filter(|record| !record.starts_with("MIDT")) {
        let Some(year) = record.strip_prefix("RATE\t") else {
            with_long_rates.push(record.to_string());
            continue;
        };
        let year: u64 = year.parse().expect("a year");
        let rates = (year - 5..year).flat_map(|year| &months[&year]);
        let rates: Vec<String> = rates.map(u64::to_string).collect();
        with_long_rates.push(format!("{record} {}", rates.join(" ")));
    }
    // The first RATE of 2017 is the refused one.
    let refused = with_long_rates.len() - 5;
    with_long_rates.remove(refused);
    let records: Vec<&str> = with_long_rates.iter().map(String::as_str).collect();
    let mut output = output_of(&records);
    assert_eq!(output.pop().as_deref(), Some("DONE 10 0"));
    let figures = ANSWERS.lines().filter(|line| {
        !["MIDT", "NO", "DONE"]
            .iter()
            .any(|word| line.starts_with(word))
    });
    let figures: Vec<String> = figures.map(|line| line.replace('\t', " ")).collect();
    assert_eq!(output, figures);
}

#[test]
fn the_slip_is_in_record_86_alone() {
    let mut records = records();
    assert_eq!(records[70], "MIDT\t2015\t8\t163");
    assert_eq!(records[85], "MIDT\t2015\t8\t118");
    assert_eq!(records[91], "MIDT\t2016\t8\t118");
    records[85] = records[91];
    records.drain(90..92);
    let figures = ANSWERS.lines().filter(|line| !line.starts_with("NO"));
    let mut figures: Vec<String> = figures.map(|line| line.replace('\t', " ")).collect();
    let august = figures.remove(89);
    assert_eq!(august, "MIDT 2016 8 118");
    figures.insert(85, august);
    *figures.last_mut().expect("DONE") = "DONE 94 0".to_string();
    assert_eq!(output_of(&records), figures);
}

#[test]
fn a_wrong_rate_is_not_caught() {
    let mut records = records();
    assert_eq!(records[80], "MIDT\t2016\t3\t148");
    records[80] = "MIDT 2016 3 184";
    let output = output_of(&records);
    assert_eq!(output[92], "RATE 2017 135");
    assert!(TEXT.contains(&output[92]));
    records.truncate(81);
    records.push("MIDT 2016 3 148");
    assert_eq!(output_of(&records)[81], "NO 7");
}

#[test]
fn what_the_reader_is_told_to_try_is_answered_as_told() {
    let tried = ["MIDT 2016 8 118", "RATE 2018", "RATE 2014", "RATE 2017"];
    let output = output_of(&[&records()[..], &tried].concat());
    assert_eq!(
        output[96..],
        ["NO 7", "NO 14", "NO 14", "NO 7", "DONE 94 6"]
    );
}
