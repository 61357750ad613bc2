//! Kept factors and composites with all ten decimals, as the proved program
//! `test_factors` prints them: the same patterns, worked out here.

use reference::factor::Factors;
use reference::kinds::{LineKind, HIGHEST_AMOUNT, HIGHEST_RATE};
use reference::pattern::{cumulative_ratio, CumulativeRow, Pattern};

/// The output that is stored with the program.
const STORED: &str = include_str!("../../crates/test_factors/stdout");

/// The program's own list of given patterns.
const CASES: &str = include_str!("../../crates/test_factors/src/cases.rt");

/// The numbers of one of the program's two constant lists.
fn numbers(name: &str) -> Vec<u64> {
    let start = CASES.find(&format!("const {name}:")).expect("the list");
    let list = &CASES[start..];
    let from = list.find("= [").expect("its start") + 3;
    let to = list.find("];").expect("its end");
    let fields = list[from..to].split(',').map(str::trim);
    let fields = fields.filter(|field| !field.is_empty());
    fields
        .map(|field| field.parse().expect("a number"))
        .collect()
}

/// The first of questions 6, 11 and 12 that is answered no, or 0.
fn question(rows: &[CumulativeRow]) -> u64 {
    let large = |row: &CumulativeRow| row.paid > HIGHEST_AMOUNT || row.incurred > HIGHEST_AMOUNT;
    if rows.iter().any(large) {
        return 6;
    }
    if rows
        .iter()
        .any(|row| row.incurred == 0 || row.paid > row.incurred)
    {
        return 11;
    }
    let ratios: Vec<u64> = rows.iter().map(|row| cumulative_ratio(*row)).collect();
    if !ratios.is_sorted() {
        return 12;
    }
    0
}

/// The program's line: the rate, the question, ten factors, the composite; of a
/// number that is no rate, the question alone.
fn line(kind: LineKind, rate: u64, paid: &[u64], incurred: &[u64]) -> String {
    if rate > HIGHEST_RATE {
        return format!("{rate} 6");
    }
    let pairs = paid.iter().zip(incurred);
    let rows: Vec<CumulativeRow> = pairs
        .map(|(paid, incurred)| CumulativeRow {
            paid: *paid,
            incurred: *incurred,
        })
        .collect();
    let question = question(&rows);
    let mut fields = vec![rate, question];
    if question == 0 {
        let ratios: Vec<u64> = rows.iter().map(|row| cumulative_ratio(*row)).collect();
        let pattern = Pattern::new(kind, &ratios);
        let factors = Factors::new(kind, &pattern, rate);
        fields.extend((1..=kind.ages()).map(|age| factors.kept(age)));
        fields.resize(12, 0);
        fields.push(factors.composite());
    } else {
        fields.resize(13, 0);
    }
    let texts: Vec<String> = fields.iter().map(u64::to_string).collect();
    texts.join(" ")
}

fn given(kind: LineKind, name: &str) -> Vec<String> {
    let ages = kind.ages();
    let numbers = numbers(name);
    let cases = numbers.chunks(1 + 2 * ages);
    cases
        .map(|case| line(kind, case[0], &case[1..=ages], &case[1 + ages..]))
        .collect()
}

/// The program's linear congruential generator.
fn next(state: &mut u64) -> u64 {
    *state = (*state * 1_103_515_245 + 12_345) % 2_147_483_648;
    *state
}

fn random_ten_year() -> Vec<String> {
    let mut state = 1987;
    let mut lines = Vec::new();
    for _ in 0..100 {
        let rate = next(&mut state) % 2501;
        let (mut paid, mut incurred, mut share) = (Vec::new(), Vec::new(), 0);
        for _ in 0..10 {
            share += next(&mut state) % 90_000;
            let amount = 1_000_000 + next(&mut state) % 9_000_000;
            incurred.push(amount);
            paid.push(amount * share / 1_000_000);
        }
        lines.push(line(LineKind::TenYear, rate, &paid, &incurred));
    }
    lines
}

fn random_two_year() -> Vec<String> {
    let mut state = 2099;
    let mut lines = Vec::new();
    for _ in 0..50 {
        let rate = next(&mut state) % 2501;
        let first = next(&mut state) % 600_000;
        let second = first + next(&mut state) % 400_000;
        let paid = [5 * first, 7 * second];
        lines.push(line(
            LineKind::TwoYear,
            rate,
            &paid,
            &[5_000_000, 7_000_000],
        ));
    }
    lines
}

#[test]
fn kept_factors_are_those_of_the_proved_program() {
    let mut lines = given(LineKind::TenYear, "TEN_YEAR");
    lines.extend(given(LineKind::TwoYear, "TWO_YEAR"));
    lines.extend(random_ten_year());
    lines.extend(random_two_year());
    let stored: Vec<&str> = STORED.lines().collect();
    assert_eq!(stored.len(), lines.len());
    for (place, line) in lines.iter().enumerate() {
        assert_eq!(stored[place], line, "line {}", place + 1);
    }
}
