//! Exhibits 9, 10 and 11 of source document 000, run as PATT records with the
//! exhibits' own rates. Factors are in millionths, as printed in percent with
//! four decimals and as published by document 01's rules.

mod common;

use common::{answer, book_after, rate};
use reference::book::{Book, KeptPattern};
use reference::factor::published;
use reference::kinds::Letter;
use reference::stored_input::exhibits;

/// An age, the factor that the exhibit prints and the one of document 01's rules.
type Age = (usize, u64, u64);

/// Exhibit 9 gives percentages only; they are run as paid of 1,000,000.
const EXHIBIT_9: [Age; 2] = [(1, 991_071, 991_071), (2, 983_512, 983_512)];

const EXHIBIT_10: [Age; 10] = [
    (1, 803_944, 803_944),
    (2, 816_659, 816_659),
    (3, 830_660, 830_660),
    (4, 841_740, 841_740),
    (5, 854_281, 854_281),
    (6, 871_281, 871_281),
    (7, 890_399, 890_399),
    (8, 912_271, 912_271),
    (9, 941_800, 941_800),
    (10, 966_735, 966_736),
];

const EXHIBIT_11: [Age; 15] = [
    (1, 778_022, 778_022),
    (2, 787_611, 787_612),
    (3, 794_828, 794_829),
    (4, 803_644, 803_645),
    (5, 808_185, 808_187),
    (6, 803_309, 803_312),
    (7, 781_822, 781_827),
    (8, 774_718, 774_726),
    (9, 774_439, 774_449),
    (10, 799_988, 800_000),
    (11, 827_122, 827_127),
    (12, 856_177, 856_182),
    (13, 887_803, 887_807),
    (14, 923_385, 923_387),
    (15, 966_736, 966_736),
];

/// The book after the record of one exhibit, and the record's answer.
fn run_exhibit(letter: char, year: u64, exhibit_rate: u64, rows: &str) -> (Book, String) {
    let mut book = book_after(&[&format!("LINE {letter} 0"), &rate(year, exhibit_rate)]);
    let answer = answer(&mut book, &format!("PATT {letter} {year} {rows}"));
    (book, answer)
}

fn exhibit_9() -> (Book, String) {
    run_exhibit('J', 2015, 168, exhibits::EXHIBIT_9)
}

fn exhibit_10() -> (Book, String) {
    run_exhibit('B', 2011, 700, exhibits::EXHIBIT_10)
}

fn exhibit_11() -> (Book, String) {
    run_exhibit('H', 2011, 700, exhibits::EXHIBIT_11)
}

fn pattern(book: &Book, letter: &[u8]) -> KeptPattern {
    let letter = Letter::covered(letter).expect("a covered letter");
    book.lines[&letter].patterns[0].clone()
}

/// Our factors at every age of an exhibit are those of its table.
fn check_ours(kept: &KeptPattern, ages: &[Age]) {
    for (age, _, ours) in ages {
        assert_eq!(published(kept.factors.kept(*age)), *ours, "age {age}");
    }
}

/// How far our factor is above the printed one, at each age.
fn differences(ages: &[Age]) -> Vec<i64> {
    let difference = |(_, printed, ours): &Age| *ours as i64 - *printed as i64;
    ages.iter().map(difference).collect()
}

#[test]
fn exhibit_9_agrees_at_both_ages() {
    let (book, answer) = exhibit_9();
    assert_eq!(answer, "FACT J 2015 991071 983512 991704");
    check_ours(&pattern(&book, b"J"), &EXHIBIT_9);
    assert_eq!(differences(&EXHIBIT_9), [0, 0]);
}

#[test]
fn exhibit_10_agrees_but_for_age_10() {
    let (book, answer) = exhibit_10();
    let factors = "803944 816659 830660 841740 854281 871281 890399 912271 941800 966736";
    assert_eq!(answer, format!("FACT B 2011 {factors} 966736"));
    check_ours(&pattern(&book, b"B"), &EXHIBIT_10);
    assert_eq!(differences(&EXHIBIT_10), [0, 0, 0, 0, 0, 0, 0, 0, 0, 1]);
}

#[test]
fn exhibit_10_has_nothing_unpaid_after_age_11() {
    let (book, _) = exhibit_10();
    let kept = pattern(&book, b"B");
    assert_eq!(kept.pattern.payment(11), kept.pattern.unpaid(10));
    assert_eq!(kept.factors.composite(), kept.factors.kept(16));
}

#[test]
fn exhibit_11_rounds_loosely_between_ages_2_and_14() {
    let (book, answer) = exhibit_11();
    let factors = "778022 787612 794829 803645 808187 803312 781827 774726 774449 800000";
    assert_eq!(answer, format!("FACT H 2011 {factors} 875668"));
    check_ours(&pattern(&book, b"H"), &EXHIBIT_11);
    let expected = [0, 1, 1, 1, 2, 3, 5, 8, 10, 12, 5, 5, 4, 2, 0];
    assert_eq!(differences(&EXHIBIT_11), expected);
}

/// Exhibit 11 prints no composite. Its printed columns of ages 11 to 15 give
/// 25.26% discounted of 28.85% unpaid, 87.56%.
#[test]
fn exhibit_11_composite_is_near_that_of_its_printed_columns() {
    let (book, _) = exhibit_11();
    let discounted = 706 + 612 + 512 + 405 + 291;
    let unpaid = 853 + 715 + 577 + 439 + 301;
    let from_columns = 1_000_000 * discounted / unpaid;
    assert_eq!(from_columns, 875_563);
    let ours = published(pattern(&book, b"H").factors.composite());
    assert_eq!(ours - from_columns, 105);
}

/// The payment at each age in hundredths of a percent, rounded half up, as in
/// column 5 of an exhibit.
fn payments(kept: &KeptPattern, ages: usize) -> Vec<u64> {
    let hundredths = |age| (kept.pattern.payment(age) + 10_000) / 20_000;
    (1..=ages).map(hundredths).collect()
}

/// Column 5 prints 7.98% at age 5, where its columns 2 and 3 give 7.97497%.
#[test]
fn exhibit_10_prints_our_payments_but_for_age_5() {
    let (book, _) = exhibit_10();
    let mut printed = [3500, 1300, 1102, 1001, 798, 603, 493, 399, 298, 307, 200];
    printed[4] -= 1;
    assert_eq!(payments(&pattern(&book, b"B"), 11), printed);
}

#[test]
fn exhibit_11_prints_our_payments() {
    let (book, _) = exhibit_11();
    let printed = [
        833, 1667, 1500, 1217, 1093, 981, 833, 446, 300, 138, 138, 138, 138, 138, 138, 301,
    ];
    assert_eq!(payments(&pattern(&book, b"H"), 16), printed);
}

/// They are exhibit 11 with more paid for 2002, age 8.
#[test]
fn exhibits_12_and_13_have_a_ratio_that_falls() {
    for paid in ["68000", "69000"] {
        let rows = exhibits::EXHIBIT_11.replace("60000 70000", &format!("{paid} 70000"));
        assert_ne!(rows, exhibits::EXHIBIT_11);
        assert_eq!(run_exhibit('H', 2011, 700, &rows).1, "NO 12");
    }
}

const TEXT: &str = include_str!("../../examples/exhibits.md");

/// A factor in percent, as an exhibit prints it.
fn percent(factor: u64) -> String {
    format!("{}.{:04}%", factor / 10_000, factor % 10_000)
}

/// The line of an age in a table of `examples/exhibits.md`: an exhibit has a
/// row for each accident year of its Schedule P, and then for later years.
fn table_line(schedule: u64, (age, printed, ours): Age) -> String {
    let row = match age {
        1..=10 => (schedule + 1 - age as u64).to_string(),
        _ => format!("AY + {}", age - 1),
    };
    let (shown, book) = (percent(printed), percent(ours));
    match ours - printed {
        0 => format!("| {age} | {row} | {shown} | {book} | 0 |"),
        above => format!("| {age} | {row} | {shown} | {book} | +{above} |"),
    }
}

/// The table of an exhibit stands in the text.
fn check_table(ages: &[Age], schedule: u64, kept: &KeptPattern) {
    let lines = ages.iter().map(|age| table_line(schedule, *age));
    let composite = percent(published(kept.factors.composite()));
    let last = format!("| composite | | not printed | {composite} | |");
    let table: Vec<String> = lines.chain([last]).collect();
    assert!(TEXT.contains(&table.join("\n")), "{table:#?}");
}

#[test]
fn the_tables_of_the_example_are_these() {
    check_table(&EXHIBIT_9, 2013, &pattern(&exhibit_9().0, b"J"));
    check_table(&EXHIBIT_10, 2009, &pattern(&exhibit_10().0, b"B"));
    check_table(&EXHIBIT_11, 2009, &pattern(&exhibit_11().0, b"H"));
}

/// What source 000 writes beside exhibit 10: the cumulative ratio of 2001, and
/// two reserves.
#[test]
fn two_numbers_in_the_text_of_exhibit_10_are_wrong() {
    assert_eq!(common::ratio(300_000, 316_000), 94_936_709);
    assert_eq!(common::discounted(450_000, 0, 803_944), 361_775);
    assert_eq!(common::discounted(350_000, 0, 816_659), 285_831);
}
