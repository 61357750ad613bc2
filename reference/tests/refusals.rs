//! Each refusal number from a book in which only that question has a "no", and
//! the order of the questions.

mod common;

use common::{answer, book_after, flat_pattern, rate, repeated};
use reference::book::Book;

/// A record that is refused and one near it that the same book accepts.
struct Case {
    number: u8,
    refused: String,
    accepted: String,
}

/// Line J with a pattern of 2015, not closed; a rate for 2015 and 2016; the months
/// of 2012 to 2016, which RATE 2017 takes.
fn book() -> Book {
    let mut book = book_after(&[
        "LINE J 0",
        &rate(2015, 500),
        &rate(2016, 700),
        "PATT J 2015 50 100 90 100",
    ]);
    for place in 0..60 {
        let record = format!("MIDT {} {} 5", 2012 + place / 12, 1 + place % 12);
        assert_eq!(answer(&mut book, &record), record);
    }
    book
}

fn case(number: u8, refused: &str, accepted: &str) -> Case {
    Case {
        number,
        refused: refused.to_string(),
        accepted: accepted.to_string(),
    }
}

fn cases_of_reading() -> Vec<Case> {
    let sixty = repeated("5", 60);
    vec![
        // "No accepted record can have more than 418 bytes": a later question
        // has a no too.
        case(1, &format!("LINE K {}", "1".repeat(412)), "LINE K 1"),
        case(
            2,
            &format!("rate 2017 {sixty}"),
            &format!("RATE 2017 {sixty}"),
        ),
        case(3, "LINE M 1", "LINE K 1"),
        case(3, "PATT U 2016 1 2 1 2", "PATT J 2016 1 2 1 2"),
        case(
            4,
            &format!("RATE 2017 {sixty} 5"),
            &format!("RATE 2017 {sixty}"),
        ),
        case(4, "PATT J 2016 1 2 1 2 1 2", "PATT J 2016 1 2 1 2"),
        case(
            4,
            "YEAR J 2015 0 0 0 0 0 0 0 0",
            "YEAR J 2015 0 0 0 0 0 0 0 0 0",
        ),
        case(5, "LINE K 01", "LINE K 1"),
        case(
            5,
            "YEAR J 2015 0 0 0 0 0 0 0 0 -1",
            "YEAR J 2015 0 0 0 0 0 0 -1 0 0",
        ),
        case(6, &rate(2017, 2501), &rate(2017, 2500)),
        case(6, "LINE K 100000000001", "LINE K 100000000000"),
    ]
}

fn cases_of_sums() -> Vec<Case> {
    vec![
        case(1, &format!("SUM J {}", "1".repeat(413)), "SUM J"),
        case(2, "sum J", "SUM J"),
        case(2, "SUMS J", "SUM J"),
        case(2, "SU J", "SUM J"),
        case(3, "SUM", "SUM J"),
        case(3, "SUM ", "SUM J"),
        case(3, "SUM M", "SUM J"),
        case(3, "SUM j", "SUM J"),
        case(3, "SUM JJ", "SUM J"),
        case(3, "SUM 2015", "SUM J"),
        case(4, "SUM J ", "SUM J"),
        case(4, "SUM J 2015", "SUM J"),
        case(8, "SUM K", "SUM J"),
    ]
}

fn cases_of_reading_the_register() -> Vec<Case> {
    let month = "MIDT 2017 1 5";
    let pairs = [
        (2, "midt 2017 1 5", month),
        (2, "MIDTS 2017 1 5", month),
        (2, "MID 2017 1 5", month),
        (2, "Rate 2017", "RATE 2017"),
        (4, "MIDT", month),
        (4, "MIDT 2017 1", month),
        (4, "MIDT 2017 1 5 ", month),
        (4, "MIDT J 2017 1 5", month),
        (4, "RATE", "RATE 2017"),
        (4, "RATE 2017 ", "RATE 2017"),
        (4, "RATE 2017 5", "RATE 2017"),
        (5, "MIDT J 1 5", month),
        (5, "MIDT 2017 01 5", month),
        (5, "MIDT 2017 1 -5", month),
        (5, "MIDT 2017 1 ", "MIDT 2017 1 0"),
        (5, "RATE 02017", "RATE 2017"),
        (5, "RATE ", "RATE 2017"),
        (6, "MIDT 1979 1 5", "MIDT 1980 1 5"),
        (6, "MIDT 2100 1 5", "MIDT 2099 1 5"),
        (6, "MIDT 2017 0 5", month),
        (6, "MIDT 2017 13 5", "MIDT 2017 12 5"),
        (6, "MIDT 2017 1 2501", "MIDT 2017 1 2500"),
        (6, "RATE 1986", "RATE 2017"),
        (6, "RATE 2100", "RATE 2017"),
    ];
    let cases = pairs.map(|(number, refused, accepted)| case(number, refused, accepted));
    cases.into()
}

fn cases_of_the_register() -> Vec<Case> {
    let month = "MIDT 2017 1 5";
    vec![
        case(1, &format!("MIDT 2017 1 {}", "1".repeat(407)), month),
        case(1, &format!("RATE {}", "1".repeat(414)), "RATE 2017"),
        case(7, "MIDT 2016 12 5", month),
        case(7, "MIDT 2012 1 6", "MIDT 2011 12 6"),
        case(7, "RATE 2016", "RATE 2017"),
        case(7, "RATE 2015", "RATE 2017"),
        case(14, "RATE 2018", "RATE 2017"),
        case(14, "RATE 2014", "RATE 2017"),
        case(14, "RATE 2099", "RATE 2017"),
        case(14, "RATE 1987", "RATE 2017"),
    ]
}

fn cases_of_the_book() -> Vec<Case> {
    vec![
        case(7, "LINE J 0", "LINE K 0"),
        case(7, &rate(2016, 5), &rate(2017, 5)),
        case(8, "PATT K 2016 1 2 1 2", "PATT J 2016 1 2 1 2"),
        case(
            8,
            "YEAR K 2015 0 0 0 0 0 0 0 0 0",
            "YEAR J 2015 0 0 0 0 0 0 0 0 0",
        ),
        case(9, "PATT J 2017 1 2 1 2", "PATT J 2016 1 2 1 2"),
        case(10, "PATT J 2015 1 2 1 2", "PATT J 2016 1 2 1 2"),
        case(
            10,
            "YEAR J 2016 0 0 0 0 0 0 0 0 0",
            "YEAR J 2015 0 0 0 0 0 0 0 0 0",
        ),
        case(11, "PATT J 2016 1 2 3 2", "PATT J 2016 1 2 2 2"),
        case(11, "PATT J 2016 0 0 1 2", "PATT J 2016 0 1 1 2"),
        case(
            12,
            "PATT J 2016 2 3 66666666 100000000",
            "PATT J 2016 2 3 66666667 100000000",
        ),
        case(
            13,
            "YEAR J 2015 0 0 0 0 1 0 0 0 0",
            "YEAR J 2015 0 1 0 0 0 0 0 0 0",
        ),
        case(
            13,
            "YEAR J 2015 0 0 0 0 0 1 0 0 0",
            "YEAR J 2015 0 0 1 -9 0 0 0 1 1",
        ),
    ]
}

#[test]
fn each_refusal_leaves_the_state_and_its_neighbour_is_accepted() {
    let cases: Vec<Case> = cases_of_reading()
        .into_iter()
        .chain(cases_of_sums())
        .chain(cases_of_reading_the_register())
        .chain(cases_of_the_register())
        .chain(cases_of_the_book())
        .collect();
    for number in 1..=14 {
        assert!(cases.iter().any(|case| case.number == number));
    }
    for case in cases {
        let before = book();
        let mut after = before.clone();
        let refusal = answer(&mut after, &case.refused);
        assert_eq!(refusal, format!("NO {}", case.number), "{}", case.refused);
        let expected = Book {
            refused: before.refused + 1,
            ..before
        };
        assert_eq!(after, expected);
        let accepted = answer(&mut after, &case.accepted);
        assert!(!accepted.starts_with("NO"), "{}: {accepted}", case.accepted);
        assert_eq!(after.accepted, expected.accepted + 1);
        assert_eq!(after.refused, expected.refused);
    }
}

/// The lower number is answered where two questions have a "no".
#[test]
fn the_questions_come_in_their_order() {
    let sixty_past = repeated("2501", 60);
    let cases = [
        (2, "LINEAR".to_string()),
        (3, "LINE".to_string()),
        (3, "YEAR M 1".to_string()),
        (3, "PATT".to_string()),
        (4, "RATE".to_string()),
        (5, "RATE M".to_string()),
        (4, "RATE M ".to_string()),
        (4, "LINE K 01 01".to_string()),
        (4, "PATT J 1986 1 2 x".to_string()),
        (5, "PATT J 1986 1 2 1 02".to_string()),
        (5, "YEAR J 2015 99999999999 0 0 0 0 0 0 0 -1".to_string()),
        (6, format!("RATE 2015 {sixty_past}")),
        (6, "LINE J 100000000001".to_string()),
        (6, "PATT K 2100 1 2 1 2".to_string()),
        (8, "PATT K 2017 2 1 1 2".to_string()),
        (8, "YEAR K 2099 0 1 0 0 1 0 0 1 0".to_string()),
        (9, "PATT J 2099 2 1 1 2".to_string()),
        (10, "PATT J 2015 2 1 1 2".to_string()),
        (10, "YEAR J 2016 0 1 0 0 1 0 0 1 0".to_string()),
        (11, "PATT J 2016 2 2 2 0".to_string()),
        (11, "PATT J 2016 3 2 1 2".to_string()),
        (1, format!("SUMS M {}", "1".repeat(412))),
        (2, "SUMS M 1".to_string()),
        (2, "SUM\r M 1".to_string()),
        (3, "SUM M ".to_string()),
        (3, "SUM  K".to_string()),
        (4, "SUM K ".to_string()),
        (4, "SUM K 2015".to_string()),
        (8, "SUM K".to_string()),
    ];
    for (number, record) in cases {
        assert_eq!(
            answer(&mut book(), &record),
            format!("NO {number}"),
            "{record}"
        );
    }
}

/// Every number is looked at by question 5 before any by question 6.
#[test]
fn question_5_is_put_to_all_numbers_before_question_6_to_any() {
    let first_past_last_bad = format!("RATE 1986 {} 05", repeated("2501", 59));
    assert_eq!(answer(&mut book(), &first_past_last_bad), "NO 5");
    let first_bad_last_past = format!("RATE 02017 {} 2501", repeated("5", 59));
    assert_eq!(answer(&mut book(), &first_bad_last_past), "NO 5");
}

#[test]
fn ten_and_two_year_lines_have_their_own_field_counts() {
    let mut book = book_after(&["LINE A 0", "LINE J 0", &rate(2015, 500)]);
    for count in 1..40 {
        let zeros = repeated("0", count);
        // With the right count of zeros a PATT has incurred 0, and a YEAR comes
        // before any pattern.
        for (start, right_count, number) in [
            ("PATT A 2015", 20, 11),
            ("PATT J 2015", 4, 11),
            ("YEAR A 2015", 33, 10),
            ("YEAR J 2015", 9, 10),
        ] {
            let expected = if count == right_count { number } else { 4 };
            let answer = answer(&mut book, &format!("{start} {zeros}"));
            assert_eq!(answer, format!("NO {expected}"));
        }
    }
}

/// RATE 2015 has a rate and lacks months, MIDT 2016 12 is given.
#[test]
fn the_questions_of_the_register_come_in_their_order() {
    let long = format!("MIDTS 1979 {}", "1".repeat(412));
    for (number, record) in [
        (1, long.as_str()),
        (2, "MIDTS 1979 13"),
        (4, "MIDT 1979 01"),
        (4, "RATE 1986 x"),
        (5, "MIDT 1979 01 2501"),
        (5, "RATE 01986"),
        (6, "MIDT 2016 12 2501"),
        (6, "RATE 1986"),
        (7, "MIDT 2016 12 2500"),
        (7, "RATE 2015"),
        (14, "RATE 2018"),
    ] {
        let expected = format!("NO {number}");
        assert_eq!(answer(&mut book(), record), expected, "{record}");
    }
}

#[test]
fn question_10_for_a_pattern() {
    let mut book = book_after(&["LINE J 0"]);
    for year in 2010..=2016 {
        answer(&mut book, &rate(year, 500));
    }
    let pattern = |year| flat_pattern('J', year, "1 2");
    let close = |year: u64| format!("YEAR J {year} {}", repeated("0", 9));
    // The first pattern may be of any year with a rate; then each next year.
    assert!(answer(&mut book, &pattern(2012)).starts_with("FACT"));
    assert_eq!(answer(&mut book, &pattern(2011)), "NO 10");
    assert_eq!(answer(&mut book, &pattern(2012)), "NO 10");
    assert_eq!(answer(&mut book, &pattern(2014)), "NO 10");
    // No year is closed, so the last one need not be.
    assert!(answer(&mut book, &pattern(2013)).starts_with("FACT"));
    assert_eq!(answer(&mut book, &close(2012)), "NO 10");
    assert!(answer(&mut book, &close(2013)).starts_with("TAX"));
    assert_eq!(answer(&mut book, &close(2013)), "NO 10");
    assert!(answer(&mut book, &pattern(2014)).starts_with("FACT"));
    // Now some year is closed and 2014 is not.
    assert_eq!(answer(&mut book, &pattern(2015)), "NO 10");
    assert!(answer(&mut book, &close(2014)).starts_with("TAX"));
    assert!(answer(&mut book, &pattern(2015)).starts_with("FACT"));
}

#[test]
fn a_line_without_a_pattern_cannot_close_a_year() {
    let mut book = book_after(&["LINE J 0", &rate(2015, 500)]);
    let close = format!("YEAR J 2015 {}", repeated("0", 9));
    assert_eq!(answer(&mut book, &close), "NO 10");
}

/// The prior row takes the composite of the year's own pattern, so question 13
/// is not put to it.
#[test]
fn the_prior_row_needs_no_older_pattern() {
    let tax = answer(&mut book(), "YEAR J 2015 0 0 0 0 0 0 0 1000 0");
    assert_eq!(tax, "TAX J 2015 0 0 976 976");
}

#[test]
fn lines_keep_their_patterns_apart() {
    let mut book = book();
    answer(&mut book, "LINE K 0");
    let close = format!("YEAR K 2015 {}", repeated("0", 9));
    assert_eq!(answer(&mut book, &close), "NO 10");
    assert!(answer(&mut book, "PATT K 2016 1 2 1 2").starts_with("FACT K 2016"));
    assert_eq!(answer(&mut book, &close), "NO 10");
    let with_gross = "YEAR K 2016 0 0 0 0 1 0 0 0 0";
    assert_eq!(answer(&mut book, with_gross), "NO 13");
}
