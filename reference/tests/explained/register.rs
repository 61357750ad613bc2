//! What is said of MIDT and of the short RATE: what is stored, from which months a
//! rate comes, which months are missing, and where a refused one fails.

use crate::common::{line, rate, repeated};
use crate::{check, check_record, last_part};

/// The MIDTs of some months of a year, at one rate.
fn months(year: u64, months: impl IntoIterator<Item = u64>) -> Vec<String> {
    let record = |month: u64| format!("MIDT {year} {month} 300");
    months.into_iter().map(record).collect()
}

/// The MIDTs of the five years before an accident year.
fn window(year: u64) -> Vec<String> {
    let years = year - 5..year;
    years.flat_map(|year| months(year, 1..=12)).collect()
}

/// What is said of a record after some others, all with spaces for tabs.
fn said(before: &[String], record: &str) -> String {
    let records = before.iter().map(String::as_str).chain([record]);
    last_part(&records.map(line).collect::<Vec<_>>())
}

/// All of this is said, whether it is cut into lines or not.
fn assert_said(said: &str, words: &[&str]) {
    let joined = said.replace('\n', " ");
    for words in words {
        let is_said = said.contains(words) || joined.contains(words);
        assert!(is_said, "{words:?} is not said:\n{said}");
    }
}

/// What is said of a refused record after these.
fn refused(before: &[String], record: &str, number: u8, words: &[&str]) {
    let before: Vec<&str> = before.iter().map(String::as_str).collect();
    check_record(&before, record, number, words);
}

#[test]
fn a_month_is_stored_for_the_years_that_take_it() {
    let said_of = |record: &str| said(&[], record);
    assert_said(
        &said_of("MIDT 1992 3 1400"),
        &[
            "MIDT 1992 3, accepted\n",
            "\nanswer: MIDT 1992 3 1400\n",
            "The register has the federal mid-term rate of March 1992, 14.00 percent, for good. \
             RATE 1993 to RATE 1997, given with their year alone, take it.",
        ],
    );
    assert_said(
        &said_of("MIDT 1982 1 5"),
        &["January 1982, 0.05 percent", "RATE 1987, given with its"],
    );
    let both = "RATE 1987 and RATE 1988, given with their year alone, take it.";
    assert_said(&said_of("MIDT 1983 1 5"), &[both]);
    assert_said(&said_of("MIDT 2098 12 0"), &["RATE 2099, given with its"]);
    for record in ["MIDT 1980 1 5", "MIDT 1981 12 5", "MIDT 2099 6 5"] {
        let nobody = "No RATE takes it, since accident years are 1987 to 2099.";
        assert_said(&said_of(record), &[nobody]);
    }
}

#[test]
fn a_month_that_comes_too_late_for_some_years_says_so() {
    let given = [rate(2015, 5), rate(2017, 5)];
    let late = "2015 and 2017 have their rate already, which stays.";
    assert_said(&said(&given, "MIDT 2012 1 7"), &[late]);
    let late = "2015 has its rate already, which stays.";
    assert_said(&said(&given, "MIDT 2011 1 7"), &[late]);
}

#[test]
fn the_last_month_of_a_year_says_so() {
    let mut given = window(2015);
    given.extend(months(2015, 1..=12));
    given.retain(|record| record != "MIDT 2012 6 300");
    let both = "The register has all sixty months of 2015 and 2016 now.";
    assert_said(&said(&given, "MIDT 2012 6 300"), &[both]);
    given.push(rate(2016, 5));
    let words = [
        "2016 has its rate already, which stays.",
        "The register has all sixty months of 2015 now.",
    ];
    assert_said(&said(&given, "MIDT 2012 6 300"), &words);
    let not_complete = said(&given[1..], "MIDT 2012 6 300");
    assert!(!not_complete.contains("all sixty months"), "{not_complete}");
}

#[test]
fn a_short_rate_says_from_which_months_it_comes() {
    let words = [
        "\nanswer: RATE 1987 300\n",
        "The sixty rates of the register from January 1982 to December 1986 sum to 18,000.",
        "Accident year 1987 is discounted at 3.00 percent",
        "\nrate: (18,000 + 30) / 60 = 300, rounded down\n",
    ];
    assert_said(&said(&window(1987), "RATE 1987"), &words);
}

#[test]
fn question_14_has_the_missing_months_in_words() {
    let asked = "Question 14: Has the register all sixty months of this RATE? No:";
    let mut given = window(1987);
    given.retain(|record| record != "MIDT 1983 3 300");
    let one = "RATE 1987 takes the months from January 1982 to December 1986, and the register \
        lacks 1 of the sixty: March 1983";
    let mend = "give a MIDT of that month before this line, or all sixty rates in this line";
    refused(&given, "RATE 1987", 14, &[asked, one, mend]);
    given.retain(|record| !months(1984, 7..=12).contains(record));
    let more = "lacks 7 of the sixty: March 1983, and July to December 1984";
    let mend = "give a MIDT of each of these months before this line";
    refused(&given, "RATE 1987", 14, &[asked, more, mend]);
    given.retain(|record| !months(1985, 1..=2).contains(record));
    given.retain(|record| record != "MIDT 1986 12 300");
    let across = "lacks 10 of the sixty: March 1983, July 1984 to February 1985, and December 1986";
    refused(&given, "RATE 1987", 14, &[across]);
    let none = "and the register has none of them";
    refused(
        &[],
        "RATE 2099",
        14,
        &["January 2094 to December 2098", none],
    );
}

/// Every second month: thirty runs, of which twelve are named.
#[test]
fn question_14_does_not_name_very_many_months() {
    let years = 1982..=1986;
    let every_second = |year| months(year, (1..=12).step_by(2));
    let given: Vec<String> = years.flat_map(every_second).collect();
    let named = "lacks 30 of the sixty: February 1982, April 1982, ";
    let rest = ", December 1983, and 18 more months";
    refused(&given, "RATE 1987", 14, &[named, rest]);
}

#[test]
fn question_14_has_the_refused_month() {
    let mut given = window(1987);
    given[14] = "MIDT 1983 03 300".to_string();
    let refused_month = "MIDT 1983 3 was refused in line 15, with NO 5: mend that first";
    refused(&given, "RATE 1987", 14, &["March 1983", refused_month]);
}

#[test]
fn question_9_has_the_refused_short_rate() {
    let before = ["LINE J 0".to_string(), "RATE 2015".to_string()];
    let hint = "RATE 2015 was refused in line 2, with NO 14: mend that first";
    refused(&before, "PATT J 2015 50 100 90 100", 9, &[hint]);
}

#[test]
fn question_7_has_the_line_and_the_rate_of_a_month() {
    let given = ["LINE J 0".to_string(), "MIDT 1982 1 1400".to_string()];
    let asked = "Is that line, that year's rate or that month's rate still to be given? No:";
    let place = "MIDT 1982 1 was given in line 2, at 14.00 percent, and stays as it is there";
    let same = "this line gives the same rate: delete it";
    refused(&given, "MIDT 1982 1 1400", 7, &[asked, place, same]);
    let other = "this line gives 13.99 percent: if that is right, mend line 2";
    refused(&given, "MIDT 1982 1 1399", 7, &[place, other]);
    let year = "RATE 2015 was given in line 1 and stays as it is there";
    refused(&[rate(2015, 5)], "RATE 2015", 7, &[year]);
}

#[test]
fn question_6_has_the_limits_of_the_register() {
    let year = "field 2 (column B), year: '1979', and 1980 to 2099 is allowed";
    check_record(&[], "MIDT 1979 1 5", 6, &[year]);
    let digits = "a year is written with four digits";
    check_record(&[], "MIDT 82 1 5", 6, &["year: '82'", digits]);
    let two_fields = "the year and its month are two fields";
    check_record(&[], "MIDT 198203 3 5", 6, &[two_fields]);
    let month = "field 3 (column C), month: 13, and 1 to 12 is allowed";
    let number = "a month is its number, 1 for January to 12 for December";
    check_record(&[], "MIDT 1982 13 5", 6, &[month, number]);
    check_record(&[], "MIDT 1982 0 5", 6, &["month: 0, and 1 to 12", number]);
    let exchanged = "the year stands before the month";
    check_record(&[], "MIDT 3 1982 5", 6, &["year: '3'", exchanged]);
    let rate = "field 4 (column D), rate: 2,501, and 0 to 2,500 is allowed";
    check_record(
        &[],
        "MIDT 1982 1 2501",
        6,
        &[rate, "hundredths of a percent"],
    );
    let accident_year = "accident year: '1986', and 1987 to 2099 is allowed";
    check_record(&[], "RATE 1986", 6, &[accident_year]);
}

#[test]
fn question_5_has_the_field_of_a_month() {
    let zero = "field 3 (column C), month: '01': a leading zero";
    check_record(&[], "MIDT 1982 01 5", 5, &[zero]);
    let letters = "field 3 (column C), month: 'Jan': 'J' is no digit";
    let number = "a month is its number, 1 for January";
    check_record(&[], "MIDT 1982 Jan 5", 5, &[letters, number]);
    let point = "field 4 (column D), rate: '14.00': a point";
    check_record(&[], "MIDT 1982 1 14.00", 5, &[point, "148 is 1.48 percent"]);
    let empty = "field 4 (column D), rate: '': the field is empty";
    check_record(&[], "MIDT 1982 1 ", 5, &[empty]);
    let windows = "the file has Windows line ends";
    check(
        &[],
        b"RATE\t2015\r",
        5,
        &["accident year: '2015\\r'", windows],
    );
}

#[test]
fn question_4_has_both_counts_of_a_rate() {
    let counts = "there are 3 fields, and a RATE has 62, or 2 with its year alone";
    let tab = "the last field is empty: a tab stands at the end of the line";
    check_record(&[], "RATE 2015 ", 4, &[counts, tab]);
    let ends = "or 2 with its year alone: it ends before field 2 (column B), accident year";
    check_record(&[], "RATE", 4, &["there is 1 field", ends]);
    let month = "a year, a month and one rate: a MIDT has these";
    check_record(&[], "RATE 1982 1 1400", 4, &["there are 4 fields", month]);
    let few = "it ends before field 62 (column BJ), rate of month 60";
    let rates = "59 rates where a RATE has sixty, or none";
    let short = format!("RATE 2015 {}", repeated("5", 59));
    check_record(&[], &short, 4, &["there are 61 fields", few, rates]);
    let many = format!("RATE 2015 {}", repeated("5", 61));
    let rates = "61 rates where a RATE has sixty, or none";
    check_record(&[], &many, 4, &["there are 63 fields", rates]);
    let none = "a RATE has sixty rates, or none: then those of the register count";
    check_record(&[], "RATE 2015 5", 4, &[counts, none]);
}

#[test]
fn question_4_has_the_count_of_a_month() {
    let counts = "and a MIDT has 4: it ends before field";
    check_record(&[], "MIDT", 4, &["there is 1 field", counts]);
    let year = "a year alone: a RATE has this, and a MIDT a month and its rate too";
    check_record(&[], "MIDT 1982", 4, &[counts, year]);
    let month = "a MIDT has a year, a month and one rate";
    check_record(&[], "MIDT 1982 1", 4, &[counts, month]);
    let tab = "the last field is empty: a tab stands at the end of the line";
    check_record(&[], "MIDT 1982 1 5 ", 4, &["and a MIDT has 4", tab]);
    let twelve = format!("MIDT 1982 {}", repeated("5", 12));
    let each = "a MIDT has the rate of one month: give a MIDT for each";
    check_record(&[], &twelve, 4, &["there are 14 fields", each]);
}

#[test]
fn question_2_knows_a_month_that_is_nearly_right() {
    let cases: [(&[u8], &str, &str); 4] = [
        (b"midt\t1982\t1\t5", "'midt'", "small letters: write MIDT"),
        (
            b"MIDT 1982 1 5",
            "'MIDT 1982 1 5'",
            "blanks stand where tabs",
        ),
        (b"RATE 2015", "'RATE 2015'", "blanks stand where tabs"),
        (
            b"MIDTERM\t1982",
            "'MIDTERM'",
            "a header row, a note or a word",
        ),
    ];
    for (refused, field, cause) in cases {
        let first = format!("the first field is {field}");
        check(&[], refused, 2, &[&first, cause]);
    }
}
