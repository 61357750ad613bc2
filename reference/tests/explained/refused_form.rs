//! Refused records, questions 1 to 6: each names the place where it fails.

use crate::common::{flat_pattern, line, rate, repeated};
use crate::{check, check_record, last_part};

#[test]
fn question_1_has_the_length() {
    let bytes = "the line has 419 bytes, and 418 are allowed";
    check(&[], &[b'x'; 419], 1, &[bytes, "a header row"]);
    let two = b"LINE\tA\t0 ".repeat(120);
    check(
        &[],
        &two,
        1,
        &["1,080 bytes", "more than one record stands in the line"],
    );
    let mut padded = line("LINE A 0");
    padded.resize(1_100, b'\t');
    let count = "question 4 would refuse it too: there are 1,095 fields, and a LINE has 3";
    check(
        &[],
        &padded,
        1,
        &[
            count,
            "the last 1,092 fields are empty: tabs or empty columns",
        ],
    );
    let returns = b"LINE\tA\t0\r".repeat(120);
    check(&[], &returns, 1, &["carriage returns stand in it"]);
}

/// The longest record has 418 bytes, so something in a longer one is wrong.
#[test]
fn question_1_has_what_a_later_question_would_say() {
    let year = |number: &str| {
        let row = format!("{number} {number} 0");
        format!("YEAR A 2015 {}", repeated(&row, 11))
    };
    let zeros = "question 5 would refuse it too: field 4 (column D), paid of age 1: \
        '00000000000000000001': a leading zero; and 21 more places";
    let numbers = "00000000000000000001";
    check_record(&[], &year(numbers), 1, &["495 bytes", zeros]);
    let dollars = "question 6 would refuse it too: field 4 (column D), paid of age 1: \
        25,000,000,000,000,000, and";
    let numbers = "25000000000000000";
    let hint = "perhaps these are dollars";
    check_record(&[], &year(numbers), 1, &["429 bytes", dollars, hint]);
    let wide: Vec<u8> = rate(2015, 2_100).bytes().flat_map(|b| [b, 0]).collect();
    check(&[], &wide, 1, &["618 bytes", "saved as UTF-16"]);
}

#[test]
fn question_2_has_the_first_field_and_a_likely_cause() {
    let cases: [(&[u8], &str, &str); 14] = [
        (b"LINE A 0", "'LINE A 0'", "blanks stand where tabs"),
        (b"LINE,A,0", "'LINE,A,0'", "commas stand where tabs"),
        (b"LINE;A;0", "'LINE;A;0'", "semicolons stand where tabs"),
        (b"line\tA\t0", "'line'", "small letters: write LINE"),
        (b"\"LINE\"\t\"A\"\t0", "'\"LINE\"'", "quotes: "),
        (
            b"\xef\xbb\xbfLINE\tA\t0",
            "'\\xef\\xbb\\xbfLINE'",
            "a byte order mark",
        ),
        (
            b"\xff\xfeL\0I\0N\0E\0",
            "'\\xff\\xfeL\\x00I",
            "saved as UTF-16",
        ),
        (b" LINE\tA\t0", "' LINE'", "a blank stands before the word"),
        (b"LINE \tA\t0", "'LINE '", "' ' stands after the word"),
        (b"LINE\r", "'LINE\\r'", "'\\r' stands after the word"),
        (b"", "''", "the line is empty"),
        (
            b"\r",
            "'\\r'",
            "an empty line of a file with Windows line ends",
        ),
        (b"Record\tLetter", "'Record'", "a header row"),
        (b"FACT\tA\t2015", "'FACT'", "an answer of the book"),
    ];
    for (refused, field, cause) in cases {
        check(
            &[],
            refused,
            2,
            &[&format!("the first field is {field}"), cause],
        );
    }
}

#[test]
fn question_3_has_the_second_field_and_a_likely_cause() {
    let cases: [(&[u8], &str, &str); 6] = [
        (b"LINE\tj\t0", "'j'", "write the capital letter alone: J"),
        (b"LINE\tJ \t0", "'J '", "write the capital letter alone: J"),
        (
            b"LINE\t\"J\"\t0",
            "'\"J\"'",
            "write the capital letter alone: J",
        ),
        (
            b"LINE\tM\t0",
            "'M'",
            "covered are A B C D E F G H R and I J K L S T",
        ),
        (
            b"PATT\t2015\tJ",
            "'2015'",
            "the letter stands before the year",
        ),
        (b"LINE\t\t0", "''", "the field is empty"),
    ];
    for (refused, field, cause) in cases {
        check(
            &[],
            refused,
            3,
            &[&format!("the second field is {field}"), cause],
        );
    }
    check(&[], b"LINE", 3, &["there is no second field"]);
}

#[test]
fn question_4_has_both_counts() {
    let tab = "the last field is empty: a tab stands at the end";
    check_record(
        &[],
        "LINE A 0 ",
        4,
        &["there are 4 fields, and a LINE has 3", tab],
    );
    let padded = "the last 3 fields are empty";
    check_record(&[], "LINE A 0   ", 4, &["there are 6 fields", padded]);
    check(&[], b"LINE\tA\t0\t\r", 4, &[tab]);
    check_record(&[], "LINE A  0", 4, &["1 empty field before the last"]);
    let ends =
        "a PATT of a two-year line has 7: it ends before field 7 (column G), incurred of age 2";
    check_record(&[], "PATT J 2015 1 2 1", 4, &["there are 6 fields", ends]);
    let other = flat_pattern('A', 2015, "1 2")
        .replacen('A', "J", 2)
        .replacen("PJTT", "PATT", 1);
    let counts = "there are 23 fields, and a PATT of a two-year line has 7";
    let kind = "it is the count of the other kind of line";
    check_record(&[], &other, 4, &[counts, kind]);
    let blanks = "blanks stand in a field";
    check(
        &[],
        b"RATE\t2015\t5 5 5",
        4,
        &["and a RATE has 62, or 2", blanks],
    );
}

/// A PATT of J with one of its fields written otherwise.
fn pattern_with(field: &[u8]) -> Vec<u8> {
    [b"PATT\tJ\t2015\t50\t100\t90\t", field].concat()
}

#[test]
fn question_5_has_the_field_and_what_is_wrong() {
    let cases: [(&[u8], &str); 18] = [
        (b"100\r", "'100\\r': a carriage return"),
        (b"100\r", "the file has Windows line ends"),
        (b"1,000", "'1,000': a comma"),
        (b"0100", "'0100': a leading zero"),
        (b"", "'': the field is empty"),
        (
            b"-5",
            "'-5': a minus sign, which only a paid in YEAR may have",
        ),
        (b"\"100\"", "'\"100\"': quotes"),
        (b"1.5", "'1.5': a point"),
        (b"1.5", "money is in whole thousands of dollars"),
        (b"$5", "'$5': a dollar sign"),
        (b"5%", "'5%': a percent sign"),
        (b"(5)", "'(5)': brackets"),
        (b"+5", "'+5': a plus sign"),
        (b" 5", "' 5': a blank"),
        (b"$1,000\r", "a carriage return, a comma, a dollar sign"),
        (b"1e3", "'1e3': 'e' is no digit"),
        (b"5\xa0", "'5\\xa0': '\\xa0' is no digit"),
        (b"n/a", "'n/a': 'n' is no digit"),
    ];
    for (field, said) in cases {
        let place = "field 7 (column G), incurred of age 2: ";
        check(&[], &pattern_with(field), 5, &[place, said]);
    }
}

#[test]
fn question_5_has_every_field_that_is_wrong() {
    let year = |paid: &str| format!("YEAR J 2015 {paid} 0 0 0 0 0 {paid} 0 0");
    for (paid, said) in [
        ("-0", "'-0': a minus sign before 0"),
        ("-", "'-': a minus sign alone"),
        ("-05", "'-05': a leading zero"),
        ("--5", "'--5': '-' is no digit"),
    ] {
        let places = [
            "field 4 (column D), paid of age 1",
            "field 10 (column J), paid of the prior row",
        ];
        check_record(&[], &year(paid), 5, &[places[0], places[1], said]);
    }
}

#[test]
fn question_6_has_the_value_and_its_limits() {
    let limits =
        "field 4 (column D), paid of age 1: 10,000,000,001, and 0 to 10,000,000,000 is allowed";
    let dollars = "perhaps these are dollars";
    check_record(&[], "PATT J 2015 10000000001 1 1 1", 6, &[limits, dollars]);
    let short = "field 3 (column C), accident year: '15', and 1987 to 2099 is allowed";
    check_record(
        &[],
        "PATT J 15 1 1 1 1",
        6,
        &[short, "a year is written with four digits"],
    );
    let opening = "field 3 (column C), opening: 100,000,000,001, and 0 to 100,000,000,000 is";
    check_record(&[], "LINE J 100000000001", 6, &[opening]);
    let paid = "field 4 (column D), paid of age 1: -10,000,000,001, and -10,000,000,000 to";
    check_record(&[], "YEAR J 2015 -10000000001 0 0 0 0 0 0 0 0", 6, &[paid]);
    let month = "field 62 (column BJ), rate of month 60: 2,501, and 0 to 2,500 is allowed";
    let last = format!("RATE 2015 {} 2501", repeated("5", 59));
    check_record(&[], &last, 6, &[month, "hundredths of a percent"]);
    let many = format!("LINE J {}", "9".repeat(400));
    check_record(
        &[],
        &many,
        6,
        &["'999999999999999999999999999999' .. (400 bytes)"],
    );
}

#[test]
fn at_most_ten_places_are_shown() {
    let part = last_part(&[line(&rate(2015, 2_501))]);
    assert_eq!(part.matches("\n- field ").count(), 10);
    assert!(part.contains("\n- and 50 more\n"));
}
