//! Refused records, questions 7 to 13: each names the place where it fails. The
//! end lists them all.

use reference::explain::explain;
use reference::explain::report::Block;
use reference::explain::text::text;
use reference::stored_input::NAMES;

use crate::check_record;
use crate::common::{rate, repeated, stored};

#[test]
fn question_7_has_the_line_in_which_it_was_given() {
    let before = ["LINE J 0", &rate(2015, 5)];
    check_record(&before, "LINE J 1", 7, &["LINE J was given in line 1"]);
    check_record(
        &before,
        &rate(2015, 6),
        7,
        &["RATE 2015 was given in line 2"],
    );
}

#[test]
fn question_8_has_the_letter_and_the_refused_line() {
    let pattern = "PATT J 2015 50 100 90 100";
    let none = "no LINE has declared line J (auto physical damage, a two-year line)";
    check_record(&[], pattern, 8, &[none]);
    let refused = "Hint: LINE J was refused in line 1, with NO 5: mend that first";
    check_record(&["LINE J 1,000"], pattern, 8, &[none, refused]);
    let by_letter = "Hint: LINE J was refused in line 1, with NO 3";
    check_record(
        &["LINE j 0"],
        &format!("YEAR J 2015 {}", repeated("0", 9)),
        8,
        &[by_letter],
    );
    let by_word = "Hint: LINE J was refused in line 1, with NO 2";
    check_record(&["line J 0"], pattern, 8, &[by_word]);
}

#[test]
fn question_9_has_the_year_and_the_refused_line() {
    let pattern = "PATT J 2015 50 100 90 100";
    let none = "no RATE of accident year 2015 was accepted before this line";
    check_record(&["LINE J 0"], pattern, 9, &[none]);
    let refused = "Hint: RATE 2015 was refused in line 2, with NO 6: mend that first";
    check_record(
        &["LINE J 0", &rate(2015, 2_501)],
        pattern,
        9,
        &[none, refused],
    );
}

#[test]
fn question_10_has_what_is_in_turn() {
    let (first, second) = (rate(2015, 5), rate(2016, 5));
    let declared = ["LINE J 0", &first, &second, &rate(2017, 5)];
    let pattern = |year: u64| format!("PATT J {year} 50 100 90 100");
    let year = |year: u64| format!("YEAR J {year} {}", repeated("0", 9));
    check_record(
        &declared,
        &year(2015),
        10,
        &["no pattern yet: in turn is PATT J 2015"],
    );
    let mut before: Vec<&str> = declared.to_vec();
    let pattern_of_2015 = pattern(2015);
    before.push(&pattern_of_2015);
    let again = "line J has the pattern of 2015: in turn is PATT J 2016";
    check_record(&before, &pattern(2015), 10, &[again]);
    let left_out = "the last pattern of line J is of 2015: in turn is PATT J 2016";
    check_record(&before, &pattern(2017), 10, &[left_out]);
    let other = "of 2015, which is not closed: in turn is YEAR J 2015";
    check_record(&before, &year(2016), 10, &[other]);
    let year_of_2015 = year(2015);
    before.push(&year_of_2015);
    let closed = "2015, the year of the last pattern of line J, is closed: in turn is PATT J 2016";
    check_record(&before, &year(2015), 10, &[closed]);
    before.push("PATT J 2016 50 100 101 100");
    let refused = "Hint: PATT J 2016 was refused in line 7, with NO 11: mend that first";
    check_record(&before, &year(2016), 10, &[closed, refused]);
    let pattern_of_2016 = pattern(2016);
    before.push(&pattern_of_2016);
    let open =
        "line J has closed 2015, and 2016, its last pattern, is not closed: in turn is YEAR J 2016";
    check_record(&before, &pattern(2017), 10, &[open]);
}

/// A PATT that was refused shows in the YEAR of a later year too, also while no
/// year is closed.
#[test]
fn question_10_of_a_year_has_the_refused_pattern_before_it() {
    let (first, second) = (rate(2015, 5), rate(2016, 5));
    let pattern = "PATT J 2015 50 100 90 100";
    let refused = "PATT J 2016 50 100 101 100";
    let before = ["LINE J 0", &first, &second, pattern, refused];
    let year = format!("YEAR J 2016 {}", repeated("0", 9));
    let hint = "Hint: PATT J 2016 was refused in line 5, with NO 11: mend that first";
    let open = "of 2015, which is not closed: in turn is YEAR J 2015";
    check_record(&before, &year, 10, &[open, hint]);
}

/// A declared line J with a rate of 2015.
fn declared() -> [String; 2] {
    ["LINE J 0".to_string(), rate(2015, 5)]
}

#[test]
fn question_11_has_the_age_and_the_two_numbers() {
    let declared = declared();
    let before = declared.each_ref().map(String::as_str);
    let above = "age 2 (fields 6 and 7, columns F and G): paid 10,920 is above incurred 10,500";
    check_record(&before, "PATT J 2015 8900 10000 10920 10500", 11, &[above]);
    let zero = "age 1 (fields 4 and 5, columns D and E): incurred is 0 (paid 7)";
    check_record(&before, "PATT J 2015 7 0 1 2", 11, &[zero]);
    let exchanged = "perhaps they are exchanged";
    check_record(
        &before,
        "PATT J 2015 100 50 100 90",
        11,
        &["age 1 ", "age 2 ", exchanged],
    );
}

#[test]
fn question_12_has_the_ages_and_the_ratios() {
    let declared = declared();
    let before = declared.each_ref().map(String::as_str);
    let falls = "age 1 has 0.90000000 (90 of 100), age 2 has 0.50000000 (50 of 100)";
    let oldest = "perhaps the oldest year stands first";
    check_record(&before, "PATT J 2015 90 100 50 100", 12, &[falls, oldest]);
}

#[test]
fn question_13_has_the_row_and_the_year_that_lacks_a_pattern() {
    let declared = declared();
    let pattern = "PATT J 2015 50 100 90 100";
    let before = [&declared[0], declared[1].as_str(), pattern];
    let row = "age 2 (fields 7 to 9, columns G to I): gross 8, and no pattern of accident year \
        2014 is kept";
    let kept = "- kept is the pattern of 2015";
    check_record(&before, "YEAR J 2015 0 0 0 0 5 3 0 0 0", 13, &[row, kept]);
    let rate_of_2014 = rate(2014, 5);
    let wrong = "PATT J 2014 50 100 90 10";
    let before = [before[0], before[1], &rate_of_2014, wrong, pattern];
    let refused = "Hint: PATT J 2014 was refused in line 4, with NO 11: mend that first";
    check_record(
        &before,
        "YEAR J 2015 0 0 0 0 5 3 0 0 0",
        13,
        &[row, refused],
    );
}

/// Every refused record of the stored inputs names a place.
#[test]
fn no_refusal_is_without_a_place() {
    for name in NAMES {
        let mut asked = false;
        for block in explain(name, &stored(name, "stdin")).blocks {
            match block {
                Block::Paragraph(text) => asked = text.starts_with("Question "),
                Block::List(items) => {
                    let empty = items.is_empty() || items.iter().any(String::is_empty);
                    assert!(!empty, "{name}");
                    asked = false;
                }
                _ => assert!(!asked, "{name}"),
            }
        }
    }
}

/// The end has the refused lines and says that the first is to be mended first.
#[test]
fn the_end_lists_the_refused_lines() {
    let text = text(&explain("book", &stored("book", "stdin")));
    let end = text.split("\nThe end\n").nth(1).expect("the end");
    assert!(end.contains("\nanswer: DONE 7 1\n"));
    assert!(end.contains("Accepted: 7 records. Refused: 1 record."));
    assert!(end.contains("One early NO brings others, so mend the first"));
    assert!(end.ends_with("\n- line 5: YEAR J 2015, refused (NO 10)\n"));
}
