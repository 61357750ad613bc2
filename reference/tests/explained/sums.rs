//! What is said of SUM: the figures of an accepted one and how they go together,
//! and of a refused one where it fails.

use reference::explain::explain;
use reference::explain::report::{Block, Report};
use reference::stored_input::NAMES;

use crate::common::{line, rate, stored};
use crate::{check, check_record, last_part};

/// What is said of the SUM after some records, all written with spaces for tabs.
fn said_of_sum(records: &[&str]) -> String {
    let mut lines: Vec<Vec<u8>> = records.iter().map(|record| line(record)).collect();
    lines.push(line("SUM J"));
    last_part(&lines)
}

#[test]
fn a_line_with_no_closed_year_has_zeros() {
    let said = said_of_sum(&["LINE J 70"]);
    assert!(said.contains("\nanswer: SUM J 0 0 0\n"), "{said}");
    let zeros = " has closed no year, so its figures are 0.\n";
    assert!(said.contains(zeros) && !said.contains("opening"), "{said}");
}

#[test]
fn the_figures_of_a_sum_go_together() {
    let (first, second) = (rate(2015, 0), rate(2016, 0));
    let mut records = vec![
        "LINE J 70",
        &first,
        "PATT J 2015 50 100 90 100",
        "YEAR J 2015 -9 30 0 0 0 0 0 0 0",
    ];
    let said = said_of_sum(&records);
    for words in [
        "\nanswer: SUM J 1 -9 -49\n",
        " has closed 1 year, 2015.\n",
        "\n- All paid: -9\n",
        "\n- All tax-basis losses: -49\n",
        "\n- Last closing, of 2015 (line 4): 30\n",
        "\n- Opening, as declared (line 1): 70\n",
        "\nLosses less paid are the last closing less the declared opening:\n",
        "\nlosses - paid: -49 - (-9) = -40\n",
        "\nlast closing - declared opening: 30 - 70 = -40\n",
    ] {
        assert!(said.contains(words), "{words:?} is not said:\n{said}");
    }
    records.extend([
        second.as_str(),
        "PATT J 2016 50 100 90 100",
        "YEAR J 2016 1000000 5 0 0 0 0 0 0 0",
    ]);
    let said = said_of_sum(&records);
    for words in [
        " has closed 2 years, the last of them 2016.\n",
        "\n- Last closing, of 2016 (line 7): 5\n",
        "\nlosses - paid: 999,926 - 999,991 = -65\n",
        "\nlast closing - declared opening: 5 - 70 = -65\n",
    ] {
        assert!(said.contains(words), "{words:?} is not said:\n{said}");
    }
}

/// The numbers of "49 - (-89) = 138".
fn numbers_of(equation: &str) -> [i128; 3] {
    let plain = equation.replace([',', '(', ')'], "");
    let (left, result) = plain.split_once(" = ").expect("an equation");
    let (from, number) = left.split_once(" - ").expect("a difference");
    [from, number, result].map(|text| text.parse().expect("a number"))
}

/// An answer and the equations after it.
type Answered = (String, Vec<String>);

fn equations_by_answer(report: Report) -> Vec<Answered> {
    let mut found: Vec<Answered> = Vec::new();
    for block in report.blocks {
        match (block, found.last_mut()) {
            (Block::Labelled { label, text }, _) if label == "answer" => {
                found.push((text, Vec::new()));
            }
            (Block::Labelled { label, text }, Some((_, equations))) if label.contains(" - ") => {
                equations.push(text);
            }
            _ => {}
        }
    }
    found
}

/// Both differences of a SUM are right and equal, and the first is of its own
/// figures. Where nothing is closed there is none.
fn check_sum(answer: &str, equations: &[String]) {
    let fields = answer.split(' ').skip(2).map(str::parse);
    let figures: Vec<i128> = fields.map(|field| field.expect("a number")).collect();
    if figures[0] == 0 {
        assert_eq!(
            (&figures[1..], equations),
            ([0, 0].as_slice(), [].as_slice())
        );
        return;
    }
    let [first, second] = [0, 1].map(|place: usize| numbers_of(&equations[place]));
    assert_eq!([first[1], first[0]], figures[1..], "{answer}");
    assert_eq!([first[0] - first[1], second[0] - second[1]], [first[2]; 2]);
    assert_eq!(first[2], second[2], "{answer}");
}

#[test]
fn the_two_differences_of_a_stored_sum_are_equal() {
    let reports = NAMES.map(|name| explain(name, &stored(name, "stdin")));
    let mut sums: Vec<Answered> = reports.into_iter().flat_map(equations_by_answer).collect();
    sums.retain(|(answer, _)| answer.starts_with("SUM "));
    assert!(sums.len() > 100);
    for (answer, equations) in sums {
        check_sum(&answer, &equations);
    }
}

#[test]
fn question_1_counts_a_sum_among_the_records_of_a_line() {
    let two = "more than one record stands in the line";
    check(&[], &b"SUM\tA ".repeat(200), 1, &[two]);
    check(
        &[],
        &[b"SUM\tA".to_vec(), vec![b'\t'; 1_100]].concat(),
        1,
        &["1,105 bytes"],
    );
}

#[test]
fn question_2_has_six_words_and_knows_a_sum_that_is_nearly_right() {
    let words = "Is the first field one of LINE, RATE, PATT, YEAR, SUM, MIDT? No:";
    let cases: [(&[u8], &str, &str); 6] = [
        (b"sum\tJ", "'sum'", "small letters: write SUM"),
        (b"SUM J", "'SUM J'", "blanks stand where tabs"),
        (b"SUM,J", "'SUM,J'", "commas stand where tabs"),
        (b" SUM\tJ", "' SUM'", "a blank stands before the word"),
        (b"SUM \tJ", "'SUM '", "' ' stands after the word"),
        (b"SUMS\tJ", "'SUMS'", "a header row, a note or a word"),
    ];
    for (refused, field, cause) in cases {
        let first = format!("the first field is {field}");
        check(&[], refused, 2, &[words, &first, cause]);
    }
}

#[test]
fn question_3_has_the_second_field_of_a_sum() {
    let cases: [(&[u8], &str, &str); 6] = [
        (b"SUM\tj", "'j'", "write the capital letter alone: J"),
        (b"SUM\tJ\r", "'J\\r'", "the file has Windows line ends"),
        (b"SUM\tM", "'M'", "covered are A B C"),
        (b"SUM\tAA", "'AA'", "covered are A B C"),
        (
            b"SUM\t2015",
            "'2015'",
            "a number: a SUM has the letter of a line",
        ),
        (b"SUM\t", "''", "the field is empty"),
    ];
    for (refused, field, cause) in cases {
        let second = format!("the second field is {field}");
        check(&[], refused, 3, &[&second, cause]);
    }
    check(&[], b"SUM", 3, &["there is no second field"]);
}

#[test]
fn question_4_has_both_counts_of_a_sum() {
    let counts = "there are 3 fields, and a SUM has 2";
    let tab = "the last field is empty: a tab stands at the end of the line";
    check_record(&[], "SUM J ", 4, &[counts, tab]);
    let year = "a SUM has no year: it is of all closed years of the line";
    check_record(&[], "SUM J 2015", 4, &[counts, year]);
    let answer = "it is an answer of the book and no record";
    check_record(&[], "SUM J 1 -9 -49", 4, &["there are 5 fields", answer]);
    check(&[], b"SUM\tJ\tK L", 4, &[counts, "blanks stand in a field"]);
}

#[test]
fn question_8_has_the_line_of_a_sum() {
    let none = "no LINE has declared line J (auto physical damage, a two-year line)";
    check_record(&[], "SUM J", 8, &[none]);
    let refused = "Hint: LINE J was refused in line 1, with NO 5: mend that first";
    check_record(&["LINE J 1,000"], "SUM J", 8, &[none, refused]);
}
