//! The figures of accepted records: those of the answers and of docs/WHY.md.

use reference::explain::explain;
use reference::explain::report::{Block, Report, Table};
use reference::explain::text::text;
use reference::input_text::ended_records;
use reference::stored_input::{exhibits, NAMES};

use crate::common::{rate, repeated, stored};

const WHY: &str = include_str!("../../../docs/WHY.md");

/// An answer and the tables after it.
type Answered = (String, Vec<Table>);

fn tables_by_answer(report: Report) -> Vec<Answered> {
    let mut found: Vec<Answered> = Vec::new();
    for block in report.blocks {
        match (block, found.last_mut()) {
            (Block::Labelled { label, text }, _) if label == "answer" => {
                found.push((text, Vec::new()));
            }
            (Block::Table(table), Some((_, tables))) => tables.push(table),
            _ => {}
        }
    }
    found
}

/// The stored answers of that word.
fn stored_tables(word: &str) -> Vec<Answered> {
    let reports = NAMES.map(|name| explain(name, &stored(name, "stdin")));
    let mut found: Vec<Answered> = reports.into_iter().flat_map(tables_by_answer).collect();
    found.retain(|(answer, _)| answer.starts_with(word));
    assert!(found.len() > 100);
    found
}

/// The column of that title in one of the tables.
fn column<'a>(tables: &'a [Table], title: &str) -> Vec<&'a str> {
    let place = |table: &Table| {
        let mut titles = table.columns.iter().map(|column| column.title);
        titles.position(|found| found == title)
    };
    let found = tables.iter().find_map(|table| Some((table, place(table)?)));
    let (table, place) = found.unwrap_or_else(|| panic!("no column {title}"));
    table.rows.iter().map(|row| row[place].as_str()).collect()
}

/// A number without its separators and its point.
fn digits(cell: &str) -> i128 {
    let plain = cell.replace([',', '.'], "");
    plain.parse().unwrap_or_else(|_| panic!("{cell}"))
}

/// The numbers of an answer after its letter and year.
fn figures(answer: &str) -> Vec<i128> {
    answer.split(' ').skip(3).map(digits).collect()
}

#[test]
fn the_published_factors_are_those_of_fact() {
    for (answer, tables) in stored_tables("FACT ") {
        let published = column(&tables, "published").into_iter();
        let published = published.filter(|cell| !cell.is_empty()).map(digits);
        assert_eq!(published.collect::<Vec<_>>(), figures(&answer), "{answer}");
    }
}

/// The number of units of a decimal, as if it had so many decimals.
fn units(cell: &str, decimals: u32) -> i128 {
    let (_, after) = cell.split_once('.').expect("a decimal");
    digits(cell) * 10_i128.pow(decimals - after.len() as u32)
}

/// The payment at an age in half units, from its cell.
fn half_units(payments: &[&str], age: usize) -> i128 {
    units(payments[age - 1], 9) / 5
}

/// Ages 11 to 15 of a ten-year pattern go by age 10, by a mean or by nothing,
/// and the caption says which.
#[test]
fn the_caption_says_what_the_tail_goes_by() {
    let mut told = [0; 3];
    for (answer, tables) in stored_tables("FACT ") {
        let payments = column(&tables, "payment");
        if payments.len() == 16 {
            let earlier = half_units(&payments, 8) + half_units(&payments, 9);
            let mean = units_of_mean(&tables[0].caption);
            let (place, words) = match (half_units(&payments, 10), earlier / 3) {
                (0, 0) => (0, "so age 16 pays all that is unpaid."),
                (0, expected) => {
                    assert_eq!(mean, Some(expected), "{answer}");
                    (1, ", while so much is unpaid, and age 16 the rest.")
                }
                _ => (2, "Ages 11 to 15 each pay as much as age 10 while"),
            };
            assert!(tables[0].caption.contains(words), "{answer}");
            told[place] += 1;
        }
    }
    assert!(told.iter().all(|count| *count > 20), "{told:?}");
}

/// The mean that a caption names, in half units.
fn units_of_mean(caption: &str) -> Option<i128> {
    let (_, after) = caption.split_once("the mean of ages 8, 9 and 10, ")?;
    let (mean, _) = after.split_once(',')?;
    Some(units(mean, 9) / 5)
}

/// The kept factors follow from what stands beside them, and the exact ratio is
/// what was lost above them.
#[test]
fn every_factor_can_be_worked_back_from_its_row() {
    for (answer, tables) in stored_tables("FACT ") {
        let table = &tables[1];
        let ages = table.rows.len() - 1;
        let half_year = units(&table.rows[ages - 1][4], 10);
        let right = |row: &Vec<String>| is_worked_back(row, half_year);
        assert!(table.rows.iter().all(right), "{answer}");
    }
}

fn is_worked_back(row: &[String], half_year: i128) -> bool {
    let kept = units(&row[4], 10);
    if row[5] == "none" {
        return kept == half_year && row[6].is_empty();
    }
    let lost = units(&row[6], 3);
    let is_near = (0..29_000).contains(&lost);
    let is_exact = units(&row[5], 13) == 1_000 * kept + lost;
    let is_composite = row[3].is_empty();
    is_near && is_exact && (is_composite || kept == worked_back(row, half_year))
}

/// (p × H + (U - p) × g) / U, rounded down.
fn worked_back(row: &[String], half_year: i128) -> i128 {
    let [unpaid, payment] = [1, 2].map(|place: usize| units(&row[place], 9));
    let later = (unpaid - payment) * units(&row[3], 10);
    (payment * half_year + later) / unpaid
}

#[test]
fn the_rows_of_a_year_sum_to_its_tax() {
    for (answer, tables) in stored_tables("TAX ") {
        let sum = |title: &str| column(&tables, title).into_iter().map(digits).sum();
        let [paid, closing]: [i128; 2] = [sum("paid"), sum("discounted")];
        let tax = figures(&answer);
        assert_eq!([paid, closing], [tax[0], tax[2]], "{answer}");
        assert_eq!(paid + closing - tax[1], tax[3], "{answer}");
    }
}

/// The tables of the PATT whose answer begins so.
fn tables_of(input: &[u8], answer: &str) -> Vec<Table> {
    let answered = tables_by_answer(explain("records", input));
    let found = answered
        .into_iter()
        .find(|(text, _)| text.starts_with(answer));
    found.unwrap_or_else(|| panic!("no {answer}")).1
}

/// The rows of the table of docs/WHY.md that has exact ratios.
fn lesson_rows() -> Vec<Vec<&'static str>> {
    let lines = WHY.lines();
    let table = lines.skip_while(|line| !line.contains("| exact ratio, in units |"));
    let rows = table.skip(2).take_while(|line| line.starts_with('|'));
    let cells = |row: &'static str| row.trim_matches('|').split('|').map(str::trim).collect();
    rows.map(cells).collect()
}

#[test]
fn exhibit_11_has_the_exact_ratios_of_the_lesson() {
    let tables = tables_of(&exhibits::input(), "FACT H 2011 ");
    let kept = column(&tables, "kept factor");
    let exact = column(&tables, "exact ratio");
    let lost = column(&tables, "lost");
    let rows = lesson_rows();
    assert_eq!(rows.len(), 9);
    for row in rows {
        let age: usize = row[0].parse().expect("an age");
        assert_eq!(digits(kept[age - 1]), digits(row[3]), "age {age}");
        if age == 16 {
            assert_eq!((exact[age - 1], row[4]), ("none", "(nothing unpaid: H)"));
        } else {
            assert_eq!(digits(exact[age - 1]), digits(row[4]), "age {age}");
        }
        assert_eq!(lost[age - 1], row[5], "age {age}");
    }
    assert_eq!(digits(kept[16]), 8_756_682_309);
    let composite = format!("it is 8,756,682,309, and {} units are lost", lost[16]);
    assert!(WHY.contains(&composite), "{composite}");
}

/// No exhibit has 7.25 percent.
#[test]
fn a_rate_that_no_exhibit_prints_is_worked_too() {
    let records = [
        "LINE H 0".to_string(),
        rate(2011, 725),
        format!("PATT H 2011 {}", exhibits::EXHIBIT_11),
    ];
    let tables = tables_of(&ended_records(records), "FACT H 2011 771961 ");
    let kept = column(&tables, "kept factor");
    assert_eq!([kept[14], kept[13]], ["0.9656090991", "0.9208681333"]);
}

/// At rate 0 nothing is lost, and FACT is too long for one line.
#[test]
fn at_rate_0_every_exact_ratio_is_1() {
    let records = [
        "LINE H 0".to_string(),
        rate(2011, 0),
        format!("PATT H 2011 {}", exhibits::EXHIBIT_11),
    ];
    let input = ended_records(records);
    let tables = tables_of(&input, "FACT H 2011 ");
    let mut exact = column(&tables, "exact ratio");
    exact.retain(|cell| *cell != "none");
    assert_eq!(exact, ["1.0000000000000"; 16]);
    let text = text(&explain("a rate", &input));
    let (fact, rest) = (repeated("1000000", 10), "        1000000\n");
    assert!(text.contains(&format!("\nanswer: FACT H 2011 {fact}\n{rest}")));
}

#[test]
fn a_rate_is_explained_by_its_sum() {
    let months = format!("{} 91 90 91", repeated("147", 57));
    let input = ended_records([format!("RATE 2015 {months}")]);
    let text = text(&explain("a rate", &input));
    assert!(text.contains("The sixty monthly rates sum to 8,651."));
    assert!(text.contains("\nrate: (8,651 + 30) / 60 = 144, rounded down\n"));
}

#[test]
fn an_opening_is_explained_by_where_it_comes_from() {
    let text = text(&explain("book", &stored("book", "stdin")));
    assert!(text.contains("- Opening, as declared (line 1): 0\n"));
    assert!(text.contains("- Opening, the closing of 2015 (line 4): 43\n"));
    assert!(text.contains("\ntax-basis loss: paid + closing - opening = 40 + 8 - 43 = 5\n"));
}

/// The row of exhibit 11's year end that docs/WHY.md works through.
#[test]
fn a_row_shows_its_factor_its_product_and_its_cap() {
    let answered = tables_by_answer(explain("exhibits", &exhibits::input()));
    let (answer, tables) = &answered[10];
    assert_eq!(answer, "TAX H 2011 10000 1000000 940021 -49979");
    let row = [
        "prior",
        "185,000",
        "0.875668",
        "2011, composite",
        "161,998.580000",
        "161,999",
        "165,000",
        "161,999",
    ];
    assert_eq!(tables[1].rows[10], row);
}
