//! The examples of `examples/`: the records of each get the stored answers,
//! its text shows every answer, and the figures in the text's tables are ours.

mod common;

use common::{commas, output_of, rate};
use reference::answer::Answer;
use reference::book::{Book, DeclaredLine};
use reference::explain::explain;
use reference::explain::text::text;
use reference::factor::published;
use reference::kinds::Letter;
use reference::record::{read, Request};
use reference::reserve::{Row, YearEnd};
use reference::run::{records, run};

/// The records of an example and their stored answers.
struct Stored {
    records: &'static str,
    answers: &'static str,
}

const CLASS: Stored = Stored {
    records: include_str!("../../examples/class.txt"),
    answers: include_str!("../../examples/class.out"),
};
const FIRST_TRY: Stored = Stored {
    records: include_str!("../../examples/year_end_first_try.txt"),
    answers: include_str!("../../examples/year_end_first_try.out"),
};
const YEAR_END: Stored = Stored {
    records: include_str!("../../examples/year_end.txt"),
    answers: include_str!("../../examples/year_end.out"),
};
const EXHIBITS: Stored = Stored {
    records: include_str!("../../examples/exhibits.txt"),
    answers: include_str!("../../examples/exhibits.out"),
};

const REGISTER: Stored = Stored {
    records: include_str!("../../examples/register.txt"),
    answers: include_str!("../../examples/register.out"),
};

/// Each text with the runs that it goes through.
const EXAMPLES: [(&str, &[Stored]); 4] = [
    (include_str!("../../examples/class.md"), &[CLASS]),
    (
        include_str!("../../examples/year_end.md"),
        &[FIRST_TRY, YEAR_END],
    ),
    (include_str!("../../examples/exhibits.md"), &[EXHIBITS]),
    (include_str!("../../examples/register.md"), &[REGISTER]),
];

#[test]
fn the_records_get_the_answers_of_the_example() {
    for stored in EXAMPLES.iter().flat_map(|(_, runs)| *runs) {
        assert_eq!(run(stored.records.as_bytes()), stored.answers.as_bytes());
    }
}

#[test]
fn the_exhibits_are_the_stored_run_of_their_program() {
    let stdin = include_str!("../../crates/test_exhibits/stdin");
    let stdout = include_str!("../../crates/test_exhibits/stdout");
    assert_eq!((EXHIBITS.records, EXHIBITS.answers), (stdin, stdout));
}

/// Is a line of a text an answer? A record stands within its line.
fn is_answer(line: &str) -> bool {
    let words = ["LINE ", "RATE ", "FACT ", "TAX ", "SUM ", "NO ", "DONE "];
    let shown = line.strip_prefix("    ").unwrap_or_default();
    words.iter().any(|word| shown.starts_with(word))
}

/// Each answer stands in the text as a line of its own, in order, and no other.
/// The months of a register stand in a table.
#[test]
fn the_text_shows_every_answer() {
    for (text, runs) in EXAMPLES {
        let shown = text.lines().filter(|line| is_answer(line)).map(str::trim);
        let answers = runs.iter().flat_map(|stored| stored.answers.lines());
        let answers = answers.filter(|line| !line.starts_with("MIDT\t"));
        let answers: Vec<String> = answers.map(|line| line.replace('\t', " ")).collect();
        assert_eq!(shown.collect::<Vec<_>>(), answers);
    }
}

/// So many millionths, without zeros at the end.
fn decimal(millionths: u64) -> String {
    let whole = commas(millionths / 1_000_000);
    let rest = format!("{:06}", millionths % 1_000_000);
    let text = format!("{whole}.{}", rest.trim_end_matches('0'));
    text.trim_end_matches('.').to_string()
}

/// An accepted YEAR: its rows, what TAX has, and the line as it leaves it.
struct ClosedYear {
    letter: Letter,
    year: u64,
    rows: Vec<Row>,
    tax: YearEnd,
    line: DeclaredLine,
}

fn closed_years(stored: &Stored) -> Vec<ClosedYear> {
    let mut book = Book::default();
    let mut closed = Vec::new();
    for record in records(stored.records.as_bytes()) {
        let answer = book.answer(record);
        if let (Answer::Tax { year_end: tax, .. }, Ok(Request::Year { letter, year, rows })) =
            (answer, read(record))
        {
            let line = book.lines[&letter].clone();
            closed.push(ClosedYear {
                letter,
                year,
                rows,
                tax,
                line,
            });
        }
    }
    closed
}

/// The closed years of all examples, each with the text that tells of it.
fn told_years() -> Vec<(&'static str, ClosedYear)> {
    let mut told = Vec::new();
    for (text, runs) in EXAMPLES {
        let closed = runs.iter().flat_map(closed_years);
        told.extend(closed.map(|closed| (text, closed)));
    }
    told
}

impl ClosedYear {
    fn is_prior(&self, place: usize) -> bool {
        place == self.letter.kind().ages()
    }

    /// The first two cells of a row: its name and its accident year.
    fn name(&self, place: usize) -> String {
        let accident_year = self.year - place as u64;
        if self.is_prior(place) {
            return format!("prior | {accident_year} and older");
        }
        format!("age {} | {accident_year}", place + 1)
    }

    /// The published factor of a row, and whose it is.
    fn factor(&self, place: usize) -> (u64, String) {
        let letter = self.letter.character();
        if self.is_prior(place) {
            let own = self.line.pattern(self.year).expect("kept");
            let whose = format!("{letter} {}, composite", self.year);
            return (published(own.factors.composite()), whose);
        }
        let age = place + 1;
        let kept = self.line.pattern_of_row(self.year, age).expect("kept");
        let whose = format!("{letter} {}, age {age}", kept.accident_year);
        (published(kept.factors.kept(age)), whose)
    }

    fn row_line(&self, place: usize) -> String {
        let row = self.rows[place];
        let (factor, whose) = self.factor(place);
        let product = row.gross() * factor;
        let cells = [
            self.name(place),
            commas(row.paid),
            commas(row.unpaid),
            commas(row.tabular_discount),
            commas(row.gross()),
            format!("0.{factor:06} of {whose}"),
            decimal(product),
            commas((product + 500_000) / 1_000_000),
            commas(row.unpaid),
            commas(row.discounted(factor)),
        ];
        format!("| {} |", cells.join(" | "))
    }

    fn sum_line(&self) -> String {
        let sum = |amount: fn(&Row) -> u64| commas(self.rows.iter().map(amount).sum::<u64>());
        let [unpaid, tabular, gross] = [
            sum(|row| row.unpaid),
            sum(|row| row.tabular_discount),
            sum(|row| row.gross()),
        ];
        let (paid, closing) = (commas(self.tax.paid), commas(self.tax.closing));
        format!("| sum | | {paid} | {unpaid} | {tabular} | {gross} | | | | | {closing} |")
    }

    /// Its table: a line for each row that has a figure, and the sums.
    fn table(&self) -> Vec<String> {
        let is_empty = |row: Row| row.paid == 0 && row.gross() == 0;
        let places = (0..self.rows.len()).filter(|place| !is_empty(self.rows[*place]));
        let lines = places.map(|place| self.row_line(place));
        lines.chain([self.sum_line()]).collect()
    }

    /// The lines of the table that a text has after this TAX.
    fn table_in<'a>(&self, text: &'a str) -> Option<Vec<&'a str>> {
        let tax = format!("\n    TAX {} {} ", self.letter.character(), self.year);
        let (_, after) = text.split_once(&tax)?;
        let until_next = after.split("\n    TAX ").next()?;
        let (_, table) = until_next.split_once("\n| row | accident year |")?;
        let lines = table.lines().skip(2);
        Some(lines.take_while(|line| line.starts_with('|')).collect())
    }
}

/// There are six tables: of the last year end of the class, of both year ends
/// of the line that exists, and of the three exhibits.
#[test]
fn every_figure_in_a_table_of_rows_is_ours() {
    let mut tables = 0;
    for (text, closed) in told_years() {
        if let Some(table) = closed.table_in(text) {
            assert_eq!(table, closed.table());
            tables += 1;
        }
    }
    assert_eq!(tables, 1 + 2 + 3);
}

#[test]
fn the_text_has_the_equation_of_every_loss() {
    for (text, ClosedYear { tax, .. }) in told_years() {
        let [opening, closing] = [tax.opening, tax.closing].map(commas);
        let [paid, loss] = [tax.paid, tax.loss].map(commas);
        let equation = format!("{paid} + {closing} - {opening} = {loss}");
        assert!(text.contains(&equation), "{equation}");
    }
}

/// What a text has of a line's totals: the answer to its SUM, both sums, and the
/// reconciliation.
fn totals_of(letter: char, years: &[ClosedYear]) -> [String; 4] {
    let sum = |amount: fn(&ClosedYear) -> i64| {
        let amounts = years.iter().map(amount);
        let shown: Vec<String> = amounts.clone().map(commas).collect();
        let total: i64 = amounts.sum();
        (total, format!("{} = {}", shown.join(" + "), commas(total)))
    };
    let (paid, payments) = sum(|closed| closed.tax.paid);
    let (loss, losses) = sum(|closed| closed.tax.loss);
    let opening = years[0].line.declared_opening as i64;
    let closing = years[years.len() - 1].tax.closing as i64;
    assert_eq!(loss - paid, closing - opening);
    let difference = |from: i64, number: i64| {
        let [from, number, result] = [from, number, from - number].map(commas);
        format!("{from} - {number} = {result}")
    };
    let (left, right) = (difference(loss, paid), difference(closing, opening));
    [
        format!("SUM {letter} {} {paid} {loss}", years.len()),
        payments,
        losses,
        format!("{left}, and {right}"),
    ]
}

#[test]
fn the_text_has_the_totals_and_the_reconciliation_of_every_line() {
    for (example, letter) in [(0, 'B'), (0, 'J'), (1, 'D'), (3, 'J')] {
        let (text, runs) = EXAMPLES[example];
        let mut years: Vec<ClosedYear> = runs.iter().flat_map(closed_years).collect();
        years.retain(|closed| closed.letter.character() == letter);
        for said in totals_of(letter, &years) {
            assert!(text.contains(&said), "{said}");
        }
    }
}

/// With records 2 and 3 deleted, the year end of 2012 is not closed.
#[test]
fn the_sum_of_the_year_end_counts_the_closed_years() {
    let records: Vec<&str> = YEAR_END.records.lines().chain(["SUM D"]).collect();
    let sum_after = |records: &[&str]| output_of(records)[records.len() - 1].clone();
    assert_eq!(sum_after(&records), "SUM D 2 31283 38108");
    let deleted = [&records[..1], &records[3..]].concat();
    assert_eq!(sum_after(&deleted), "SUM D 1 15751 22576");
}

/// The manual shows the reconciliation of line B as `explain` prints it.
#[test]
fn the_manual_shows_what_explain_says_of_a_sum() {
    let manual = include_str!("../../docs/MANUAL.md");
    let (_, shown) = manual.split_once("\n    - All paid: ").expect("shown");
    let (shown, _) = shown.split_once("\n\n").expect("its end");
    let said = text(&explain("class", CLASS.records.as_bytes()));
    let shown = format!("\n- All paid: {}\n", shown.replace("\n    ", "\n"));
    assert!(said.contains(&shown), "{shown}");
}

#[test]
fn what_the_class_is_told_to_try_is_answered_as_told() {
    let records: Vec<&str> = CLASS.records.lines().collect();
    let again = [records[15], records[17], &rate(2014, 5)];
    assert!(again[0].starts_with("YEAR\tJ\t2014\t"));
    let output = output_of(&[&records[..], &again].concat());
    assert_eq!(output[17], "SUM J 2 33480 36677");
    assert_eq!(output[18..], ["NO 10", &output[17], "NO 7", "DONE 18 3"]);
}

#[test]
fn a_sum_of_the_class_before_the_first_closing_has_zeros() {
    let records: Vec<&str> = CLASS.records.lines().collect();
    assert!(records[8].starts_with("PATT\tJ\t") && records[4].starts_with("LINE\tJ\t"));
    for (before, answer) in [(9, "SUM J 0 0 0"), (4, "NO 8")] {
        let output = output_of(&[&records[..before], &["SUM J"]].concat());
        assert_eq!(output[before], answer);
    }
}

#[test]
fn a_reserve_of_the_class_before_2012_has_no_pattern() {
    let records: Vec<&str> = CLASS.records.lines().collect();
    assert!(records[14].starts_with("YEAR\tB\t2014\t"));
    for age in 4..=10 {
        let mut fields: Vec<&str> = records[14].split('\t').collect();
        fields[3 * age + 1] = "1";
        let year = fields.join("\t");
        let output = output_of(&[&records[..14], &[year.as_str()]].concat());
        assert_eq!(output[14..], ["NO 13", "DONE 13 2"], "age {age}");
    }
}
