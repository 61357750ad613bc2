//! The worksheet of an accepted YEAR: its rows, its closing and its loss.

use super::line_names::described;
use super::report::{labelled, numbers, paragraph, words, Block, Table};
use super::shown::{decimal, thousands};
use crate::book::DeclaredLine;
use crate::kinds::Letter;
use crate::reserve::{Row, YearEnd};

/// An accepted YEAR, its line, and where its opening comes from.
pub struct YearSheet<'a> {
    pub letter: Letter,
    pub year: u64,
    pub rows: &'a [Row],
    pub line: &'a DeclaredLine,
    pub year_end: YearEnd,
    pub opening_from: String,
}

impl YearSheet<'_> {
    pub fn blocks(&self) -> Vec<Block> {
        let YearEnd {
            paid,
            opening,
            closing,
            loss,
        } = self.year_end;
        let [paid, loss] = [paid, loss].map(thousands);
        let [opening, closing] = [opening, closing].map(thousands);
        vec![
            paragraph(format!(
                "{} is closed in {}.",
                self.year,
                described(self.letter)
            )),
            Block::Table(self.as_stated()),
            Block::Table(self.discounted()),
            Block::List(vec![
                format!("Paid, the sum of the rows: {paid}"),
                format!("Opening, {}: {opening}", self.opening_from),
                format!("Closing, the sum of the discounted rows: {closing}"),
            ]),
            labelled(
                "tax-basis loss",
                format!("paid + closing - opening = {paid} + {closing} - {opening} = {loss}"),
            ),
        ]
    }

    fn ages(&self) -> usize {
        self.letter.kind().ages()
    }

    /// The name of the row at a place, counted from 1.
    fn row_name(&self, place: usize) -> String {
        if place <= self.ages() {
            format!("age {place}")
        } else {
            "prior".to_string()
        }
    }

    fn accident_year(&self, place: usize) -> String {
        if place <= self.ages() {
            (self.year + 1 - place as u64).to_string()
        } else {
            "older".to_string()
        }
    }

    fn as_stated(&self) -> Table {
        let columns = [
            "accident year",
            "paid",
            "unpaid",
            "tabular discount",
            "gross",
        ];
        let mut titles = vec![words("row")];
        titles.extend(columns.map(numbers));
        let row = |(place, row): (usize, &Row)| {
            vec![
                self.row_name(place),
                self.accident_year(place),
                thousands(row.paid),
                thousands(row.unpaid),
                thousands(row.tabular_discount),
                thousands(row.gross()),
            ]
        };
        Table {
            caption: "Rows as stated. Gross is unpaid plus tabular discount.".to_string(),
            columns: titles,
            rows: (1..).zip(self.rows).map(row).collect(),
        }
    }

    fn discounted(&self) -> Table {
        let columns = vec![
            words("row"),
            numbers("gross"),
            numbers("factor"),
            words("factor of"),
            numbers("gross × factor"),
            numbers("rounded"),
            numbers("cap: unpaid"),
            numbers("discounted"),
        ];
        let factors = self.line.published_factors(self.year, self.ages());
        let rows = (1..).zip(self.rows.iter().zip(factors));
        Table {
            caption: "Rows discounted. Rounded is to a whole thousand of dollars, a half up. The \
                      smaller of rounded and cap counts."
                .to_string(),
            columns,
            rows: rows
                .map(|(place, (row, factor))| self.discounted_row(place, *row, factor))
                .collect(),
        }
    }

    /// A row without a pattern has no gross and discounts to 0.
    fn discounted_row(&self, place: usize, row: Row, factor: Option<u64>) -> Vec<String> {
        let product = |factor: u64| decimal(row.gross() * factor, 6);
        let rounded = |factor: u64| thousands(row.rounded(factor));
        let or_none = |text: Option<String>| text.unwrap_or_default();
        vec![
            self.row_name(place),
            thousands(row.gross()),
            or_none(factor.map(|factor| decimal(factor, 6))),
            self.factor_of(place, factor.is_some()),
            or_none(factor.map(product)),
            or_none(factor.map(rounded)),
            thousands(row.unpaid),
            thousands(row.discounted_if_kept(factor)),
        ]
    }

    /// Whose factor a row takes.
    fn factor_of(&self, place: usize, is_kept: bool) -> String {
        match is_kept {
            false => "no pattern".to_string(),
            true if place <= self.ages() => format!("{}, age {place}", self.accident_year(place)),
            true => format!("{}, composite", self.year),
        }
    }
}
