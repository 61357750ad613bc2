//! What an accepted SUM means: a line's figures and how they go together.

use super::line_names::described;
use super::report::{labelled, paragraph, Block};
use super::shown::{capitalized, counted, taken_away, thousands};
use crate::book::{Closing, DeclaredLine};
use crate::kinds::Letter;

/// An accepted SUM, its line, and where its opening and its last closing stand.
pub struct TotalsSheet<'a> {
    pub letter: Letter,
    pub line: &'a DeclaredLine,
    pub opening_from: String,
    pub closing_from: String,
}

impl TotalsSheet<'_> {
    pub fn blocks(&self) -> Vec<Block> {
        let name = capitalized(&described(self.letter));
        let Some(closing) = self.line.last_closing else {
            let zeros = format!("{name} has closed no year, so its figures are 0.");
            return vec![paragraph(zeros)];
        };
        let count = self.line.totals.closed_years as usize;
        let last = if count == 1 { "" } else { "the last of them " };
        let closed = counted(count, "year");
        let so_far = format!("{name} has closed {closed}, {last}{}.", closing.year);
        let mut blocks = vec![paragraph(so_far)];
        blocks.extend(self.figures(closing));
        blocks
    }

    /// "once a year is closed, losses less paid are the last closing less the
    /// declared opening"
    fn figures(&self, closing: Closing) -> Vec<Block> {
        let (paid, losses) = (self.line.totals.paid, self.line.totals.losses);
        let opening = i128::from(self.line.declared_opening);
        let last = i128::from(closing.amount);
        let year = format!("{}{}", closing.year, self.closing_from);
        vec![
            Block::List(vec![
                format!("All paid: {}", thousands(paid)),
                format!("All tax-basis losses: {}", thousands(losses)),
                format!("Last closing, of {year}: {}", thousands(last)),
                format!(
                    "Opening, as declared{}: {}",
                    self.opening_from,
                    thousands(opening)
                ),
            ]),
            paragraph("Losses less paid are the last closing less the declared opening:"),
            labelled("losses - paid", difference(losses, paid)),
            labelled("last closing - declared opening", difference(last, opening)),
        ]
    }
}

/// "49 - 89 = -40"
fn difference(from: i128, number: i128) -> String {
    let [from_words, difference] = [from, from - number].map(thousands);
    format!("{from_words} - {} = {difference}", taken_away(number))
}
