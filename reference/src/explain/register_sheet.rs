//! What an accepted MIDT means: what it stores, and which RATEs take it.

use super::months::month_words;
use super::report::{paragraph, Block};
use super::shown::percent;
use crate::book::Book;
use crate::kinds::{FIRST_YEAR, LAST_YEAR};
use crate::register::{accident_years_of, Month};

/// An accepted MIDT, and the book that it left.
pub struct RegisterSheet<'a> {
    pub month: Month,
    pub rate: u64,
    pub book: &'a Book,
}

impl RegisterSheet<'_> {
    pub fn blocks(&self) -> Vec<Block> {
        let stored = format!(
            "The register has the federal mid-term rate of {}, {}, for good.",
            month_words(self.month),
            percent(self.rate)
        );
        let own = [stored, self.taken_by()].into_iter();
        let parts = own.chain(self.too_late()).chain(self.complete());
        vec![paragraph(parts.collect::<Vec<_>>().join(" "))]
    }

    /// The accident years of the book whose months it is one of.
    fn accident_years(&self) -> Vec<u64> {
        let years = accident_years_of(self.month.year);
        years
            .filter(|year| (FIRST_YEAR..=LAST_YEAR).contains(year))
            .collect()
    }

    fn taken_by(&self) -> String {
        let years = self.accident_years();
        match years[..] {
            [] => {
                format!("No RATE takes it, since accident years are {FIRST_YEAR} to {LAST_YEAR}.")
            }
            [year] => format!("RATE {year}, given with its year alone, takes it."),
            [first, last] => {
                format!("RATE {first} and RATE {last}, given with their year alone, take it.")
            }
            [first, .., last] => {
                format!("RATE {first} to RATE {last}, given with their year alone, take it.")
            }
        }
    }

    /// A year's rate "is given once and stays".
    fn too_late(&self) -> Option<String> {
        let mut years = self.accident_years();
        years.retain(|year| self.book.rates.contains_key(year));
        let has = if years.len() == 1 {
            "has its"
        } else {
            "have their"
        };
        let which = listed(&years)?;
        Some(format!("{which} {has} rate already, which stays."))
    }

    /// The accident years without a rate that lack no month any more.
    fn complete(&self) -> Option<String> {
        let mut years = self.accident_years();
        years.retain(|year| !self.book.rates.contains_key(year));
        years.retain(|year| self.book.register.lacking(*year).is_empty());
        let which = listed(&years)?;
        Some(format!("The register has all sixty months of {which} now."))
    }
}

/// "2015, 2016 and 2017", or nothing if there is none.
fn listed(years: &[u64]) -> Option<String> {
    let names: Vec<String> = years.iter().map(u64::to_string).collect();
    let (last, before) = names.split_last()?;
    if before.is_empty() {
        return Some(last.clone());
    }
    Some(format!("{} and {last}", before.join(", ")))
}
