//! The register of monthly rates (document 02, F-4).

use std::collections::BTreeMap;

use crate::kinds::MONTHS_OF_A_YEAR;

/// A month of the calendar; January is number 1.
#[derive(Clone, Copy, Debug, PartialEq, Eq, PartialOrd, Ord)]
pub struct Month {
    pub year: u64,
    pub number: u64,
}

/// The months of a RATE stand in so many calendar years.
const YEARS_OF_A_RATE: u64 = 5;

/// "the sixty months from January five years before to December of the year
/// before", in that order
pub fn months_of_rate(accident_year: u64) -> Vec<Month> {
    let years = accident_year - YEARS_OF_A_RATE..accident_year;
    years.flat_map(months_of_year).collect()
}

/// The twelve months of a calendar year.
pub fn months_of_year(year: u64) -> impl Iterator<Item = Month> {
    (1..=MONTHS_OF_A_YEAR).map(move |number| Month { year, number })
}

/// The accident years whose RATE takes the months of a calendar year, whether
/// they are years of the book or not.
pub fn accident_years_of(year: u64) -> std::ops::RangeInclusive<u64> {
    year + 1..=year + YEARS_OF_A_RATE
}

/// The months given so far: "stores one federal mid-term rate, once".
#[derive(Clone, Debug, Default, PartialEq, Eq)]
pub struct Register {
    rates: BTreeMap<Month, u64>,
}

impl Register {
    pub fn rate(&self, month: Month) -> Option<u64> {
        self.rates.get(&month).copied()
    }

    pub fn store(&mut self, month: Month, rate: u64) {
        self.rates.insert(month, rate);
    }

    /// The months given, oldest first.
    pub fn months(&self) -> Vec<Month> {
        self.rates.keys().copied().collect()
    }

    /// The months of an accident year's RATE that are not given, oldest first.
    pub fn lacking(&self, accident_year: u64) -> Vec<Month> {
        let mut months = months_of_rate(accident_year);
        months.retain(|month| !self.rates.contains_key(month));
        months
    }

    /// The sixty rates of an accident year, if none is lacking.
    pub fn rates_of(&self, accident_year: u64) -> Option<Vec<u64>> {
        let months = months_of_rate(accident_year).into_iter();
        months.map(|month| self.rate(month)).collect()
    }
}
