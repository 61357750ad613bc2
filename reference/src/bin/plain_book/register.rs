//! The monthly rates from 1980 to 2099.

use crate::reader::{MONTH, REGISTER_YEAR};

const MONTHS: usize = 12 * (REGISTER_YEAR.highest - REGISTER_YEAR.lowest + 1) as usize;

/// No rate.
const EMPTY: u16 = u16::MAX;

/// The rate of each month, January of the first year first.
pub struct Register {
    rates: [u16; MONTHS],
}

impl Register {
    pub fn empty() -> Register {
        Register {
            rates: [EMPTY; MONTHS],
        }
    }

    /// Question 7: a month is stored once.
    pub fn store(&mut self, year: u64, month: u64, rate: u64) -> Result<(), u8> {
        let place = january(year) + (month - MONTH.lowest) as usize;
        if self.rates[place] != EMPTY {
            return Err(7);
        }
        self.rates[place] = rate as u16;
        Ok(())
    }

    /// The sum of the sixty months before an accident year, or question 14.
    pub fn sum_before(&self, year: u64) -> Result<u64, u8> {
        let end = january(year);
        let sixty = &self.rates[end - 60..end];
        if sixty.contains(&EMPTY) {
            return Err(14);
        }
        Ok(sixty.iter().map(|rate| u64::from(*rate)).sum())
    }
}

/// The place of a year's first month.
fn january(year: u64) -> usize {
    12 * (year - REGISTER_YEAR.lowest) as usize
}
