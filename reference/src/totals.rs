//! A line's figures since its first closing (document 02, F-2).

use crate::reserve::YearEnd;

/// "the count of closed years, all paid, and all tax-basis losses". The empty
/// ones are right too: "A line with no closed year prints zeros."
#[derive(Clone, Copy, Debug, Default, PartialEq, Eq)]
pub struct Totals {
    pub closed_years: u64,
    pub paid: i128,
    pub losses: i128,
}

impl Totals {
    /// "The figures equal the sums over the accepted YEAR records of that line."
    pub fn add(&mut self, year_end: &YearEnd) {
        self.closed_years += 1;
        self.paid += i128::from(year_end.paid);
        self.losses += i128::from(year_end.loss);
    }
}
