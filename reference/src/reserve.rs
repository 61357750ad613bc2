//! The rows of a year end, its closing and its tax-basis loss.

/// "A row has paid in the year (may be negative), unpaid as stated, and
/// disclosed tabular discount."
#[derive(Clone, Copy, Debug, PartialEq, Eq)]
pub struct Row {
    pub paid: i64,
    pub unpaid: u64,
    pub tabular_discount: u64,
}

impl Row {
    /// "Gross is unpaid plus tabular."
    pub fn gross(self) -> u64 {
        self.unpaid + self.tabular_discount
    }

    /// "(gross × published + 500,000) / 1,000,000 rounded down"
    pub fn rounded(self, published_factor: u64) -> u64 {
        let product = u128::from(self.gross()) * u128::from(published_factor);
        let rounded = (product + 500_000) / 1_000_000;
        u64::try_from(rounded).expect("a published factor is at most 1")
    }

    /// "Discounted is the smaller of unpaid and (gross × published + 500,000) /
    /// 1,000,000 rounded down."
    pub fn discounted(self, published_factor: u64) -> u64 {
        self.rounded(published_factor).min(self.unpaid)
    }

    /// "A row with gross 0 discounts to 0, whether a pattern is kept for it or
    /// not." Question 13 has shown that only such rows lack a factor.
    pub fn discounted_if_kept(self, published_factor: Option<u64>) -> u64 {
        published_factor.map_or(0, |factor| self.discounted(factor))
    }
}

/// The figures that a TAX answer prints.
#[derive(Clone, Copy, Debug, PartialEq, Eq)]
pub struct YearEnd {
    pub paid: i64,
    pub opening: u64,
    pub closing: u64,
    pub loss: i64,
}

/// "Closing is the sum of discounted rows." "Tax-basis loss is paid total plus
/// closing less opening, and may fall below zero."
pub fn year_end(rows: &[Row], published_factors: &[Option<u64>], opening: u64) -> YearEnd {
    let paid: i64 = rows.iter().map(|row| row.paid).sum();
    let pairs = rows.iter().zip(published_factors);
    let closing = pairs.map(|(row, factor)| row.discounted_if_kept(*factor));
    let closing: u64 = closing.sum();
    let loss = i128::from(paid) + i128::from(closing) - i128::from(opening);
    YearEnd {
        paid,
        opening,
        closing,
        loss: i64::try_from(loss).expect("eleven amounts and an opening fit"),
    }
}
