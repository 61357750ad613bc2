//! The rate of an accident year.

/// The months whose rates are averaged.
pub const MONTHS: usize = 60;

/// "An accident year's rate is the sum of sixty monthly rates plus 30, divided
/// by 60, rounded down."
pub fn accident_year_rate(monthly_rates: &[u64]) -> u64 {
    let sum: u64 = monthly_rates.iter().sum();
    (sum + 30) / 60
}
