//! The payment pattern of an accident year, in half units.

use crate::kinds::LineKind;

/// "Twice that ratio is kept, in half units, so a whole is 200,000,000."
pub const WHOLE: u64 = 200_000_000;

/// "A pattern record gives cumulative paid and incurred for each age."
#[derive(Clone, Copy, Debug, PartialEq, Eq)]
pub struct CumulativeRow {
    pub paid: u64,
    pub incurred: u64,
}

/// "The cumulative ratio is paid × 100,000,000 / incurred, rounded half up."
/// The incurred is above 0.
pub fn cumulative_ratio(row: CumulativeRow) -> u64 {
    let paid = u128::from(row.paid) * 100_000_000;
    let incurred = u128::from(row.incurred);
    let ratio = (2 * paid + incurred) / (2 * incurred);
    u64::try_from(ratio).expect("paid is at most incurred")
}

/// The payments of all ages, the tail too.
#[derive(Clone, Debug, PartialEq, Eq)]
pub struct Pattern {
    payments: Vec<u64>,
}

impl Pattern {
    /// The pattern whose cumulative ratios, youngest age first, are given. None
    /// is above 100,000,000 and none falls.
    pub fn new(kind: LineKind, cumulative_ratios: &[u64]) -> Pattern {
        let mut payments = Vec::new();
        let mut cumulative_before = 0;
        for ratio in cumulative_ratios {
            let cumulative = 2 * ratio;
            payments.push(cumulative - cumulative_before);
            cumulative_before = cumulative;
        }
        let unpaid = WHOLE - cumulative_before;
        match kind {
            LineKind::TenYear => {
                let cap = tail_cap([payments[7], payments[8], payments[9]]);
                payments.extend(ten_year_tail(unpaid, cap));
            }
            LineKind::TwoYear => payments.extend(two_year_tail(unpaid)),
        }
        Pattern { payments }
    }

    pub fn last_age(&self) -> usize {
        self.payments.len()
    }

    /// "The payment at an age is its cumulative less the one before (at age 1,
    /// the cumulative)."
    pub fn payment(&self, age: usize) -> u64 {
        self.payments[age - 1]
    }

    /// "The unpaid at an age is the whole less its cumulative."
    pub fn unpaid(&self, age: usize) -> u64 {
        let cumulative: u64 = self.payments[..age].iter().sum();
        WHOLE - cumulative
    }
}

/// What ages 11 to 15 pay at most, by the payments at ages 8, 9 and 10: "where
/// the payment at age 10 is 0, the cap for ages 11 to 15 is the mean of the
/// payments at ages 8, 9 and 10, rounded down to a half unit" (document 02,
/// F-1).
pub fn tail_cap(last_payments: [u64; 3]) -> u64 {
    match last_payments[2] {
        0 => last_payments.iter().sum::<u64>() / 3,
        tenth_payment => tenth_payment,
    }
}

/// "Ten-year tail: ages 11 to 15 each pay the smaller of the payment at age 10"
/// (by F-1: of the cap) "and what is unpaid before them. Age 16 pays the rest."
pub fn ten_year_tail(unpaid_after_ten: u64, cap: u64) -> [u64; 6] {
    let mut tail = [0; 6];
    let mut unpaid = unpaid_after_ten;
    for payment in &mut tail[..5] {
        *payment = cap.min(unpaid);
        unpaid -= *payment;
    }
    tail[5] = unpaid;
    tail
}

/// "Two-year tail: ages 3 and 4 each pay half of what is unpaid after age 2,
/// which is even."
pub fn two_year_tail(unpaid_after_two: u64) -> [u64; 2] {
    [unpaid_after_two / 2; 2]
}
