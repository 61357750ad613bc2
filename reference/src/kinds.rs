//! The kinds of lines and of numbers, with their limits.

/// "Years are 1987 to 2099."
pub const FIRST_YEAR: u64 = 1987;
pub const LAST_YEAR: u64 = 2099;

/// "A record MIDT with year (1980 to 2099), month (1 to 12) and rate"
pub const FIRST_REGISTER_YEAR: u64 = 1980;
pub const LAST_REGISTER_YEAR: u64 = 2099;
pub const MONTHS_OF_A_YEAR: u64 = 12;

/// "A rate is a whole number of hundredths of a percent, 0 to 2500."
pub const HIGHEST_RATE: u64 = 2_500;

/// "LINE, letter, opening (0 to 100,000,000,000)."
pub const HIGHEST_OPENING: u64 = 100_000_000_000;

/// "Other money is 0 to 10,000,000,000, and paid in YEAR also down to
/// -10,000,000,000."
pub const HIGHEST_AMOUNT: u64 = 10_000_000_000;

/// "A B C D E F G H R (ten-year lines)"
pub const TEN_YEAR_LETTERS: &[u8; 9] = b"ABCDEFGHR";

/// "I J K L S T (two-year lines; T is warranty)"
pub const TWO_YEAR_LETTERS: &[u8; 6] = b"IJKLST";

#[derive(Clone, Copy, Debug, PartialEq, Eq)]
pub enum LineKind {
    TenYear,
    TwoYear,
}

impl LineKind {
    /// The ages whose cumulative paid and incurred a PATT gives. A YEAR has a
    /// row for each of them and the prior row, and "a line keeps its latest
    /// ten patterns (two-year: two)".
    pub fn ages(self) -> usize {
        match self {
            LineKind::TenYear => 10,
            LineKind::TwoYear => 2,
        }
    }

    /// "At the last age (16 or 4) U is 0."
    pub fn last_age(self) -> usize {
        match self {
            LineKind::TenYear => 16,
            LineKind::TwoYear => 4,
        }
    }
}

/// A covered Schedule P letter.
#[derive(Clone, Copy, Debug, PartialEq, Eq, PartialOrd, Ord)]
pub struct Letter(u8);

impl Letter {
    /// "is the second field a covered letter?": the field is one byte long.
    pub fn covered(field: &[u8]) -> Option<Letter> {
        match field {
            [byte] if TEN_YEAR_LETTERS.contains(byte) => Some(Letter(*byte)),
            [byte] if TWO_YEAR_LETTERS.contains(byte) => Some(Letter(*byte)),
            _ => None,
        }
    }

    /// All fifteen letters, the ten-year lines first.
    pub fn all() -> Vec<Letter> {
        let bytes = TEN_YEAR_LETTERS.iter().chain(TWO_YEAR_LETTERS);
        bytes.map(|byte| Letter(*byte)).collect()
    }

    pub fn kind(self) -> LineKind {
        if TEN_YEAR_LETTERS.contains(&self.0) {
            LineKind::TenYear
        } else {
            LineKind::TwoYear
        }
    }

    pub fn character(self) -> char {
        char::from(self.0)
    }
}

/// "The limits belong to their kind: a rate, a year, an amount."
#[derive(Clone, Copy, Debug, PartialEq, Eq)]
pub enum NumberKind {
    Year,
    /// The year of a MIDT.
    RegisterYear,
    /// The month of a MIDT.
    Month,
    Rate,
    Opening,
    Amount,
    PaidInYear,
}

impl NumberKind {
    pub fn lowest(self) -> i128 {
        match self {
            NumberKind::Year => i128::from(FIRST_YEAR),
            NumberKind::RegisterYear => i128::from(FIRST_REGISTER_YEAR),
            NumberKind::Month => 1,
            NumberKind::Rate | NumberKind::Opening | NumberKind::Amount => 0,
            NumberKind::PaidInYear => -i128::from(HIGHEST_AMOUNT),
        }
    }

    pub fn highest(self) -> i128 {
        i128::from(match self {
            NumberKind::Year => LAST_YEAR,
            NumberKind::RegisterYear => LAST_REGISTER_YEAR,
            NumberKind::Month => MONTHS_OF_A_YEAR,
            NumberKind::Rate => HIGHEST_RATE,
            NumberKind::Opening => HIGHEST_OPENING,
            NumberKind::Amount | NumberKind::PaidInYear => HIGHEST_AMOUNT,
        })
    }
}
