//! The rows of a year end.

#[derive(Clone, Copy, Default)]
pub struct Row {
    pub paid: i64,
    pub unpaid: u64,
    pub tabular: u64,
}

impl Row {
    pub fn gross(self) -> u64 {
        self.unpaid + self.tabular
    }

    pub fn discounted(self, published: u32) -> u64 {
        let discounted = (self.gross() * u64::from(published) + 500_000) / 1_000_000;
        discounted.min(self.unpaid)
    }
}
