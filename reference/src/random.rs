//! Random numbers from a seed (the splitmix64 sequence).

use crate::kinds::HIGHEST_AMOUNT;

pub struct Random {
    state: u64,
}

impl Random {
    pub fn new(seed: u64) -> Random {
        Random { state: seed }
    }

    pub fn draw(&mut self) -> u64 {
        self.state = self.state.wrapping_add(0x9E37_79B9_7F4A_7C15);
        let mut mixed = self.state;
        mixed = (mixed ^ (mixed >> 30)).wrapping_mul(0xBF58_476D_1CE4_E5B9);
        mixed = (mixed ^ (mixed >> 27)).wrapping_mul(0x94D0_49BB_1331_11EB);
        mixed ^ (mixed >> 31)
    }

    /// A number below `limit`, which is above 0.
    pub fn below(&mut self, limit: u64) -> u64 {
        self.draw() % limit
    }

    /// A number from `lowest` to `highest`.
    pub fn between(&mut self, lowest: u64, highest: u64) -> u64 {
        lowest + self.below(highest - lowest + 1)
    }

    /// True once in `times`, on average.
    pub fn once_in(&mut self, times: u64) -> bool {
        self.below(times) == 0
    }

    pub fn place(&mut self, length: usize) -> usize {
        self.below(length as u64) as usize
    }

    pub fn choice<T: Clone>(&mut self, values: &[T]) -> T {
        values[self.place(values.len())].clone()
    }

    pub fn shuffled<T: Clone>(&mut self, values: &[T]) -> Vec<T> {
        let mut rest = values.to_vec();
        let mut shuffled = Vec::new();
        while !rest.is_empty() {
            let place = self.place(rest.len());
            shuffled.push(rest.swap_remove(place));
        }
        shuffled
    }

    /// An amount within its limits, of any length in digits; now and then
    /// either end itself, or a multiple of half a million, whose discounted
    /// value is often a half.
    pub fn amount(&mut self) -> u64 {
        match self.below(12) {
            0 => 0,
            1 => HIGHEST_AMOUNT,
            2 => 500_000 * self.below(HIGHEST_AMOUNT / 500_000),
            _ => {
                let digits = self.between(1, 11) as u32;
                self.below(10_u64.pow(digits)).min(HIGHEST_AMOUNT)
            }
        }
    }
}
