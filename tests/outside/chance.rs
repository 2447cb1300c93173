//! A small seeded source of numbers (splitmix64), so that every run can be repeated.

#[derive(Clone)]
pub struct Chance(pub u64);

impl Chance {
    pub fn word(&mut self) -> u64 {
        self.0 = self.0.wrapping_add(0x9e37_79b9_7f4a_7c15);
        let mut word = self.0;
        word = (word ^ (word >> 30)).wrapping_mul(0xbf58_476d_1ce4_e5b9);
        word = (word ^ (word >> 27)).wrapping_mul(0x94d0_49bb_1331_11eb);
        word ^ (word >> 31)
    }

    /// From 0 up to and not including `end`.
    pub fn below(&mut self, end: u64) -> u64 {
        self.word() % end
    }

    pub fn between(&mut self, least: u64, most: u64) -> u64 {
        least + self.below(most - least + 1)
    }

    pub fn one_in(&mut self, many: u64) -> bool {
        self.below(many) == 0
    }

    pub fn index(&mut self, length: usize) -> usize {
        self.below(length as u64) as usize
    }

    pub fn pick<Item: Copy>(&mut self, from: &[Item]) -> Item {
        from[self.index(from.len())]
    }

    /// A number up to `most`, of any size and often at an end.
    pub fn amount(&mut self, most: u64) -> u64 {
        match self.below(8) {
            0 => 0,
            1 => most - self.below(3).min(most),
            2 => self.between(0, most),
            3 => self.below(10).min(most),
            _ => {
                let bits = self.below(64 - most.leading_zeros() as u64 + 1);
                self.below(1 << bits).min(most)
            }
        }
    }
}
