//! A small random generator, so that what is drawn by a number is drawn again by it.

pub struct Random {
    state: u64,
}

impl Random {
    pub fn new(draw: u64) -> Random {
        Random { state: draw }
    }

    /// A generator of its own for one case, so that the case can be made again without those before it.
    pub fn of_case(draw: u64, kind: u64, case: u64) -> Random {
        let mut first = Random::new(draw ^ kind.wrapping_mul(0xD1B5_4A32_D192_ED03));
        Random::new(first.number() ^ case.wrapping_mul(0x9E37_79B9_7F4A_7C15))
    }

    /// Any 64 bits (splitmix64).
    pub fn number(&mut self) -> u64 {
        self.state = self.state.wrapping_add(0x9E37_79B9_7F4A_7C15);
        let mut mixed = self.state;
        mixed = (mixed ^ (mixed >> 30)).wrapping_mul(0xBF58_476D_1CE4_E5B9);
        mixed = (mixed ^ (mixed >> 27)).wrapping_mul(0x94D0_49BB_1331_11EB);
        mixed ^ (mixed >> 31)
    }

    /// A number from 0 to `bound` - 1.
    pub fn below(&mut self, bound: usize) -> usize {
        ((u128::from(self.number()) * bound as u128) >> 64) as usize
    }

    /// A number from `least` to `most`, both included.
    pub fn between(&mut self, least: usize, most: usize) -> usize {
        least + self.below(most - least + 1)
    }

    /// A number from `least` to `most`, both included.
    pub fn between_signed(&mut self, least: i64, most: i64) -> i64 {
        least + self.below((most - least + 1) as usize) as i64
    }

    pub fn byte(&mut self) -> u8 {
        self.number() as u8
    }

    /// Yes in `in_hundred` of a hundred cases.
    pub fn chance(&mut self, in_hundred: usize) -> bool {
        self.below(100) < in_hundred
    }

    pub fn pick<T: Copy>(&mut self, from: &[T]) -> T {
        from[self.below(from.len())]
    }

    pub fn shuffle<T>(&mut self, row: &mut [T]) {
        for end in (1..row.len()).rev() {
            row.swap(end, self.below(end + 1));
        }
    }
}
