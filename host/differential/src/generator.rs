//! The sequence that scripts and devices are drawn from: splitmix64, in which any number is a seed and
//! neighbouring seeds give sequences that have nothing in common.

pub struct Generator {
    state: u64,
}

impl Generator {
    pub fn with_seed(seed: u64) -> Generator {
        Generator { state: seed }
    }

    /// Any number of 64 bits.
    pub fn draw(&mut self) -> u64 {
        self.state = self.state.wrapping_add(0x9e37_79b9_7f4a_7c15);
        let mixed = (self.state ^ (self.state >> 30)).wrapping_mul(0xbf58_476d_1ce4_e5b9);
        let mixed = (mixed ^ (mixed >> 27)).wrapping_mul(0x94d0_49bb_1331_11eb);
        mixed ^ (mixed >> 31)
    }

    /// A number below `limit`; limits are so small that the remainder's bias is nothing to a test.
    pub fn below(&mut self, limit: u64) -> u64 {
        self.draw() % limit
    }

    /// A number from `least` to `most`, both among them.
    pub fn between(&mut self, least: u64, most: u64) -> u64 {
        least + self.below(most - least + 1)
    }

    pub fn one_in(&mut self, times: u64) -> bool {
        self.below(times) == 0
    }

    pub fn flip(&mut self) -> bool {
        self.one_in(2)
    }

    pub fn byte(&mut self) -> u8 {
        self.draw().to_le_bytes()[7]
    }

    pub fn word(&mut self) -> u16 {
        u16::from_le_bytes([self.byte(), self.byte()])
    }

    /// A byte below `limit`, which is at most 256.
    pub fn small(&mut self, limit: u64) -> u8 {
        self.below(limit).to_le_bytes()[0]
    }

    /// One of the choices; one that is named twice comes twice as often.
    pub fn pick<T: Copy>(&mut self, choices: &[T]) -> T {
        choices[self.draw() as usize % choices.len()]
    }
}

#[cfg(test)]
mod tests {
    use super::Generator;

    #[test]
    fn the_same_seed_gives_the_same_sequence() {
        let (mut one, mut other) = (Generator::with_seed(7), Generator::with_seed(7));
        assert!((0..100).all(|_| one.draw() == other.draw()));
    }

    #[test]
    fn it_is_splitmix64() {
        let mut draws = Generator::with_seed(1_234_567);
        assert_eq!(draws.draw(), 6_457_827_717_110_365_317);
        assert_eq!(draws.draw(), 3_203_168_211_198_807_973);
    }

    #[test]
    fn every_small_number_comes() {
        let mut draws = Generator::with_seed(1);
        let mut seen = [false; 16];
        (0..1000).for_each(|_| seen[usize::from(draws.small(16))] = true);
        assert_eq!(seen, [true; 16]);
    }
}
