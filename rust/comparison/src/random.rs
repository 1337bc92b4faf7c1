//! A seeded source of numbers: SplitMix64.

pub struct Random {
    state: u64,
}

impl Random {
    pub fn new(seed: u64) -> Random {
        Random { state: seed }
    }

    /// The stream of one case: it does not depend on the cases before it.
    pub fn of_case(seed: u64, number: u64) -> Random {
        let mut random = Random::new(seed.wrapping_add(number.wrapping_mul(0xD134_2543_DE82_EF95)));
        random.word();
        random
    }

    pub fn word(&mut self) -> u64 {
        self.state = self.state.wrapping_add(0x9E37_79B9_7F4A_7C15);
        let mut word = self.state;
        word = (word ^ (word >> 30)).wrapping_mul(0xBF58_476D_1CE4_E5B9);
        word = (word ^ (word >> 27)).wrapping_mul(0x94D0_49BB_1331_11EB);
        word ^ (word >> 31)
    }

    /// A number below the bound, which is not 0.
    pub fn below(&mut self, bound: usize) -> usize {
        (self.word() % bound as u64) as usize
    }

    /// True once in so many times.
    pub fn one_in(&mut self, times: usize) -> bool {
        self.below(times) == 0
    }

    pub fn of<T: Copy>(&mut self, choices: &[T]) -> T {
        choices[self.below(choices.len())]
    }

    /// An edge value, a small one, or any.
    pub fn u32(&mut self) -> u32 {
        match self.below(4) {
            0 => self.of(&EDGES),
            1 | 2 => self.below(12) as u32,
            _ => self.word() as u32,
        }
    }
}

/// Words at which arithmetic, comparisons, shifts and addresses turn.
pub const EDGES: [u32; 20] = [
    0, 1, 2, 3, 7, 15, 16, 31, 32, 33, 63, 64, 0x7FFF_FFFE, 0x7FFF_FFFF, 0x8000_0000, 0x8000_0001, 0xAAAA_5555, 0xFFFF_FFE0,
    0xFFFF_FFFE, 0xFFFF_FFFF,
];
