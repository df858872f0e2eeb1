//! A small deterministic generator, so that every run compares the same cases.

/// Xorshift with a multiplied output.
pub struct Random {
    state: u64,
}

impl Random {
    /// The seed must not be 0.
    pub fn new(seed: u64) -> Random {
        assert_ne!(seed, 0, "xorshift stays at 0");
        Random { state: seed }
    }

    pub fn word(&mut self) -> u64 {
        self.state ^= self.state >> 12;
        self.state ^= self.state << 25;
        self.state ^= self.state >> 27;
        self.state.wrapping_mul(0x2545_f491_4f6c_dd1d)
    }

    /// A number below `bound`, which isn't 0.
    pub fn below(&mut self, bound: usize) -> usize {
        ((u128::from(self.word()) * bound as u128) >> 64) as usize
    }

    /// True once in `among` times.
    pub fn once_in(&mut self, among: usize) -> bool {
        self.below(among) == 0
    }

    pub fn pick<T: Copy>(&mut self, choices: &[T]) -> T {
        choices[self.below(choices.len())]
    }

    /// Puts a list into any order.
    pub fn shuffle<T>(&mut self, list: &mut [T]) {
        for place in 1..list.len() {
            list.swap(place, self.below(place + 1));
        }
    }
}
