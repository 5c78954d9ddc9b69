//! Random numbers: xoshiro256**, seeded by splitmix64. The same seed gives the same numbers everywhere.

pub struct Random([u64; 4]);

fn splitmix(state: &mut u64) -> u64 {
    *state = state.wrapping_add(0x9e37_79b9_7f4a_7c15);
    let mut z = *state;
    z = (z ^ (z >> 30)).wrapping_mul(0xbf58_476d_1ce4_e5b9);
    z = (z ^ (z >> 27)).wrapping_mul(0x94d0_49bb_1331_11eb);
    z ^ (z >> 31)
}

impl Random {
    /// The numbers of one hand-in: those of another seed or another number are unrelated.
    pub fn new(seed: u64, number: u64) -> Random {
        let mut state = seed;
        let mut state = splitmix(&mut state) ^ number.wrapping_mul(0xd6e8_feb8_6659_fd93);
        Random([0; 4].map(|_| splitmix(&mut state)))
    }

    pub fn bits(&mut self) -> u64 {
        let s = &mut self.0;
        let result = s[1].wrapping_mul(5).rotate_left(7).wrapping_mul(9);
        let t = s[1] << 17;
        s[2] ^= s[0];
        s[3] ^= s[1];
        s[1] ^= s[2];
        s[0] ^= s[3];
        s[2] ^= t;
        s[3] = s[3].rotate_left(45);
        result
    }

    /// A number below `n`, which is not 0.
    pub fn below(&mut self, n: usize) -> usize {
        ((u128::from(self.bits()) * n as u128) >> 64) as usize
    }

    /// A number from `low` to `high`, both included.
    pub fn between(&mut self, low: usize, high: usize) -> usize {
        low + self.below(high - low + 1)
    }

    pub fn byte(&mut self) -> u8 {
        self.bits() as u8
    }

    pub fn word(&mut self) -> u16 {
        self.bits() as u16
    }

    /// True so often of a hundred times.
    pub fn percent(&mut self, chance: usize) -> bool {
        self.below(100) < chance
    }

    pub fn pick<T: Copy>(&mut self, from: &[T]) -> T {
        from[self.below(from.len())]
    }

    /// An index, each as often as its weight says; none where all weights are 0.
    pub fn weighted(&mut self, weights: impl Iterator<Item = usize> + Clone) -> Option<usize> {
        let total: usize = weights.clone().sum();
        if total == 0 {
            return None;
        }
        let mut left = self.below(total);
        for (i, weight) in weights.enumerate() {
            if left < weight {
                return Some(i);
            }
            left -= weight;
        }
        None
    }

    pub fn shuffle<T>(&mut self, items: &mut [T]) {
        for i in (1..items.len()).rev() {
            items.swap(i, self.below(i + 1));
        }
    }

    /// A mask in which each of the lowest `n` bits is set so often of a hundred times.
    pub fn mask(&mut self, n: usize, chance: usize) -> u32 {
        (0..n).fold(0, |mask, y| mask | u32::from(self.percent(chance)) << y)
    }
}
