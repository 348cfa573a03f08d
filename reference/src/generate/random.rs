//! A small deterministic source of numbers (splitmix64).

#[derive(Clone, Debug)]
pub struct Random {
    state: u64,
}

impl Random {
    /// `stream` keeps the kinds of cases apart that start from one seed.
    pub fn new(seed: u64, stream: u64) -> Random {
        let mut random = Random {
            state: seed ^ stream.wrapping_mul(0xD6E8_FEB8_6659_FD93),
        };
        random.step();
        random
    }

    pub fn step(&mut self) -> u64 {
        self.state = self.state.wrapping_add(0x9E37_79B9_7F4A_7C15);
        let mut z = self.state;
        z = (z ^ (z >> 30)).wrapping_mul(0xBF58_476D_1CE4_E5B9);
        z = (z ^ (z >> 27)).wrapping_mul(0x94D0_49BB_1331_11EB);
        z ^ (z >> 31)
    }

    /// A number below `limit`, which is above 0. The bias is far too small to
    /// matter for making cases.
    pub fn below(&mut self, limit: usize) -> usize {
        (self.step() % limit as u64) as usize
    }

    /// A number from `low` to `high`, both included.
    pub fn between(&mut self, low: usize, high: usize) -> usize {
        low + self.below(high - low + 1)
    }

    /// True `times` out of `of` times.
    pub fn chance(&mut self, times: usize, of: usize) -> bool {
        self.below(of) < times
    }

    pub fn bits(&mut self) -> u32 {
        self.step() as u32
    }

    pub fn byte(&mut self) -> u8 {
        self.step() as u8
    }

    /// One of `choices`, which isn't empty.
    pub fn pick<T: Copy>(&mut self, choices: &[T]) -> T {
        choices[self.below(choices.len())]
    }

    /// A capacity for something that needs `needed`: none, one short, exact
    /// (mostly), or more.
    pub fn capacity(&mut self, needed: usize) -> usize {
        match self.below(12) {
            0 => 0,
            1 => needed.saturating_sub(1),
            2 => self.between(0, needed),
            3..=6 => needed + self.between(1, 20),
            _ => needed,
        }
    }

    pub fn words(&mut self, count: usize) -> Vec<u32> {
        (0..count).map(|_| self.bits()).collect()
    }

    pub fn bytes(&mut self, count: usize) -> Vec<u8> {
        (0..count).map(|_| self.byte()).collect()
    }
}
