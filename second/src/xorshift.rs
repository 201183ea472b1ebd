//! A seeded pseudo-random generator (xorshift64*), so that every run sees the same numbers.

pub struct Xorshift {
    state: u64,
}

impl Xorshift {
    /// A zero state would stay zero for ever, so a zero seed is replaced.
    pub fn new(seed: u64) -> Self {
        let state = if seed == 0 {
            0x9E37_79B9_7F4A_7C15
        } else {
            seed
        };
        Xorshift { state }
    }

    pub fn next_u64(&mut self) -> u64 {
        self.state ^= self.state >> 12;
        self.state ^= self.state << 25;
        self.state ^= self.state >> 27;
        self.state.wrapping_mul(0x2545_F491_4F6C_DD1D)
    }

    pub fn next_u128(&mut self) -> u128 {
        u128::from(self.next_u64()) << 64 | u128::from(self.next_u64())
    }

    /// A number in 0..limit; the slight bias of the remainder does not matter for tests.
    pub fn below(&mut self, limit: u64) -> u64 {
        (self.next_u64() >> 16) % limit
    }

    pub fn bytes(&mut self, length: usize) -> Vec<u8> {
        (0..length).map(|_| self.next_u64() as u8).collect()
    }

    pub fn pick<T: Copy>(&mut self, from: &[T]) -> T {
        from[self.below(from.len() as u64) as usize]
    }

    /// So many different numbers below the limit.
    pub fn choose(&mut self, limit: usize, count: usize) -> Vec<usize> {
        let mut chosen = Vec::new();
        while chosen.len() < count {
            let number = self.below(limit as u64) as usize;
            if !chosen.contains(&number) {
                chosen.push(number);
            }
        }
        chosen
    }
}
