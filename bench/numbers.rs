//! Random numbers, the same in every run.

/// Each number of 64 bits but 0 comes once before any comes again.
pub struct Numbers {
    state: u64,
}

impl Numbers {
    pub fn new() -> Numbers {
        Numbers { state: 0x9e37_79b9_7f4a_7c15 }
    }

    pub fn next(&mut self) -> u64 {
        self.state ^= self.state << 13;
        self.state ^= self.state >> 7;
        self.state ^= self.state << 17;
        self.state
    }

    pub fn below(&mut self, bound: u64) -> u64 {
        self.next() % bound
    }

    pub fn sheet(&mut self, values: usize) -> Vec<u64> {
        (0..values).map(|_| self.next()).collect()
    }
}
