//! Pseudo-random numbers.

pub struct Random(pub u64);

impl Random {
    pub fn next(&mut self) -> u64 {
        self.0 ^= self.0 << 13;
        self.0 ^= self.0 >> 7;
        self.0 ^= self.0 << 17;
        self.0
    }

    pub fn below(&mut self, bound: usize) -> usize {
        (self.next() >> 16) as usize % bound
    }

    /// True once in `many` times.
    pub fn once_in(&mut self, many: usize) -> bool {
        self.below(many) == 0
    }

    pub fn fill(&mut self, bytes: &mut [u8]) {
        bytes
            .iter_mut()
            .for_each(|b| *b = (self.next() >> 32) as u8);
    }

    /// Some of the state's numbers become others.
    pub fn disturb(&mut self, state: &mut [u8]) {
        for _ in 0..self.below(4) {
            let at = self.below(state.len() / 8) * 8;
            let number = match self.below(5) {
                0 => self.next(),
                1 => u64::MAX,
                2 => 1 << self.below(64),
                3 => u64::from_le_bytes(state[at..at + 8].try_into().unwrap()) ^ 1 << self.below(5),
                _ => self.below(20) as u64,
            };
            state[at..at + 8].copy_from_slice(&number.to_le_bytes());
        }
    }

    /// Sometimes the length is wrong, sometimes everything is.
    pub fn spoil(&mut self, bytes: &mut Vec<u8>) {
        match self.below(24) {
            0 => bytes.truncate(self.below(bytes.len() + 1)),
            1 => bytes.push(0),
            2 => self.fill(bytes),
            _ => {}
        }
    }
}
