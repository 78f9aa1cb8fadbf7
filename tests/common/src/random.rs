//! Random numbers that are the same in every run, and what they alter.

/// Adds an error to a symbol, modulo q.
pub fn alter(q: u32, symbol: &mut u8, error: u8) {
    *symbol = (*symbol + error) % q as u8;
}

/// The symbols with the same error added to each, modulo q.
pub fn turned(q: u32, symbols: &[u8], error: u8) -> Vec<u8> {
    symbols.iter().map(|symbol| (symbol + error) % q as u8).collect()
}

/// A xorshift generator.
pub struct Random(u64);

impl Random {
    /// The seed is not 0.
    pub fn new(seed: u64) -> Random {
        Random(seed)
    }

    pub fn next(&mut self) -> u64 {
        self.0 ^= self.0 << 13;
        self.0 ^= self.0 >> 7;
        self.0 ^= self.0 << 17;
        self.0
    }

    /// A number below the bound, which is at least 1.
    pub fn below(&mut self, bound: usize) -> usize {
        ((self.next() >> 11) % bound as u64) as usize
    }

    /// True once in so many times.
    pub fn one_in(&mut self, times: usize) -> bool {
        self.below(times) == 0
    }

    /// A number from -1 to 1.
    pub fn unit(&mut self) -> f32 {
        (self.next() >> 40) as f32 / (1 << 23) as f32 - 1.0
    }

    pub fn pick<T: Copy>(&mut self, list: &[T]) -> T {
        list[self.below(list.len())]
    }

    pub fn bytes(&mut self, length: usize) -> Vec<u8> {
        (0..length).map(|_| self.below(256) as u8).collect()
    }

    pub fn symbols(&mut self, q: u32, length: usize) -> Vec<u8> {
        (0..length).map(|_| self.below(q as usize) as u8).collect()
    }

    /// The error of an altered symbol: what is added to it modulo q, from 1 to q - 1.
    pub fn error(&mut self, q: u32) -> u8 {
        1 + self.below(q as usize - 1) as u8
    }

    /// So many of the places, or all where there are fewer.
    pub fn choose<'a>(&mut self, places: &'a mut [usize], count: usize) -> &'a [usize] {
        let count = count.min(places.len());
        for from in 0..count {
            let other = from + self.below(places.len() - from);
            places.swap(from, other);
        }
        &places[..count]
    }
}
