//! A small generator of numbers (splitmix64); the same seed gives the same numbers.

pub struct Rng(u64);

impl Rng {
    pub fn new(seed: u64) -> Rng {
        Rng(seed)
    }

    fn next(&mut self) -> u64 {
        self.0 = self.0.wrapping_add(0x9E37_79B9_7F4A_7C15);
        let mut z = self.0;
        z = (z ^ (z >> 30)).wrapping_mul(0xBF58_476D_1CE4_E5B9);
        z = (z ^ (z >> 27)).wrapping_mul(0x94D0_49BB_1331_11EB);
        z ^ (z >> 31)
    }

    /// A number from 0 up to, and without, the limit.
    pub fn below(&mut self, limit: u64) -> u64 {
        self.next() % limit
    }

    /// A number between the two, both included.
    pub fn between(&mut self, low: u64, high: u64) -> u64 {
        low + self.below(high - low + 1)
    }

    pub fn small(&mut self, limit: u8) -> u8 {
        self.below(u64::from(limit)) as u8
    }

    pub fn byte(&mut self) -> u8 {
        self.below(256) as u8
    }

    pub fn chance(&mut self, percent: u64) -> bool {
        self.below(100) < percent
    }

    pub fn index<T>(&mut self, list: &[T]) -> usize {
        self.below(list.len() as u64) as usize
    }

    pub fn pick<T: Copy>(&mut self, list: &[T]) -> T {
        list[self.index(list)]
    }

    pub fn shuffled<T: Copy>(&mut self, list: &[T]) -> Vec<T> {
        let mut mixed = list.to_vec();
        for end in (1..mixed.len()).rev() {
            let other = self.below(end as u64 + 1) as usize;
            mixed.swap(end, other);
        }
        mixed
    }
}
