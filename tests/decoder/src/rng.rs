//! A small generator of pseudo-random numbers (splitmix64).

pub struct Rng(u64);

impl Rng {
    pub fn new(seed: u64, index: u64) -> Rng {
        let mut rng = Rng(seed);
        rng.0 = rng.next() ^ index.wrapping_mul(0xd1342543de82ef95);
        rng
    }

    fn next(&mut self) -> u64 {
        self.0 = self.0.wrapping_add(0x9e3779b97f4a7c15);
        let z = (self.0 ^ (self.0 >> 30)).wrapping_mul(0xbf58476d1ce4e5b9);
        let z = (z ^ (z >> 27)).wrapping_mul(0x94d049bb133111eb);
        z ^ (z >> 31)
    }

    /// A number below `n`.
    pub fn below(&mut self, n: usize) -> usize {
        (self.next() % n as u64) as usize
    }

    /// A number from `low` to `high`, often one of these two.
    pub fn within(&mut self, low: usize, high: usize) -> usize {
        match self.below(8) {
            0 => low,
            1 => high,
            _ => low + self.below(high - low + 1),
        }
    }

    pub fn one_in(&mut self, n: usize) -> bool {
        self.below(n) == 0
    }

    pub fn pick<'a>(&mut self, from: &[&'a str]) -> &'a str {
        from[self.below(from.len())]
    }

    pub fn letters(&mut self, count: usize) -> String {
        (0..count).map(|_| (b'A' + self.below(26) as u8) as char).collect()
    }
}
