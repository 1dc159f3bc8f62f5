//! Numbers by chance: splitmix64, the same on every machine.

pub struct Rng(u64);

impl Rng {
    pub fn new(seed: u64) -> Rng {
        Rng(seed)
    }

    pub fn next(&mut self) -> u64 {
        self.0 = self.0.wrapping_add(0x9E3779B97F4A7C15);
        let mut z = self.0;
        z = (z ^ (z >> 30)).wrapping_mul(0xBF58476D1CE4E5B9);
        z = (z ^ (z >> 27)).wrapping_mul(0x94D049BB133111EB);
        z ^ (z >> 31)
    }

    pub fn below(&mut self, n: usize) -> usize {
        (self.next() % n as u64) as usize
    }

    /// From a to b, ends included.
    pub fn between(&mut self, a: i64, b: i64) -> i64 {
        a + self.below((b - a + 1) as usize) as i64
    }

    /// From 0 up to 1.
    pub fn unit(&mut self) -> f64 {
        (self.next() >> 11) as f64 / (1u64 << 53) as f64
    }

    /// True in one of n draws.
    pub fn one_in(&mut self, n: usize) -> bool {
        self.below(n) == 0
    }

    pub fn pick<T: Copy>(&mut self, of: &[T]) -> T {
        of[self.below(of.len())]
    }

    pub fn sign(&mut self, x: f64) -> f64 {
        if self.one_in(2) {
            x
        } else {
            -x
        }
    }

    pub fn shuffle<T>(&mut self, xs: &mut [T]) {
        for i in (1..xs.len()).rev() {
            xs.swap(i, self.below(i + 1));
        }
    }

    /// The faults that a case gets, by their places in a list of so many: none in half of the cases, else one or two.
    pub fn faults(&mut self, of: usize) -> Vec<usize> {
        let mut some: Vec<usize> = match self.below(10) {
            0..=4 => vec![],
            5..=7 => vec![self.below(of)],
            _ => vec![self.below(of), self.below(of)],
        };
        some.sort();
        some
    }
}

/// Whole numbers at the ends of 64 bits.
pub const FAR: [i64; 3] = [i64::MAX, i64::MIN, i64::MIN + 1];
