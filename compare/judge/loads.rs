//! Test frequencies. The original has none, so request 1's words judge, as written here.
use crate::calls;
use crate::lent::{any, Lent};
use crate::report::{Kind, Seen};
use crate::rng::Rng;

pub const KINDS: [Kind; 1] = [Kind::telling("loads", &[], "fill all three records")];

/// A 32-bit number of the chain.
struct Chain(u32);

impl Chain {
    /// The frequency of the next number: it "becomes 1664525 times itself plus 1013904223, modulo 2^32", and then "its upper 16 bits as a
    /// whole number divided by 4096".
    fn next(&mut self) -> f64 {
        self.0 = self.0.wrapping_mul(1664525).wrapping_add(1013904223);
        let [_, _, low, high] = self.0.to_le_bytes();
        f64::from(u16::from_le_bytes([low, high])) / 4096.0
    }

    fn record(&mut self, count: usize) -> Vec<f64> {
        (0..count).map(|_| self.next()).collect()
    }
}

/// "One start, any 32-bit number, fills the first frequency record, then the second, then the points".
fn records(start: u32, lengths: [usize; 3]) -> [Vec<f64>; 3] {
    let mut chain = Chain(start);
    lengths.map(|n| chain.record(n))
}

fn start(r: &mut Rng) -> u32 {
    let ends = [
        0,
        1,
        1 << 16,
        1 << 31,
        (1 << 31) - 1,
        u32::MAX - 1,
        u32::MAX,
    ];
    if r.one_in(4) {
        r.pick(&ends)
    } else {
        r.next() as u32
    }
}

fn length(r: &mut Rng) -> usize {
    match r.below(64) {
        0 => r.below(3000),
        1..=15 => 0,
        _ => 1 + r.below(24),
    }
}

pub fn cases(r: &mut Rng, seen: &mut [Seen]) {
    let start = start(r);
    let lengths = [0; 3].map(|_| length(r));
    let content = records(start, lengths);
    let mut out = lengths.map(|n| {
        let before = any(r, n);
        Lent::new(r, &before)
    });
    calls::fill_frequencies(start, out.each_mut().map(Lent::lend));
    let right = out.iter().zip(&content).all(|(b, x)| b.holds(x));
    seen[0].tell(lengths.iter().all(|n| *n > 0));
    seen[0].note(0, right, || {
        format!("{start}, {lengths:?}, {:?}", out.each_mut().map(Lent::lend))
    });
}
