//! One weight over 24 rows: 64 sets of rows by 64 points, every pair once in 4,096 calls.
use crate::clock::{clock, median};
use crate::{calls, kernels};
use phonors::tetrahedron_method::{integration_weight, WeightFunction};
use std::hint::black_box;

/// The Rust; the entry with its questions; the kernel on rows in order already. `none` makes no call.
pub const VARIANTS: [&str; 7] = [
    "none", "rust_i", "entry_i", "sorted_i", "rust_j", "entry_j", "sorted_j",
];

struct Set {
    rows: [[f64; 4]; 24],
    given: [f64; 384],
    sorted: [f64; 384],
    places: [usize; 96],
}

pub struct Inputs {
    sets: Vec<Set>,
    omegas: Vec<f64>,
}

/// Request 1's numbers from a start, divided by 65,536: from 0 up to 1.
struct Draws(u32);

impl Draws {
    fn unit(&mut self) -> f64 {
        self.0 = self.0.wrapping_mul(1664525).wrapping_add(1013904223);
        (self.0 >> 16) as f64 / 65536.0
    }
}

fn set(x: &mut Draws) -> Set {
    let rows = [[0.0; 4]; 24].map(|row: [f64; 4]| {
        let base = x.unit() * 10.0;
        row.map(|_| base + x.unit() * 4.0)
    });
    let mut given = [0.0; 384];
    given[..96].copy_from_slice(&rows.concat());
    let (mut sorted, mut places) = (given, [0; 96]);
    kernels::sort(&mut sorted, &mut places, 24);
    Set {
        rows,
        given,
        sorted,
        places,
    }
}

impl Inputs {
    pub fn new() -> Inputs {
        let mut x = Draws(0);
        let sets = (0..64).map(|_| set(&mut x)).collect();
        Inputs {
            sets,
            omegas: (0..64).map(|_| x.unit() * 14.0).collect(),
        }
    }

    /// The sum of so many weights of a variant.
    pub fn run(&self, variant: usize, weights: usize) -> f64 {
        let mut sum = 0.0;
        for q in 0..weights {
            let s = black_box(&self.sets[q % 64]);
            let omega = black_box(self.omegas[(q / 64 + q) % 64]);
            sum += one(variant, s, omega);
        }
        black_box(sum)
    }
}

#[inline(always)]
fn one(variant: usize, s: &Set, omega: f64) -> f64 {
    let i = variant < 4;
    match variant {
        1 | 4 => {
            let function = if i {
                WeightFunction::I
            } else {
                WeightFunction::J
            };
            integration_weight(omega, &s.rows, function)
        }
        2 | 5 => entry(i, omega, &s.given[..96]),
        3 | 6 => kernels::sorted(i, omega, &s.sorted, &s.places, 24),
        _ => omega,
    }
}

fn entry(i: bool, omega: f64, vertices: &[f64]) -> f64 {
    let mut w = 0.0;
    let no = calls::weight(omega, vertices, if i { b'I' } else { b'J' }, &mut w);
    assert!(no == 0, "refused {no}");
    w
}

/// Whether every variant gives the Rust's bits at each of the 4,096 pairs.
pub fn compare() -> bool {
    let x = Inputs::new();
    let same = |q: usize, v: usize| {
        let (s, omega) = (&x.sets[q % 64], x.omegas[q / 64]);
        let rust = if v < 4 { 1 } else { 4 };
        one(v, s, omega).to_bits() == one(rust, s, omega).to_bits()
    };
    (0..4096).all(|q| (1..7).all(|v| same(q, v)))
}

/// Nanoseconds of one weight, the variants in turn, medians of the rounds.
pub fn time(weights: usize, rounds: usize) {
    let x = Inputs::new();
    let mut took = vec![vec![]; 7];
    for _ in 0..rounds {
        for (v, t) in took.iter_mut().enumerate() {
            let ms = clock(|| _ = x.run(v, weights));
            t.push(ms * 1e6 / weights as f64);
        }
    }
    for (name, t) in VARIANTS.iter().zip(took) {
        println!("{name} {:.1}", median(t));
    }
}
