//! The small study of the tests and the example: data/study.txt.
#![allow(dead_code)] // each test and the example uses a part of it
use pelmetsavory::{relative_grid_address, Piece, Shape, Sheet, Study, Tally};

pub const ADDRESSES: [i64; 36] = [0, 0, 0, 1, 0, 0, -1, 0, 0, 0, 1, 0, 0, -1, 0, 1, 1, 0, 0, 0, 1, 0, 0, -1, 1, 0, 1, 0, 1, 1, 1, 1, 1, -1, -1, -1];
pub const GP_MAP: [i64; 9] = [0, 1, 3, 5, 6, 8, 9, 10, 12];
/// What the counts of a test begin with: worker 9's is full.
pub const BEGUN: Tally = [40, 43, 46, 49, 52, 55, 58, 61, 64, i64::MAX as u64, 70, 73, 76, 79, 82, 85];

pub struct Small {
    pub table: [i64; 288],
    pub frequencies1: Vec<f64>,
    pub frequencies2: Vec<f64>,
}

impl Small {
    pub fn new() -> Small {
        let (table, number) = relative_grid_address(&[1., 1., 0., 0., 1., 0., 0., 0., 1.]).unwrap();
        assert_eq!(number, 1);
        let n = |k: i32| 7 * (k / 3) * (k / 3) + 5 * (k % 3) + 3 * (k / 3) * (k % 3);
        let made = |f: fn(i32) -> i32| (0..36).map(|k| f(n(k)) as f64 / 8.0).collect();
        Small { table, frequencies1: made(|n| n % 17 + 1), frequencies2: made(|n| n % 13 - 1) }
    }

    pub fn study(&self) -> Study<'_> {
        Study {
            shape: Shape { bz_grid_type: 2, d_diag: [2, 2, 2], tp_type: 3, num_band1: 3, num_band2: 3 },
            addresses: &ADDRESSES,
            gp_map: &GP_MAP,
            relative_grid_address: &self.table,
            frequencies1: &self.frequencies1,
            frequencies2: &self.frequencies2,
            frequency_points: &[0.0, 0.5, 1.25, 3.0, 9.0],
            triplets: &[0, 1, 2, 3, 5, 6, 4, 11, 7],
        }
    }
}

/// A sheet with every entry as told, all pieces open.
pub fn filled(y: &Study, weight: f64, flag: i8, tally: Tally) -> Sheet {
    let mut s = Sheet::with_tally(y, tally);
    s.weights.fill(weight);
    s.flags.fill(flag);
    s
}

/// All that a sheet holds, with the floats as bits.
pub fn all_of(s: &Sheet) -> (Vec<u64>, Vec<i8>, Vec<u8>, Tally, Tally) {
    (s.weights.iter().map(|w| w.to_bits()).collect(), s.flags.clone(), s.marks.clone(), s.tally, s.began())
}

/// A tally in which some counts are greater by so many.
pub fn plus(mut tally: Tally, added: &[(usize, u64)]) -> Tally {
    added.iter().for_each(|&(worker, runs)| tally[worker] += runs);
    tally
}

pub fn piece_at(p: usize) -> Piece {
    Piece { triplet: (p / 9) as i64, b1: (p / 3 % 3) as i64, b2: (p % 3) as i64 }
}
