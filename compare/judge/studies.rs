//! Studies, sound and with faults.
use crate::grids::{self, grid};
use crate::rng::{Rng, FAR};
use crate::study::{triples, Study};
use crate::values::{self, beyond, frequencies, FREQUENCY, POINT};
use phonors::bzgrid::neighboring_grid_points_many;
use phonors::tetrahedron_method::all_relative_grid_address;

/// A table of 24, 48, 72 or 96 rows: built-in ones, or corners of any kind.
pub fn table(r: &mut Rng) -> Vec<i64> {
    let sets = r.pick(&[1, 1, 1, 2, 3, 4]);
    match r.below(8) {
        0 => (0..288 * sets)
            .map(|_| r.pick(&[0, 1, -1, 4096, -4096, 4095]))
            .collect(),
        1 => (0..288 * sets).map(|_| r.between(-2, 2)).collect(),
        _ => (0..sets)
            .flat_map(|_| all_relative_grid_address()[r.below(4)].concat().concat())
            .collect(),
    }
}

/// Band counts: mostly few, now and then the most.
fn bands(r: &mut Rng) -> [i64; 2] {
    match r.below(100) {
        0 => [64, r.between(1, 2)],
        1 => [r.between(1, 2), 64],
        _ => [r.between(1, 3), r.between(1, 3)],
    }
}

/// How many points and triplets: mostly few, now and then the most.
fn lengths(r: &mut Rng) -> [usize; 2] {
    match r.below(20000) {
        0 => [1, 65536],
        1..=40 => [r.pick(&[1023, 1024]), 1],
        41..=600 => [1, 0],
        _ => [r.between(1, 5) as usize, r.between(1, 3) as usize],
    }
}

/// A sound study.
pub fn study(r: &mut Rng) -> Study {
    let grid = grid(r);
    let p = grid.count();
    let [points, triplets] = lengths(r);
    let bands = if points + triplets > 100 {
        [1, 1]
    } else {
        bands(r)
    };
    let style = r.pick(&values::STYLES);
    let mut s = Study {
        table: table(r),
        tp: r.between(2, 4),
        bands,
        f1: frequencies(r, style, p * bands[0] as usize),
        f2: frequencies(r, style, p * bands[1] as usize),
        points: vec![],
        triplets: (0..3 * triplets).map(|_| r.below(p) as i64).collect(),
        grid,
    };
    let matter = corner_values(r, &s);
    s.points = values::points(r, &matter, points);
    s
}

/// Values of all channels at the corners of a piece, whose ends are the ends of boxes.
fn corner_values(r: &mut Rng, s: &Study) -> Vec<f64> {
    let Some(t) = triples(&s.triplets).first().copied() else {
        return vec![1.0];
    };
    let addresses = triples(&s.grid.addresses);
    let steps = triples(&s.table);
    let back: Vec<_> = steps
        .iter()
        .map(|a| a.map(|x| if s.tp == 4 { x } else { -x }))
        .collect();
    let corners = |gp: i64, steps: &[[i64; 3]]| {
        let mut out = vec![0; steps.len()];
        neighboring_grid_points_many(&mut out, &[gp], steps, &s.grid.view(&addresses)).unwrap();
        out
    };
    let (b1, b2) = (r.below(s.bands[0] as usize), r.below(s.bands[1] as usize));
    let clamp = |x: f64| if s.tp != 4 && x < 0.0 { 0.0 } else { x };
    let mut all = vec![];
    for (a, b) in corners(t[1], &steps).iter().zip(corners(t[2], &back)) {
        let x = clamp(s.f1[*a as usize * s.bands[0] as usize + b1]);
        let y = clamp(s.f2[b as usize * s.bands[1] as usize + b2]);
        all.extend([y - x, x - y, x + y]);
    }
    all.sort_by(f64::total_cmp);
    // the ends, and some between
    let n = all.len();
    [0, n - 1, 0, n - 1, r.below(n), r.below(n), r.below(n)]
        .map(|k| all[k])
        .to_vec()
}

/// Faults, those of questions 3 to 11.
pub const FAULTS: [fn(&mut Rng, &mut Study); 9] = [
    |r, s| grids::FAULTS[0](r, &mut s.grid),
    |r, s| grids::FAULTS[1](r, &mut s.grid),
    |r, s| grids::FAULTS[2](r, &mut s.grid),
    |r, s| grids::FAULTS[3](r, &mut s.grid),
    |r, s| spoil_table(r, &mut s.table),
    |r, s| s.tp = spoiled_type(r),
    spoil_counts,
    spoil_triplets,
    spoil_frequencies,
];

pub fn spoil_table(r: &mut Rng, t: &mut Vec<i64>) {
    match r.below(6) {
        0 => t.clear(),
        1 => t.truncate(t.len().saturating_sub(12)),
        2 => t.extend(vec![0; r.pick(&[1, 3, 12, 144])]),
        3 => t.truncate(t.len().saturating_sub(r.between(1, 11) as usize)),
        _ => {
            if !t.is_empty() {
                let k = r.below(t.len());
                t[k] = r.pick(&[4097, -4097, i64::MAX, i64::MIN]);
            }
        }
    }
}

pub fn spoiled_type(r: &mut Rng) -> i64 {
    r.pick(&[0, 1, 5, -2, -3, -4, (1 << 32) + 2, FAR[0], FAR[1], FAR[2]])
}

/// A count that question 9 turns down; `most` is the greatest that it takes.
pub fn spoiled_count(r: &mut Rng, most: i64) -> i64 {
    r.pick(&[
        0,
        -1,
        -most,
        most + 1,
        1 << 32,
        (1 << 32) + 1,
        FAR[0],
        FAR[1],
    ])
}

fn spoil_counts(r: &mut Rng, s: &mut Study) {
    match r.below(20) {
        0 => {
            s.triplets =
                vec![s.triplets.first().copied().unwrap_or(0); 3 * 65536 + r.pick(&[1, 2, 3])]
        }
        1..=4 => s.points.clear(),
        5..=8 => s.points = vec![1.0; 1025],
        k => s.bands[k % 2] = spoiled_count(r, 64),
    }
}

/// A grid point that is none.
pub fn off_grid(r: &mut Rng, p: i64) -> i64 {
    r.pick(&[-1, p, p + 1, 8 * p, FAR[0], FAR[1]])
}

fn spoil_triplets(r: &mut Rng, s: &mut Study) {
    let p = s.grid.count() as i64;
    if s.triplets.is_empty() {
        s.triplets = vec![0; 3];
    }
    let n = s.triplets.len();
    match r.below(8) {
        0 => s.triplets.truncate(n - r.between(1, 2) as usize),
        1 => s.triplets.push(0),
        _ => {
            let k = r.below(n);
            s.triplets[k] = off_grid(r, p);
        }
    }
}

/// One value turned into one that question 11 turns down, or a length that is wrong.
pub fn spoil_floats(r: &mut Rng, f: &mut Vec<f64>, limits: [f64; 2]) {
    match r.below(6) {
        0 => drop(f.pop()),
        1 => f.push(1.0),
        2 => f.clear(),
        _ => spoil_float(r, f, limits),
    }
}

pub fn spoil_float(r: &mut Rng, f: &mut [f64], limits: [f64; 2]) {
    if !f.is_empty() {
        f[r.below(f.len())] = beyond(r, limits);
    }
}

fn spoil_frequencies(r: &mut Rng, s: &mut Study) {
    match r.below(5) {
        0 | 1 => spoil_floats(r, &mut s.f1, FREQUENCY),
        2 | 3 => spoil_floats(r, &mut s.f2, FREQUENCY),
        _ => spoil_float(r, &mut s.points, POINT),
    }
}

/// A length that is not this one.
pub fn other_length(r: &mut Rng, length: usize) -> usize {
    let other = r.pick(&[
        length + 1,
        length.saturating_sub(1),
        0,
        2 * length,
        length + 3,
    ]);
    if other == length {
        length + 1
    } else {
        other
    }
}
