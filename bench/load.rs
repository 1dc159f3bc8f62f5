//! The load of request 13, and larger and smaller ones, made by the proved entry for test frequencies and handed to both sides.
use crate::calls::{self, Parts};
use crate::study::{rows, triples, Grid, Sheet, Study};
use phonors::common::Vec3I;
use phonors::tetrahedron_method::all_relative_grid_address;
use phonors::triplet::set_relative_grid_address;
use phonors::triplet_iw::{integration_weight_per_triplet, TpRelativeGridAddress, TpType};

pub struct Load {
    pub study: Study,
    /// Pairs of neighbouring bands are the degenerate sets.
    pub ids: Vec<i64>,
    /// Every piece as a named run, six numbers each, in ascending order, by the sixteen workers in turn.
    pub runs: Vec<i64>,
    // the study as the Rust takes it
    addresses: Vec<Vec3I>,
    tables: TpRelativeGridAddress,
    triplets: Vec<Vec3I>,
}

/// Request 1's frequencies from 0 by the proved entry: the first record, the second and the points.
fn made(lengths: [usize; 3]) -> [Vec<f64>; 3] {
    let mut out = lengths.map(|n| vec![-1.0; n]);
    calls::fill_frequencies(0, out.each_mut().map(Vec::as_mut_slice));
    out
}

/// The same again in plain Rust, one chain: what `made` is compared with.
fn chain(count: usize) -> Vec<f64> {
    let mut x: u32 = 0;
    let next = |_| {
        x = x.wrapping_mul(1664525).wrapping_add(1013904223);
        (x >> 16) as f64 / 4096.0
    };
    (0..count).map(next).collect()
}

/// A mesh of kind 2 with three equal numbers, one address a grid point.
fn grid(mesh: i64) -> Grid {
    let n = mesh.pow(3);
    let addresses = (0..n).flat_map(|i| [i % mesh, i / mesh % mesh, i / mesh / mesh]);
    Grid {
        kind: 2,
        mesh: [mesh; 3],
        addresses: addresses.collect(),
        map: (0..=n).collect(),
    }
}

impl Load {
    /// Table 0, type 2; triplet i is i, i, i. With mesh 12, 100 triplets, six bands and ten points, all drawn, it is request 13's load. Other
    /// points repeat the drawn ones, which are those behind six bands for all band counts.
    pub fn new(mesh: i64, count: usize, bands: usize, points: usize, drawn: usize) -> Load {
        let grid = grid(mesh);
        let p = grid.count();
        let [f1, f2, _] = made([p * bands, p * bands, 0]);
        let [_, _, ends] = made([6 * p, 6 * p, drawn]);
        let study = Study {
            table: all_relative_grid_address()[0].concat().concat(),
            tp: 2,
            bands: [bands as i64; 2],
            f1,
            f2,
            points: ends.into_iter().cycle().take(points).collect(),
            triplets: (0..count as i64).flat_map(|i| [i; 3]).collect(),
            grid,
        };
        let pieces = (count * bands * bands) as i64;
        let (b, pairs) = (bands as i64, (bands * bands) as i64);
        Load {
            runs: (0..pieces)
                .flat_map(|q| [0, q % 16, q / pairs, q % pairs / b, q % b, 0])
                .collect(),
            ids: (0..bands as i64).map(|b| b - b % 2).collect(),
            addresses: triples(&study.grid.addresses),
            tables: set_relative_grid_address(&rows(&study.table), study.tp),
            triplets: triples(&study.triplets),
            study,
        }
    }

    /// How many frequencies and points the load has, and how many of them differ in any bit from the plain chain; for six bands and all
    /// points drawn.
    pub fn drawn(&self) -> (usize, usize) {
        let s = &self.study;
        let all = [&s.f1[..], &s.f2, &s.points].concat();
        let other = all.iter().zip(chain(all.len()));
        let differ = other.filter(|(x, y)| x.to_bits() != y.to_bits()).count();
        (all.len(), differ)
    }

    /// A cleared sheet.
    pub fn sheet(&self) -> Sheet {
        let s = &self.study;
        let cells = s.count() * s.per();
        Sheet {
            weights: vec![0.0; s.channels() * cells],
            flags: vec![0; cells],
            marks: vec![0; s.count() * s.pairs()],
            tally: [0; 16],
        }
    }
}

pub fn clear(s: &mut Sheet) {
    s.weights.fill(0.0);
    s.flags.fill(0);
    s.marks.fill(0);
    s.tally = [0; 16];
}

/// The Rust's function for one triplet in a loop, on one thread.
#[inline(never)]
pub fn rust(l: &Load, sheet: &mut Sheet) {
    let s = &l.study;
    let (view, per) = (s.grid.view(&l.addresses), s.per());
    let (a, b) = sheet.weights.split_at_mut(s.count() * per);
    for (i, triplet) in l.triplets.iter().enumerate() {
        let part = i * per..(i + 1) * per;
        let mut channels: [&mut [f64]; 2] = [&mut a[part.clone()], &mut b[part.clone()]];
        integration_weight_per_triplet(
            &mut channels,
            &mut sheet.flags[part],
            &s.points,
            s.points.len() as i64,
            &l.tables,
            *triplet,
            &view,
            &s.f1,
            s.bands[0],
            &s.f2,
            s.bands[1],
            TpType::Type2,
        )
        .unwrap();
    }
}

#[inline(never)]
pub fn rust_average(l: &Load, sheet: &mut Sheet, i: usize) {
    sheet.rust_average(&l.study, i, [&l.ids, &l.ids]);
}

fn parts(s: &mut Sheet) -> Parts<'_> {
    Parts {
        weights: &mut s.weights,
        flags: &mut s.flags,
        marks: &mut s.marks,
        tally: &mut s.tally,
    }
}

/// Who carries on.
pub const CARRIER: usize = 7;

#[inline(never)]
pub fn carry_on(l: &Load, s: &mut Sheet) {
    let no = calls::carry_on(&l.study, parts(s), CARRIER as i64);
    assert!(no == 0, "refused {no}");
}

/// The entry for all triplets, which has no marks.
#[inline(never)]
pub fn all_triplets(l: &Load, s: &mut Sheet) {
    let no = calls::all_triplets(&l.study, &mut s.weights, &mut s.flags);
    assert!(no == 0, "refused {no}");
}

#[inline(never)]
pub fn run_piece(l: &Load, s: &mut Sheet, worker: usize, piece: [usize; 3]) {
    let no = calls::run_piece(&l.study, parts(s), worker as i64, piece.map(|x| x as i64));
    assert!(no == 0, "refused {no}");
}

/// All pieces as named runs in one list: an answer and sixteen counts for each.
#[inline(never)]
pub fn list(l: &Load, s: &mut Sheet) {
    let n = l.runs.len() / 6;
    let (mut answers, mut tallies) = (vec![1; n], vec![0; 16 * n]);
    let no = calls::play(&l.study, parts(s), &l.runs, &[], &mut answers, &mut tallies);
    assert!(no == 0 && answers.iter().all(|a| *a == 0), "refused {no}");
}

#[inline(never)]
pub fn average(l: &Load, s: &mut Sheet, i: usize) {
    let no = calls::average_triplet(&l.study, parts(s), i as i64, [&l.ids, &l.ids]);
    assert!(no == 0, "refused {no}");
}

/// The open count of triplet i.
#[inline(never)]
pub fn open_count(l: &Load, s: &Sheet, i: usize) -> u64 {
    let (y, mut count) = (&l.study, 0);
    let counts = [
        y.count() as i64,
        y.points.len() as i64,
        y.bands[0],
        y.bands[1],
    ];
    let no = calls::open_count(y.tp, counts, &s.weights, i as i64, &mut count);
    assert!(no == 0, "refused {no}");
    count
}

/// The entries of triplet i with a weight other than zero, plainly.
#[inline(never)]
pub fn plain_open_count(l: &Load, s: &Sheet, i: usize) -> u64 {
    let (per, cells) = (l.study.per(), s.flags.len());
    let open = |e: &usize| s.weights[*e..].iter().step_by(cells).any(|w| *w != 0.0);
    (i * per..(i + 1) * per).filter(open).count() as u64
}

/// A piece of a triplet that is not on the sheet: all the questions that every call asks, and no work.
#[inline(never)]
pub fn questions(l: &Load, s: &mut Sheet) {
    let piece = [l.study.count() as i64, 0, 0];
    let no = calls::run_piece(&l.study, parts(s), 0, piece);
    assert!(no == 14, "{no}, not refused with 14");
}
