//! The proved entries with slices for pointers and lengths. Each that asks something gives 0 or the number of a refusal.
use crate::study::{Grid, Study};

#[path = "../../foreign/rust/src/c.rs"]
pub mod c;

#[link(name = "pelmetsavory", kind = "static")]
extern "C" {}

/// A call that takes a study, then more slices, then more words.
macro_rules! of_study {
    ($name:ident, $s:expr, [$($slice:expr),*], [$($word:expr),*]) => {
        unsafe {
            c::$name(
                $s.shape(),
                $s.grid.addresses.as_ptr(), $s.grid.addresses.len(),
                $s.grid.map.as_ptr(), $s.grid.map.len(),
                $s.table.as_ptr(), $s.table.len(),
                $s.f1.as_ptr(), $s.f1.len(),
                $s.f2.as_ptr(), $s.f2.len(),
                $s.points.as_ptr(), $s.points.len(),
                $($slice.0, $slice.1,)*
                $($word),*
            )
        }
    };
}

/// A call for weights at grid points.
macro_rules! at_grid_points {
    ($name:ident, $g:expr, $x:expr, $weights:expr, $letter:expr) => {
        unsafe {
            c::$name(
                $weights.as_mut_ptr(), $weights.len(),
                $x.points.as_ptr(), $x.points.len(),
                $x.table.as_ptr(), $x.table.len(),
                $x.gps.as_ptr(), $x.gps.len(),
                $x.frequencies.as_ptr(), $x.frequencies.len(),
                $x.bands,
                $x.irreducible,
                grid_of($g),
                $g.addresses.as_ptr(), $g.addresses.len(),
                $g.map.as_ptr(), $g.map.len(),
                $x.of_point.as_ptr(), $x.of_point.len(),
                $letter,
            )
        }
    };
}

fn read<T>(s: &[T]) -> (*const T, usize) {
    (s.as_ptr(), s.len())
}

fn write<T>(s: &mut [T]) -> (*mut T, usize) {
    (s.as_mut_ptr(), s.len())
}

fn triple(numbers: [i64; 3]) -> c::Triple {
    c::Triple { numbers }
}

fn grid_of(g: &Grid) -> c::Grid {
    c::Grid {
        bz_grid_type: g.kind,
        d_diag: g.mesh,
    }
}

/// A sheet whose parts are lent to a call.
pub struct Parts<'a> {
    pub weights: &'a mut [f64],
    pub flags: &'a mut [i8],
    pub marks: &'a mut [u8],
    pub tally: &'a mut [u64; 16],
}

pub fn run_piece(s: &Study, p: Parts, worker: i64, piece: [i64; 3]) -> u64 {
    let [triplet, b1, b2] = piece;
    let (t, w, f, m) = (
        read(&s.triplets),
        write(p.weights),
        write(p.flags),
        write(p.marks),
    );
    of_study!(
        pelmetsavory_run_piece,
        s,
        [t, w, f, m],
        [p.tally, worker, c::Piece { triplet, b1, b2 }]
    )
}

pub fn carry_on(s: &Study, p: Parts, worker: i64) -> u64 {
    let (t, w, f, m) = (
        read(&s.triplets),
        write(p.weights),
        write(p.flags),
        write(p.marks),
    );
    of_study!(pelmetsavory_carry_on, s, [t, w, f, m], [p.tally, worker])
}

pub fn play(
    s: &Study,
    p: Parts,
    list: &[i64],
    ids: &[i64],
    answers: &mut [u64],
    tallies: &mut [u64],
) -> u64 {
    let (t, w, f, m) = (
        read(&s.triplets),
        write(p.weights),
        write(p.flags),
        write(p.marks),
    );
    let (l, i, a, b) = (read(list), read(ids), write(answers), write(tallies));
    of_study!(
        pelmetsavory_play,
        s,
        [t, w, f, m],
        [p.tally, l.0, l.1, i.0, i.1, a.0, a.1, b.0, b.1]
    )
}

pub fn average_triplet(s: &Study, p: Parts, triplet: i64, ids: [&[i64]; 2]) -> u64 {
    let (t, w, f, m) = (
        read(&s.triplets),
        write(p.weights),
        write(p.flags),
        write(p.marks),
    );
    let (a, b) = (read(ids[0]), read(ids[1]));
    of_study!(
        pelmetsavory_average_triplet,
        s,
        [t, w, f, m],
        [p.tally, triplet, a.0, a.1, b.0, b.1]
    )
}

pub fn all_triplets(s: &Study, weights: &mut [f64], flags: &mut [i8]) -> u64 {
    let (t, w, f) = (read(&s.triplets), write(weights), write(flags));
    of_study!(pelmetsavory_integration_weight, s, [t, w, f], [])
}

/// The study's own triplets are not looked at.
pub fn one_triplet(s: &Study, triplet: [i64; 3], weights: &mut [f64], flags: &mut [i8]) -> u64 {
    let (w, f) = (write(weights), write(flags));
    of_study!(
        pelmetsavory_integration_weight_per_triplet,
        s,
        [],
        [triple(triplet), w.0, w.1, f.0, f.1]
    )
}

/// The greatest length of an answer in bytes.
pub const ANSWER: usize = 118617;

/// The answer to a study's text, at the start of `out`; its length.
pub fn answer(text: &[u8], out: &mut [u8]) -> usize {
    let out: &mut [u8; ANSWER] = out.try_into().expect("a buffer of that length");
    unsafe { c::pelmetsavory_answer(text.as_ptr(), text.len(), out) }
}

/// Counts: triplets, points, both bands.
fn counts_of(counts: [i64; 4]) -> c::Counts {
    let [num_triplets, num_band0, num_band1, num_band2] = counts;
    c::Counts {
        num_triplets,
        num_band0,
        num_band1,
        num_band2,
    }
}

pub fn open_count(
    tp: i64,
    counts: [i64; 4],
    weights: &[f64],
    triplet: i64,
    count: &mut u64,
) -> u64 {
    let w = read(weights);
    unsafe { c::pelmetsavory_open_count(tp, counts_of(counts), w.0, w.1, triplet, count) }
}

pub fn read_listing(
    listing: &[u8],
    tp: i64,
    counts: [i64; 4],
    weights: &mut [f64],
    flags: &mut [i8],
) -> u64 {
    let (l, w, f) = (read(listing), write(weights), write(flags));
    unsafe { c::pelmetsavory_read_listing(l.0, l.1, tp, counts_of(counts), w.0, w.1, f.0, f.1) }
}

pub fn averages(
    weights: &mut [f64],
    flags: &mut [i8],
    ids: [&[i64]; 2],
    points: i64,
    bands: i64,
    tp: i64,
) -> u64 {
    let (w, f) = (write(weights), write(flags));
    let (a, b) = (read(ids[0]), read(ids[1]));
    unsafe {
        c::pelmetsavory_average_weights_over_degenerate_sets(
            w.0, w.1, f.0, f.1, a.0, a.1, b.0, b.1, points, bands, tp,
        )
    }
}

/// What the call for weights at grid points takes beside the grid, the weights and the letter.
#[derive(Clone, Debug)]
pub struct GridPoints {
    pub points: Vec<f64>,
    pub table: Vec<i64>,
    pub gps: Vec<i64>,
    pub frequencies: Vec<f64>,
    pub bands: i64,
    pub irreducible: i64,
    pub of_point: Vec<i64>,
}

pub fn grid_points(g: &Grid, x: &GridPoints, weights: &mut [f64], letter: u8) -> u64 {
    at_grid_points!(
        pelmetsavory_integration_weights_at_grid_points,
        g,
        x,
        weights,
        letter
    )
}

/// Under a customer's table.
pub fn checked_grid_points(g: &Grid, x: &GridPoints, weights: &mut [f64], letter: u8) -> u64 {
    at_grid_points!(
        pelmetsavory_checked_integration_weights_at_grid_points,
        g,
        x,
        weights,
        letter
    )
}

/// A customer's table alone.
pub fn check_table(table: &[i64]) -> u64 {
    let t = read(table);
    unsafe { c::pelmetsavory_check_relative_grid_address(t.0, t.1) }
}

pub fn normal(triplet: [i64; 3], addresses: &[i64], normal: &mut u8) -> u64 {
    let a = read(addresses);
    unsafe { c::pelmetsavory_is_n(triple(triplet), a.0, a.1, normal) }
}

pub fn copies(out: &mut [i64], table: &[i64], tp: i64) -> u64 {
    let (o, t) = (write(out), read(table));
    unsafe { c::pelmetsavory_set_relative_grid_address(o.0, o.1, t.0, t.1, tp) }
}

pub fn one_point(g: &Grid, out: &mut [i64], gp: i64, steps: &[i64]) -> u64 {
    let (o, s, a, m) = (write(out), read(steps), read(&g.addresses), read(&g.map));
    unsafe {
        c::pelmetsavory_fill_neighboring_grid_points(
            o.0,
            o.1,
            gp,
            s.0,
            s.1,
            grid_of(g),
            a.0,
            a.1,
            m.0,
            m.1,
        )
    }
}

pub fn many_points(g: &Grid, out: &mut [i64], gps: &[i64], steps: &[i64]) -> u64 {
    let (o, p, s) = (write(out), read(gps), read(steps));
    let (a, m) = (read(&g.addresses), read(&g.map));
    unsafe {
        c::pelmetsavory_neighboring_grid_points_many(
            o.0,
            o.1,
            p.0,
            p.1,
            s.0,
            s.1,
            grid_of(g),
            a.0,
            a.1,
            m.0,
            m.1,
        )
    }
}

pub fn index(address: [i64; 3], mesh: [i64; 3], index: &mut i64) -> u64 {
    unsafe { c::pelmetsavory_grid_index_from_address(triple(address), triple(mesh), index) }
}

pub fn choice(lattice: &[f64; 9], table: &mut [i64; 288], index: &mut usize) -> u64 {
    unsafe { c::pelmetsavory_relative_grid_address(lattice, table, index) }
}

/// The numbers of the four tables: 24 rows of four corners each.
pub const TABLES: usize = 1152;

/// No number: nothing is asked.
pub fn all_tables(all: &mut [i64]) {
    let all: &mut [i64; TABLES] = all.try_into().expect("a buffer of that length");
    unsafe { c::pelmetsavory_all_relative_grid_address(all) }
}

/// No number: nothing is asked.
pub fn generated_tables(all: &mut [i64]) {
    let all: &mut [i64; TABLES] = all.try_into().expect("a buffer of that length");
    unsafe { c::pelmetsavory_generated_relative_grid_address(all) }
}

pub fn weight(omega: f64, vertices: &[f64], letter: u8, weight: &mut f64) -> u64 {
    let v = read(vertices);
    unsafe { c::pelmetsavory_tetrahedra_integration_weight(omega, v.0, v.1, letter, weight) }
}

pub fn matvec(lattice: &[f64; 9], vector: [i64; 3], product: &mut [f64; 3]) -> u64 {
    unsafe { c::pelmetsavory_matvec_di(lattice, triple(vector), product) }
}

pub fn channels(tp: i64, channels: &mut usize) -> u64 {
    unsafe { c::pelmetsavory_num_channels(tp, channels) }
}

pub fn tally_add(tally: &mut [u64; 16], worker: i64, runs: u64) -> u64 {
    unsafe { c::pelmetsavory_tally_add(tally, worker, runs) }
}

/// No number: nothing is asked.
pub fn fill_frequencies(start: u32, records: [&mut [f64]; 3]) {
    let [f1, f2, points] = records.map(write);
    unsafe { c::pelmetsavory_fill_frequencies(start, f1.0, f1.1, f2.0, f2.1, points.0, points.1) }
}
