//! One weight I or J, by the entry and by the kernel on rows in order; sorted rows.
use crate::lent::{same, Word};
use crate::report::{Kind, Seen};
use crate::rng::Rng;
use crate::studies::spoil_float;
use crate::values::{beyond, fits, POINT};
use crate::{asks, calls, kernels};
use phonors::probe::probe_sort_omegas;
use phonors::tetrahedron_method::{integration_weight, WeightFunction};

pub const KINDS: [Kind; 4] = [
    Kind::telling("weight I", &[7, 11], "are other than 0"),
    Kind::telling("weight J", &[7, 11], "are other than 0"),
    Kind::new("kernel: rows in order", &[]),
    Kind::new("rows sorted", &[]),
];

/// How the values of a row lie: random, ties, around 1e-10 apart, neighbouring floats, wide exponents, both zeros.
const STYLES: usize = 6;

fn value(r: &mut Rng, style: usize, base: f64) -> f64 {
    match style {
        0 => r.unit() * 10.0 - 2.0,
        1 => r.below(5) as f64,
        2 => near(r, base),
        3 => f64::from_bits(base.to_bits() + r.below(4) as u64),
        4 => {
            let x = (1.0 + r.unit()) * 2f64.powi(r.between(-660, 30) as i32);
            r.sign(x)
        }
        _ => r.pick(&[0.0, -0.0, 0.5, 1.0]),
    }
}

/// Values around 1e-10 apart, 1e-10 itself and the floats beside it.
fn near(r: &mut Rng, base: f64) -> f64 {
    match base.to_bits() % 3 {
        0 => 5.0 + r.below(7) as f64 * 4e-11,
        1 => 5.0 + r.unit() * 3e-10,
        _ => r.pick(&[
            0.0,
            5e-11,
            1e-10f64.next_down(),
            1e-10,
            1e-10f64.next_up(),
            2e-10,
        ]),
    }
}

/// What the values of a row share: where neighbouring floats begin, and how near 1e-10 is met.
fn base(r: &mut Rng) -> f64 {
    (1.0 + r.unit()) * 2f64.powi(r.between(-20, 28) as i32)
}

/// Rows of vertices, as the Rust takes them and flat.
struct Area {
    rows: Vec<[f64; 4]>,
    flat: [f64; 384],
}

fn area(r: &mut Rng, count: usize) -> Area {
    let style = r.below(STYLES + 1);
    let shared = if r.one_in(2) { Some(base(r)) } else { None };
    let mut a = Area {
        rows: vec![],
        flat: [0.0; 384],
    };
    for k in 0..count {
        let style = if style == STYLES {
            r.below(STYLES)
        } else {
            style
        };
        let base = shared.unwrap_or_else(|| base(r));
        let row = [0.0; 4].map(|_| value(r, style, base));
        a.flat[4 * k..][..4].copy_from_slice(&row);
        a.rows.push(row);
    }
    a
}

/// A point on a vertex, beside it, or between two vertices of a row.
fn omega(r: &mut Rng, a: &Area) -> f64 {
    let row = r.pick(&a.rows);
    let (x, y) = (r.pick(&row), r.pick(&row));
    let w = match r.below(8) {
        0..=2 => x,
        3 => x.next_up(),
        4 => x.next_down(),
        _ => x + (y - x) * r.unit(),
    };
    if fits(w, POINT) {
        w
    } else {
        x
    }
}

/// Weights I and J at four points of one set of vertices, and calls with faults.
pub fn cases(r: &mut Rng, seen: &mut [Seen]) {
    let count = r.pick(&[24, 48, 72, 96]);
    let a = area(r, count);
    let (mut ordered, mut places) = (a.flat, [0; 96]);
    kernels::sort(&mut ordered, &mut places, count);
    sorts(&a, &ordered, &places, &mut seen[3]);
    for _ in 0..4 {
        let at = omega(r, &a);
        for i in [true, false] {
            let want = rust(&a.rows, at, i);
            entry(r, &a, at, i, want, &mut seen[1 - i as usize]);
            let sorted = kernels::sorted(i, at, &ordered, &places, count);
            kernel(&a, at, sorted, want, &mut seen[2]);
        }
    }
    if r.one_in(4) {
        refused(r, &a, seen);
    }
}

fn rust(rows: &[[f64; 4]], at: f64, i: bool) -> f64 {
    let function = if i {
        WeightFunction::I
    } else {
        WeightFunction::J
    };
    integration_weight(at, rows, function)
}

fn sorts(a: &Area, ordered: &[f64; 384], places: &[usize; 96], seen: &mut Seen) {
    for (k, row) in a.rows.iter().enumerate() {
        let mut v = *row;
        let place = probe_sort_omegas(&mut v);
        let right = place == places[k] as i64 && same(&v, &ordered[4 * k..][..4]);
        seen.note(0, right, || {
            format!("{row:?}: place {} for {place}", places[k])
        });
    }
}

/// The letter of a function: I, or any other byte for J.
fn letter(r: &mut Rng, i: bool) -> u8 {
    match (i, r.next() as u8) {
        (true, _) => b'I',
        (false, b'I') => b'J',
        (false, other) => other,
    }
}

fn kernel(a: &Area, at: f64, got: f64, want: f64, seen: &mut Seen) {
    let right = got.to_bits() == want.to_bits();
    seen.note(0, right, || {
        format!("{got:e} for {want:e} at {at:e} in {:?}", a.rows)
    });
}

fn entry(r: &mut Rng, a: &Area, at: f64, i: bool, want: f64, seen: &mut Seen) {
    let vertices = &a.flat[..4 * a.rows.len()];
    let no = asks::weight(at, vertices);
    let mut got = f64::any(r);
    let answer = calls::weight(at, vertices, letter(r, i), &mut got);
    let right = answer == no && got.to_bits() == want.to_bits();
    seen.tell(no == 0 && want != 0.0);
    seen.note(no, right, || {
        format!("{answer}, {got:e} for {want:e} at {at:e} in {:?}", a.rows)
    });
}

/// A call with one fault or two: a wrong count of vertices, a vertex or the point beyond the limits.
fn refused(r: &mut Rng, a: &Area, seen: &mut [Seen]) {
    let mut vertices = a.flat[..4 * a.rows.len()].to_vec();
    let mut at = omega(r, a);
    for _ in 0..r.between(1, 2) {
        match r.below(5) {
            0 => vertices.truncate(vertices.len().saturating_sub(r.pick(&[1, 2, 3, 4, 92, 96]))),
            1 => vertices.resize(vertices.len() + r.pick(&[1, 4, 92, 100]), 1.0),
            2 | 3 => spoil_float(r, &mut vertices, POINT),
            _ => at = beyond(r, POINT),
        }
    }
    let i = r.one_in(2);
    let no = asks::weight(at, &vertices);
    if no == 0 {
        // a whole set of rows was cut off
        return;
    }
    let before = f64::any(r);
    let mut got = before;
    let answer = calls::weight(at, &vertices, letter(r, i), &mut got);
    let right = answer == no && got.to_bits() == before.to_bits();
    seen[1 - i as usize].note(no, right, || format!("{answer}, {at:e} in {vertices:?}"));
}
